//! Replay of a page, request 6 of document 02: its messages sent one by one to an empty
//! account, and the program `replay`, which prints what comes of them.

use std::io::{self, Read, Write};

use super::account::{Account, Answer};
use super::code::Refusal;
use super::record::{read, RECORD};

/// The most bytes of a page that the program replays.
pub const PAGE_MAX: usize = 1_048_576;

/// The answers that are counted, in the order of their counts; "full" is 43.
pub const COUNTED: [&str; 6] = ["activated", "already", "cancelled", "not active", "old", "full"];

pub struct Replay {
    pub account: Account,
    pub counts: [u64; COUNTED.len()],
    /// The offset of the record at which it stopped, at a clean end the page's length.
    pub offset: u64,
    /// Why it stopped there, or none at the end.
    pub refusal: Option<Refusal>,
}

/// Sends the messages of a page until its end or a record that reading refuses.
pub fn replay(page: &[u8]) -> Replay {
    let (account, counts) = (Account::empty(), [0; COUNTED.len()]);
    let mut replay = Replay { account, counts, offset: 0, refusal: None };
    loop {
        match read(page, replay.offset) {
            Ok(Some(message)) => {
                replay.counts[counted(replay.account.send(&message))] += 1;
                replay.offset += RECORD as u64;
            }
            Ok(None) => return replay,
            Err(refusal) => return Replay { refusal: Some(refusal), ..replay },
        }
    }
}

/// Which count an answer belongs to.
fn counted(answer: Result<Answer, Refusal>) -> usize {
    match answer {
        Ok(Answer::Activated) => 0,
        Ok(Answer::Already) => 1,
        Ok(Answer::Cancelled) => 2,
        Ok(Answer::NotActive) => 3,
        Ok(Answer::Old) => 4,
        Err(refusal) => {
            // What reading gives passes 41 and 42, and no account from an empty one is refused 40.
            assert_eq!(refusal.number, 43);
            5
        }
    }
}

/// The program `replay`: whether the page is not too long for it.
pub fn program(
    input: impl Read,
    output: &mut impl Write,
    errors: &mut impl Write,
) -> io::Result<bool> {
    let mut page = Vec::new();
    input.take(PAGE_MAX as u64 + 1).read_to_end(&mut page)?;
    if page.len() > PAGE_MAX {
        writeln!(errors, "replay: the page has more than {PAGE_MAX} bytes")?;
        return Ok(false);
    }
    print(&replay(&page), output)?;
    output.flush()?;
    Ok(true)
}

fn print(replay: &Replay, output: &mut impl Write) -> io::Result<()> {
    match replay.refusal {
        Some(refusal) => writeln!(output, "refused {} {}", refusal.number, replay.offset)?,
        None => writeln!(output, "end {}", replay.offset)?,
    }
    for (answer, count) in COUNTED.iter().zip(replay.counts) {
        writeln!(output, "{answer} {count}")?;
    }
    let account = &replay.account;
    writeln!(output, "last {}\ntotal {}", account.last, account.total())?;
    for (at, place) in account.places.iter().enumerate().filter(|place| place.1.active()) {
        let letters = place.letters().unwrap_or_default();
        writeln!(output, "{at} {}", String::from_utf8_lossy(&letters))?;
    }
    Ok(())
}
