//! Message lines, the line that asks for the total, and the program `account`, which
//! has one account answer them.

use std::io::{self, BufRead, Write};

use super::account::{Account, Answer, Kind, Message};
use super::code::{refused, Refusal};
use super::lines::{first_word, long_number, Line, Lines};

/// The whole line that asks for the total.
const ASKING: &[u8] = b"T";

/// The kind of a message from its word.
pub fn kind_of(word: &[u8]) -> Option<Kind> {
    match word {
        b"A" => Some(Kind::Activate),
        b"C" => Some(Kind::Cancel),
        _ => None,
    }
}

/// The letter of a kind.
pub fn letter_of(kind: Kind) -> u8 {
    match kind {
        Kind::Activate => b'A',
        Kind::Cancel => b'C',
    }
}

/// The message of a line: kind, number, and the rest of the line as it is for the
/// code. None for a line of another form.
pub fn message_of(line: &[u8]) -> Option<Message<'_>> {
    let (kind, rest) = first_word(line)?;
    let (number, text) = first_word(rest)?;
    Some(Message { kind: kind_of(kind)?, number: long_number(number)?, text })
}

/// The program `account`, from an empty account.
pub fn account(input: impl BufRead, output: &mut impl Write) -> io::Result<()> {
    let mut account = Account::empty();
    let mut lines = Lines::new(input);
    let mut line_number = 0u64;
    while let Some(line) = lines.next()? {
        line_number += 1;
        let said = match line {
            Line::Whole(ASKING) => format!("total {}", account.total()),
            _ => in_words(answer(&mut account, &line)),
        };
        writeln!(output, "{line_number} {said}")?;
    }
    output.flush()
}

/// What the account answers to a message line; 10 and 9 come before all else.
fn answer(account: &mut Account, line: &Line) -> Result<Answer, Refusal> {
    let Line::Whole(bytes) = line else {
        return Err(refused(10));
    };
    account.send(&message_of(bytes).ok_or(refused(9))?)
}

fn in_words(answer: Result<Answer, Refusal>) -> String {
    match answer {
        Ok(Answer::Activated) => "activated".to_string(),
        Ok(Answer::Already) => "already".to_string(),
        Ok(Answer::Cancelled) => "cancelled".to_string(),
        Ok(Answer::NotActive) => "not active".to_string(),
        Ok(Answer::Old) => "old".to_string(),
        Err(refusal) => format!("refused {} {}", refusal.number, refusal.place),
    }
}
