//! The `record`, `look` and `replay` requests of the trials: a page as hexadecimal
//! digits, a record written into it or read from it, or all of it replayed.

use std::io::{self, Write};

use super::account::Message;
use super::handed::{first_number, held_words};
use super::lines::first_word;
use super::messages::{kind_of, letter_of};
use super::record::{read, write};
use super::replay::replay;

/// What stands for an empty page, so that every page is a word.
const EMPTY: &[u8] = b"-";

pub enum Paged<'a> {
    Record { message: Message<'a>, offset: u64, page: Vec<u8> },
    Look { offset: u64, page: Vec<u8> },
    Replay { page: Vec<u8> },
}

/// The request of a line, or none for a line of no such form.
pub fn paged_of(line: &[u8]) -> Option<Paged<'_>> {
    let (word, rest) = first_word(line)?;
    match word {
        b"record" => record_request(rest),
        b"look" => {
            let (offset, digits) = first_number(rest)?;
            Some(Paged::Look { offset, page: page_of(digits)? })
        }
        b"replay" => Some(Paged::Replay { page: page_of(rest)? }),
        _ => None,
    }
}

/// The text is the rest of the line as it is.
fn record_request(rest: &[u8]) -> Option<Paged<'_>> {
    let (kind, rest) = first_word(rest)?;
    let (number, rest) = first_number(rest)?;
    let (offset, rest) = first_number(rest)?;
    let (digits, text) = first_word(rest)?;
    let message = Message { kind: kind_of(kind)?, number, text };
    Some(Paged::Record { message, offset, page: page_of(digits)? })
}

/// A page from its digits, two a byte, capitals or small letters.
fn page_of(digits: &[u8]) -> Option<Vec<u8>> {
    if digits == EMPTY {
        return Some(Vec::new());
    }
    if digits.is_empty() || digits.len() % 2 != 0 {
        return None;
    }
    let value = |digit: u8| char::from(digit).to_digit(16);
    let byte = |two: &[u8]| u8::try_from(value(two[0])? << 4 | value(two[1])?).ok();
    digits.chunks(2).map(byte).collect()
}

/// The digits of a page, with capitals.
pub fn page_digits(page: &[u8]) -> Vec<u8> {
    if page.is_empty() {
        return EMPTY.to_vec();
    }
    page.iter().flat_map(|byte| format!("{byte:02X}").into_bytes()).collect()
}

pub fn answer_paged(paged: &Paged, output: &mut impl Write) -> io::Result<()> {
    match paged {
        Paged::Record { message, offset, page } => answer_record(message, *offset, page, output),
        Paged::Look { offset, page } => answer_look(*offset, page, output),
        Paged::Replay { page } => answer_replay(page, output),
    }
}

/// Lends the page, then shows the number and the page as it is afterwards.
fn answer_record(
    message: &Message,
    offset: u64,
    page: &[u8],
    output: &mut impl Write,
) -> io::Result<()> {
    let mut lent = page.to_vec();
    let number = write(&mut lent, offset, message).map_or_else(|refusal| refusal.number, |()| 0);
    write!(output, "{number} ")?;
    output.write_all(&page_digits(&lent))
}

fn answer_look(offset: u64, page: &[u8], output: &mut impl Write) -> io::Result<()> {
    match read(page, offset) {
        Ok(Some(message)) => {
            write!(output, "0 {} {} ", char::from(letter_of(message.kind)), message.number)?;
            output.write_all(message.text)
        }
        Ok(None) => write!(output, "end"),
        Err(refusal) => write!(output, "{}", refusal.number),
    }
}

fn answer_replay(page: &[u8], output: &mut impl Write) -> io::Result<()> {
    let replayed = replay(page);
    let number = replayed.refusal.map_or(0, |refusal| refusal.number);
    write!(output, "{number} {}", replayed.offset)?;
    for count in replayed.counts {
        write!(output, " {count}")?;
    }
    write!(output, " {}", held_words(&replayed.account))
}
