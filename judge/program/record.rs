//! The records of request 6 of document 02: how a message is written into a page, and
//! how the record at an offset of a page is read.

use std::ops::Range;

use super::account::{code_of, Message};
use super::code::{self, letter_value, put_letters, refused, Refusal, LENGTH};
use super::messages::{kind_of, letter_of};

/// What each record begins with.
pub const MARK: [u8; 2] = [0x2A, 0x2B];

/// Letters of a message number, five bits each.
pub const NUMBER: usize = 8;

/// Where a record has its kind, its code and its number, and where it ends.
pub const KIND_AT: usize = MARK.len();
pub const CODE_AT: usize = KIND_AT + 1;
pub const NUMBER_AT: usize = CODE_AT + LENGTH;
pub const RECORD: usize = NUMBER_AT + NUMBER;

/// The stretch of a record that starts at an offset, or none where fewer than 31 bytes
/// are left there. No sum is taken of an offset that is past the end.
fn stretch(page: &[u8], offset: u64) -> Option<Range<usize>> {
    let offset = usize::try_from(offset).ok().filter(|&offset| offset <= page.len())?;
    Some(offset..offset + RECORD).filter(|stretch| stretch.end <= page.len())
}

/// Writes a message into its own stretch of a page. A refusal, 41, 42 or 51, writes
/// nothing.
pub fn write(page: &mut [u8], offset: u64, message: &Message) -> Result<(), Refusal> {
    code_of(message)?;
    let stretch = stretch(page, offset).ok_or(refused(51))?;
    let record = &mut page[stretch];
    record[..KIND_AT].copy_from_slice(&MARK);
    record[KIND_AT] = letter_of(message.kind);
    record[CODE_AT..NUMBER_AT].copy_from_slice(message.text);
    put_letters(&mut record[NUMBER_AT..], message.number);
    Ok(())
}

/// The message of the record at an offset, its text the code's own bytes in the page;
/// none at the page's end.
pub fn read(page: &[u8], offset: u64) -> Result<Option<Message<'_>>, Refusal> {
    if offset == page.len() as u64 {
        return Ok(None);
    }
    let record = &page[stretch(page, offset).ok_or(refused(52))?];
    if record[..KIND_AT] != MARK {
        return Err(refused(53));
    }
    message_of(record).map(Some).ok_or(refused(54))
}

/// The message of a record whose mark is right.
fn message_of(record: &[u8]) -> Option<Message<'_>> {
    let kind = kind_of(&record[KIND_AT..CODE_AT])?;
    let text = &record[CODE_AT..NUMBER_AT];
    code::read(text).ok()?;
    let number = record[NUMBER_AT..]
        .iter()
        .try_fold(0, |number, &letter| Some(number << 5 | letter_value(letter)?))?;
    Some(Message { kind, number, text }).filter(|message| message.number != 0)
}
