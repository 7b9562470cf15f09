//! The program `journal`: message lines as records end to end, and what of them cannot be
//! recorded told apart from these.

use std::io::{self, BufRead, Write};

use super::code::{refused, Refusal};
use super::lines::{Line, Lines};
use super::messages::message_of;
use super::record::{write, RECORD};

/// Writes the page of all message lines; whether each line was recorded. No account is
/// kept, so that only 9, 10, 41 and 42 are told.
pub fn journal(
    input: impl BufRead,
    output: &mut impl Write,
    errors: &mut impl Write,
) -> io::Result<bool> {
    let mut lines = Lines::new(input);
    let (mut line_number, mut all) = (0u64, true);
    while let Some(line) = lines.next()? {
        line_number += 1;
        match record_of(&line) {
            Ok(record) => output.write_all(&record)?,
            Err(refusal) => {
                all = false;
                writeln!(errors, "{line_number} refused {} {}", refusal.number, refusal.place)?;
            }
        }
    }
    output.flush()?;
    Ok(all)
}

/// The record of a line; the line that asks for the total states no message.
fn record_of(line: &Line) -> Result<[u8; RECORD], Refusal> {
    let Line::Whole(bytes) = line else {
        return Err(refused(10));
    };
    let message = message_of(bytes).ok_or(refused(9))?;
    let mut record = [0; RECORD];
    write(&mut record, 0, &message)?;
    Ok(record)
}
