//! Lines of input of any length, numbers as the listing has them, and the
//! listing program.

use std::io::{self, BufRead, ErrorKind, Write};

use super::code::LENGTH;
use super::unit::{self, Kind, Road, Unit};

/// Bytes a line may have before its line feed or the end of input.
pub const LINE_MAX: usize = 24_576;

pub enum Line<'a> {
    Whole(&'a [u8]),
    TooLong,
}

/// Gives the lines of an input one by one in the same room.
pub struct Lines<R> {
    input: R,
    room: Vec<u8>,
}

impl<R: BufRead> Lines<R> {
    pub fn new(input: R) -> Lines<R> {
        Lines { input, room: Vec::with_capacity(LINE_MAX) }
    }

    /// The next line, or none: no line starts after a line feed that ends the
    /// input. The rest of a line that is too long is passed over.
    pub fn next(&mut self) -> io::Result<Option<Line<'_>>> {
        self.room.clear();
        let (mut started, mut too_long) = (false, false);
        loop {
            let seen = match self.input.fill_buf() {
                Ok(seen) => seen,
                Err(error) if error.kind() == ErrorKind::Interrupted => continue,
                Err(error) => return Err(error),
            };
            if seen.is_empty() {
                break;
            }
            started = true;
            let feed = seen.iter().position(|&byte| byte == b'\n');
            let part = &seen[..feed.unwrap_or(seen.len())];
            too_long |= part.len() > LINE_MAX - self.room.len();
            if !too_long {
                self.room.extend_from_slice(part);
            }
            let used = part.len() + usize::from(feed.is_some());
            self.input.consume(used);
            if feed.is_some() {
                break;
            }
        }
        Ok(match (started, too_long) {
            (false, _) => None,
            (true, true) => Some(Line::TooLong),
            (true, false) => Some(Line::Whole(&self.room)),
        })
    }
}

/// A number: decimal, 1 to 10 digits, at most 4,294,967,295, no leading zero
/// but in `0`.
pub fn number(word: &[u8]) -> Option<u32> {
    let digits = (1..=10).contains(&word.len()) && word.iter().all(u8::is_ascii_digit);
    if !digits || (word[0] == b'0' && word.len() > 1) {
        return None;
    }
    let value = word.iter().fold(0u64, |value, digit| value * 10 + u64::from(digit - b'0'));
    u32::try_from(value).ok()
}

/// A number of up to 64 bits: decimal, at most 18,446,744,073,709,551,615, no
/// leading zero but in `0`.
pub fn long_number(word: &[u8]) -> Option<u64> {
    let digits = !word.is_empty() && word.iter().all(u8::is_ascii_digit);
    if !digits || (word[0] == b'0' && word.len() > 1) {
        return None;
    }
    word.iter()
        .try_fold(0u64, |value, digit| value.checked_mul(10)?.checked_add(u64::from(digit - b'0')))
}

/// A unit from its words: kind, number, coordinates.
pub fn unit_of<'a>(mut words: impl Iterator<Item = &'a [u8]>) -> Option<Unit> {
    let kind = match words.next()? {
        b"B" => Kind::Building,
        b"F" => Kind::Other,
        _ => return None,
    };
    let unit_number = number(words.next()?)?;
    let coordinates: Option<Vec<u32>> = words.map(number).collect();
    Some(Unit { kind, number: unit_number, coordinates: coordinates? })
}

/// The words of a line; two spaces in a row have an empty word between them.
pub fn words(line: &[u8]) -> impl Iterator<Item = &[u8]> {
    line.split(|&byte| byte == b' ')
}

/// The first word and what follows the space after it, or none without a space.
pub fn first_word(line: &[u8]) -> Option<(&[u8], &[u8])> {
    let space = line.iter().position(|&byte| byte == b' ')?;
    Some((&line[..space], &line[space + 1..]))
}

/// The listing program.
pub fn listing(input: impl BufRead, output: &mut impl Write) -> io::Result<()> {
    let mut lines = Lines::new(input);
    let mut line_number = 0u64;
    while let Some(line) = lines.next()? {
        line_number += 1;
        write!(output, "{line_number} ")?;
        list_line(&line, output)?;
        output.write_all(b"\n")?;
    }
    output.flush()
}

/// What the listing says of one line after its number.
fn list_line(line: &Line, output: &mut impl Write) -> io::Result<()> {
    let Line::Whole(bytes) = line else {
        return write!(output, "refused 10 0");
    };
    let Some(unit) = unit_of(words(bytes)) else {
        return write!(output, "refused 9 0");
    };
    let mut room = [0; LENGTH];
    match unit::code(&unit, &mut room, Road::Quick) {
        Ok(()) => output.write_all(&room),
        Err(refusal) => write!(output, "refused {} {}", refusal.number, refusal.place),
    }
}
