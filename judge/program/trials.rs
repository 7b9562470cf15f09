//! The trials: requests to write, to read, to code by either road, the questions,
//! messages to an account, its total and pages of records, one a line, each answered by
//! a line.

use std::io::{self, BufRead, Write};

use super::account::Account;
use super::code::{self, Fields, Rectangle, Refusal};
use super::handed::{answer_handed, asked_of, handed_of, Handed};
use super::lines::{number, unit_of, words, Line, Lines};
use super::pages::{answer_paged, paged_of, Paged};
use super::questions::Question;
use super::unit::{self, Road, Unit};

/// The most bytes of room a request may lend.
pub const ROOM_MAX: usize = 64;

/// What the room is filled with before it is lent.
const FILL: u8 = b'.';

pub enum Request<'a> {
    Write { room: usize, fields: Fields },
    Read { text: &'a [u8] },
    Code { road: Road, room: usize, unit: Unit },
    Ask(Question),
    Message(Box<Handed<'a>>),
    Total(Box<Account>),
    Page(Paged<'a>),
}

/// The request of a line, or none for a line of no such form.
pub fn request_of(line: &[u8]) -> Option<Request<'_>> {
    // The text may have spaces, so it is not taken as words.
    if let Some(text) = line.strip_prefix(b"read ") {
        return Some(Request::Read { text });
    }
    if let Some(rest) = line.strip_prefix(b"message ") {
        return handed_of(rest).map(Box::new).map(Request::Message);
    }
    if let Some(rest) = line.strip_prefix(b"total ") {
        return asked_of(rest).map(Box::new).map(Request::Total);
    }
    if let Some(paged) = paged_of(line) {
        return Some(Request::Page(paged));
    }
    let mut words = words(line);
    let road = match words.next()? {
        b"write" => return write_request(words),
        b"plain" => Road::Plain,
        b"quick" => Road::Quick,
        word => return question_request(word, words),
    };
    let room = room_of(words.next()?)?;
    let unit = unit_of(words)?;
    Some(Request::Code { road, room, unit })
}

fn room_of(word: &[u8]) -> Option<usize> {
    let length = usize::try_from(number(word)?).ok()?;
    Some(length).filter(|&length| length <= ROOM_MAX)
}

fn write_request<'a>(mut words: impl Iterator<Item = &'a [u8]>) -> Option<Request<'a>> {
    let room = room_of(words.next()?)?;
    let numbers: Option<Vec<u32>> = words.map(number).collect();
    let numbers: [u32; 8] = numbers?.try_into().ok()?;
    let [lat, lon, scale, east, west, south, north, number] = numbers.map(i64::from);
    let fields = Fields { lat, lon, scale, east, west, south, north, number };
    Some(Request::Write { room, fields })
}

fn question_request<'a>(word: &[u8], words: impl Iterator<Item = &'a [u8]>) -> Option<Request<'a>> {
    let numbers: Option<Vec<i64>> = words.map(|word| number(word).map(i64::from)).collect();
    Question::of(word, &numbers?).map(Request::Ask)
}

/// Answers requests until the input ends.
pub fn trials(input: impl BufRead, output: &mut impl Write) -> io::Result<()> {
    let mut lines = Lines::new(input);
    while let Some(line) = lines.next()? {
        answer_line(&line, output)?;
    }
    output.flush()
}

fn answer_line(line: &Line, output: &mut impl Write) -> io::Result<()> {
    let request = match line {
        Line::Whole(bytes) => request_of(bytes),
        Line::TooLong => None,
    };
    match request {
        Some(request) => answer(&request, output)?,
        None => output.write_all(b"?")?,
    }
    output.write_all(b"\n")
}

fn answer(request: &Request, output: &mut impl Write) -> io::Result<()> {
    match request {
        Request::Write { room, fields } => {
            answer_room(*room, output, |room| code::write(fields, room))
        }
        Request::Read { text } => answer_read(text, output),
        Request::Code { road, room, unit } => {
            answer_room(*room, output, |room| unit::code(unit, room, *road))
        }
        Request::Ask(question) => write!(output, "{}", u8::from(question.yes())),
        Request::Message(handed) => answer_handed(handed, output),
        Request::Total(account) => write!(output, "{}", account.total()),
        Request::Page(paged) => answer_paged(paged, output),
    }
}

/// Lends the room, then shows number, place and the room as it is afterwards.
fn answer_room(
    length: usize,
    output: &mut impl Write,
    work: impl FnOnce(&mut [u8]) -> Result<(), Refusal>,
) -> io::Result<()> {
    let mut lent = [FILL; ROOM_MAX];
    let room = &mut lent[..length];
    let (number, place) = number_and_place(&work(room));
    write!(output, "{number} {place} ")?;
    output.write_all(room)
}

fn number_and_place<T>(reply: &Result<T, Refusal>) -> (u8, usize) {
    match reply {
        Ok(_) => (0, 0),
        Err(refusal) => (refusal.number, refusal.place),
    }
}

fn answer_read(text: &[u8], output: &mut impl Write) -> io::Result<()> {
    let reply = code::read(text);
    let (number, place) = number_and_place(&reply);
    // A refused reading has every field and rectangle side 0.
    let (f, r) = reply.unwrap_or((Fields::default(), Rectangle::default()));
    write!(
        output,
        "{number} {place} {} {} {} {} {} {} {} {} {} {} {} {}",
        f.lat,
        f.lon,
        f.scale,
        f.east,
        f.west,
        f.south,
        f.north,
        f.number,
        r.west,
        r.east,
        r.south,
        r.north
    )
}
