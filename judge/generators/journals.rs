//! Random requests with a page of records: a record written into it, the record at an
//! offset, and replay, with offsets, numbers and texts on both sides of every border.

use super::broken::broken;
use super::pages::{room_page, some_page, Page};
use super::random::Random;
use super::texts::{refused_text, some_code};
use crate::program::account::MESSAGE_MAX;
use crate::program::lines::LINE_MAX;
use crate::program::pages::page_digits;
use crate::program::record::RECORD;

/// Words that are no page.
const BAD_PAGES: [&[u8]; 12] = [
    b"", b"0", b"--", b"-0", b"00-", b"0x", b"2G", b"2A2", b"+1", b"2A\t2B", b"2A2B\r", b"\xff\xff",
];

/// Words that are no numbers of up to 64 bits.
const BAD_NUMBERS: [&[u8]; 8] =
    [b"", b"00", b"031", b"+0", b"-1", b"1.0", b"18446744073709551616", b"100000000000000000000"];

/// A `record` request's line.
pub fn record_line(kind: char, number: u64, offset: u64, page: &[u8], text: &[u8]) -> Vec<u8> {
    let start = format!("record {kind} {number} {offset} ").into_bytes();
    [start, page_digits(page), b" ".to_vec(), text.to_vec()].concat()
}

/// A `look` request's line.
pub fn look_line(offset: u64, page: &[u8]) -> Vec<u8> {
    [format!("look {offset} ").into_bytes(), page_digits(page)].concat()
}

/// A `replay` request's line.
pub fn replay_line(page: &[u8]) -> Vec<u8> {
    [b"replay ".to_vec(), page_digits(page)].concat()
}

pub fn record_request(random: &mut Random) -> Vec<u8> {
    let page = room_page(random, 60);
    let (number, offset) = (number(random), offset(random, &page));
    let code = some_code(random);
    let text = if random.one_in(6) { refused_text(random, &code) } else { code.to_vec() };
    let kind = random.pick(&['A', 'C']);
    let mut line = record_line(kind, number, offset, &page.bytes, &text);
    // Rarely as long as a line may be, or a byte longer.
    if random.one_in(1_000) {
        line.resize(LINE_MAX + random.index(2), b'0');
    }
    written(random, line, 4)
}

pub fn look_request(random: &mut Random) -> Vec<u8> {
    let page = some_page(random, 60);
    let offset = offset(random, &page);
    let line = look_line(offset, &page.bytes);
    let line = lengthened(random, line);
    written(random, line, 2)
}

pub fn replay_request(random: &mut Random) -> Vec<u8> {
    let line = replay_line(&some_page(random, 10).bytes);
    let line = lengthened(random, line);
    written(random, line, 1)
}

/// The line, rarely as long as a line with whole bytes may be, or just longer.
fn lengthened(random: &mut Random, mut line: Vec<u8>) -> Vec<u8> {
    if random.one_in(1_000) && !line.ends_with(b"-") {
        let odd = (line.len() ^ LINE_MAX) & 1;
        line.resize(LINE_MAX + random.pick(&[0, 2, 1]) - odd, b'0');
    }
    line
}

/// A number for a record: at the borders, where a letter more is used, or any.
fn number(random: &mut Random) -> u64 {
    let any = random.below(MESSAGE_MAX + 1) >> random.below(40);
    let letters = 1u64 << (5 * random.below(9));
    let huge = MESSAGE_MAX + 1 + random.below(u64::MAX - MESSAGE_MAX);
    match random.below(24) {
        0 => 0,
        1 => MESSAGE_MAX + 1,
        2 => random.pick(&[u64::MAX, huge]),
        3..=4 => MESSAGE_MAX,
        5..=6 => random.pick(&[1, 31, 32, 33]),
        7..=9 => letters.saturating_sub(random.below(2)).clamp(1, MESSAGE_MAX),
        _ => any,
    }
}

/// An offset: what is worth a look, a record's start, beside one, at the end, past it, or so
/// far that the sum of it and a record's length is no number of 64 bits any more.
fn offset(random: &mut Random, page: &Page) -> u64 {
    let (length, spot, record) = (page.bytes.len() as u64, page.spot as u64, RECORD as u64);
    let near = random.pick(&[1, 2, record - 1, record, record + 1]);
    let (any, start) = (random.below(length), record * random.below(length / record + 1));
    let beyond = random.pick(&[0, 1, record - 2, record - 1, record, record + 1, length, spot]);
    match random.below(32) {
        0..=18 => spot,
        19..=20 => start,
        21..=22 => length,
        23 => length + near,
        24 => length.saturating_sub(near),
        25 => spot + near,
        26 => spot.saturating_sub(near),
        27 => any,
        28 => u64::MAX - beyond,
        29 => random.pick(&[1 << 32, 1 << 63, 1 << 31]) + spot,
        _ => 0,
    }
}

/// The line, now and then with small digits or malformed; its page is the word `at`.
fn written(random: &mut Random, line: Vec<u8>, at: usize) -> Vec<u8> {
    let small = random.below(8);
    if small > 1 && !random.one_in(30) {
        return line;
    }
    let mut words: Vec<Vec<u8>> = line.split(|&byte| byte == b' ').map(<[u8]>::to_vec).collect();
    if small <= 1 {
        let shrinks = |digit: &u8| small == 0 || digit % 2 == 0;
        words[at]
            .iter_mut()
            .filter(|digit| shrinks(digit))
            .for_each(|digit| digit.make_ascii_lowercase());
        return words.join(&b' ');
    }
    malformed(random, &line, words, at)
}

/// A request that is nearly always of no good form.
fn malformed(random: &mut Random, line: &[u8], mut words: Vec<Vec<u8>>, at: usize) -> Vec<u8> {
    match random.below(8) {
        0..=1 => return broken(random, line),
        2 => words[at] = random.pick(&BAD_PAGES).to_vec(),
        3 => words[at].push(b'0'),
        4 => drop(words[at].pop()),
        5 if at > 1 => words[at - 1] = random.pick(&BAD_NUMBERS).to_vec(),
        6 if at > 2 => words[1] = random.pick(&[b"a".as_slice(), b"B", b"", b"AC", b"T"]).to_vec(),
        _ => words.truncate(at + random.index(2)),
    }
    words.join(&b' ')
}
