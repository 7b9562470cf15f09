//! Random pages of records: histories of every length with every answer of an account,
//! and ways to damage them.

use super::broken::noise;
use super::random::Random;
use super::texts::{codes, refused_code, Code};
use crate::program::account::{MESSAGE_MAX, PLACES};
use crate::program::code::{put_letters, LETTERS};
use crate::program::record::{CODE_AT, KIND_AT, MARK, NUMBER, NUMBER_AT, RECORD};

/// The most records of a page that a request line can hold beside its other words.
pub const LONGEST: usize = 394;

/// Lengths of a page beside those of no, one and two records.
const LENGTHS: [usize; 9] = [0, 1, 29, 30, 31, 32, 61, 62, 63];

/// Last numbers before a page's first record: its numbers then pass 1, 32 and others
/// that begin with a new letter, 32 bits, or the greatest one, after which all is old.
const LASTS: [u64; 9] = [0, 0, 0, 0, 30, 1_022, (1 << 20) - 3, (1 << 32) - 2, MESSAGE_MAX - 5];

/// Bytes that are no letters, and those of the mark and of the kinds in small.
const STRANGE: &[u8; 23] = b"IOSZ*+acyz /:@[`{-\0\n\x7f\x80\xff";

/// Kinds of no message.
const KINDS: &[u8; 10] = b"acBDTXI@\0\xc1";

/// Marks that are none.
const MARKS: [[u8; 2]; 6] = [*b"+*", *b"**", *b"++", *b"*,", *b"\0\0", *b"A0"];

/// A page, and the offset in it that is worth a look.
pub struct Page {
    pub bytes: Vec<u8>,
    pub spot: usize,
}

/// The bytes of a record, whether reading takes it or not.
pub fn record(kind: u8, code: &Code, number: u64) -> Vec<u8> {
    let mut letters = [0; NUMBER];
    put_letters(&mut letters, number);
    [&MARK, &[kind][..], code, &letters].concat()
}

/// So many records, one history. One that fills the account is nearly all activations of new
/// codes; else about half are cancellations, and a quarter of the codes are any of the pool.
fn history(random: &mut Random, count: usize, pool: &[Code], full: bool) -> Vec<u8> {
    let (cancellations, any) = if full { (1, 16) } else { (9, 4) };
    let mut last = random.pick(&LASTS[..LASTS.len() - usize::from(count > 40)]);
    let mut page = Vec::with_capacity(count * RECORD);
    for at in 0..count {
        let number = next_number(random, last);
        last = last.max(number);
        let code = if random.one_in(any) { random.pick(pool) } else { pool[at % pool.len()] };
        let kind = if random.below(20) < cancellations { b'C' } else { b'A' };
        page.extend(record(kind, &code, number));
    }
    page
}

/// A number that mostly follows the last one; one in eight is old.
fn next_number(random: &mut Random, last: u64) -> u64 {
    let (before, far) = (random.below(last), random.below(1 << 33));
    let number = match random.below(48) {
        0..=1 => last,
        2..=3 => last.saturating_sub(1),
        4 => 1,
        5 => before,
        6..=8 => last + 1 + random.below(1_000),
        9 => last + far,
        _ => last + 1,
    };
    number.clamp(1, MESSAGE_MAX)
}

/// A page of good records: mostly few, and codes so few that they come again. One in `long`
/// is as long as a request line takes, and most of these fill the account.
fn good_page(random: &mut Random, long: u64) -> Vec<u8> {
    let count = match random.below(26) {
        _ if random.one_in(long) => LONGEST - random.index(50),
        0..=2 => 0,
        3..=15 => 1 + random.index(4),
        16..=22 => 5 + random.index(12),
        _ => 17 + random.index(40),
    };
    let full = count > PLACES && !random.one_in(4);
    let few = 1 + random.index(count / 2 + 2);
    let pool = codes(random, if full { LONGEST } else { few });
    history(random, count, &pool, full)
}

/// A page for reading and replay: half are damaged, some of them twice, and one in eight
/// is of a length beside that of no, one or two records; one in `long` is a long one.
pub fn some_page(random: &mut Random, long: u64) -> Page {
    let bytes = good_page(random, long);
    let mut page = Page { spot: RECORD * random.index(bytes.len() / RECORD + 1), bytes };
    for _ in 0..random.pick(&[0, 0, 0, 0, 0, 1, 1, 1, 1, 1, 2]) {
        damage(random, &mut page);
    }
    if random.one_in(8) {
        resize(random, &mut page.bytes);
    }
    page
}

/// A page to write into: of any bytes, at a record's start or not.
pub fn room_page(random: &mut Random, long: u64) -> Page {
    let mut page = some_page(random, long);
    let length = page.bytes.len();
    if random.one_in(4) {
        page.bytes = noise(random, length);
    }
    page
}

/// Brings a page to one of the lengths at the borders.
fn resize(random: &mut Random, bytes: &mut Vec<u8>) {
    let length = random.pick(&LENGTHS);
    let filling = random.pick(b".0*\0\xff");
    bytes.resize(length, filling);
}

/// Damages a page at the start of a record or in it: bytes lost, put in, put on, or others.
fn damage(random: &mut Random, page: &mut Page) {
    let bytes = &mut page.bytes;
    let records = bytes.len() / RECORD;
    let at = RECORD * random.index(records);
    let some = 1 + random.index(RECORD);
    page.spot = at;
    match random.below(12) {
        _ if records == 0 => bytes.extend(stray(random)),
        0..=1 => bytes.truncate(bytes.len() - some),
        2 => bytes.extend(stray(random)),
        3 => {
            let stray = stray(random);
            // Where the stray bytes stand, or the good record after them.
            page.spot += random.pick(&[0, stray.len()]);
            bytes.splice(at..at, stray);
        }
        4 => {
            page.spot += random.pick(&[0, RECORD - some]);
            bytes.drain(at..at + some);
        }
        5 => drop(bytes.remove(at + some - 1)),
        _ => spoil(random, &mut bytes[at..at + RECORD]),
    }
}

/// Bytes of no record: any, a fill, or a record that breaks off.
fn stray(random: &mut Random) -> Vec<u8> {
    let length = 1 + random.index(RECORD + 1);
    let code = random.pick(&[b"00000000001UY1120000", b"0W7ARCTDHYYRA99A0001"]);
    match random.below(4) {
        0 => noise(random, length),
        1 => vec![random.pick(b"0A.*+\0\n"); length],
        2 => record(b'A', code, 1)[RECORD - length.min(RECORD - 1)..].to_vec(),
        _ => record(b'A', code, 1)[..length.min(RECORD - 1)].to_vec(),
    }
}

/// Makes a record that nearly always is refused.
fn spoil(random: &mut Random, record: &mut [u8]) {
    match random.below(18) {
        0 => record[..KIND_AT].copy_from_slice(&random.pick(&MARKS)),
        1..=2 => record[KIND_AT] = random.pick(KINDS),
        3..=5 => record[CODE_AT..NUMBER_AT].copy_from_slice(&refused_code(random)),
        6..=7 => record[NUMBER_AT..].fill(b'0'),
        8 => record[CODE_AT..].make_ascii_lowercase(),
        9 => record[NUMBER_AT..].make_ascii_lowercase(),
        10 => record.rotate_left(1),
        11..=12 => {
            let at = random.index(CODE_AT);
            record[at] = changed(random, record[at]);
        }
        _ => {
            let at = random.index(RECORD);
            record[at] = changed(random, record[at]);
        }
    }
}

/// A byte changed to a letter, to one that is none, or in a bit.
fn changed(random: &mut Random, byte: u8) -> u8 {
    match random.below(3) {
        0 => random.pick(LETTERS),
        1 => random.pick(STRANGE),
        _ => byte ^ 1 << random.below(8),
    }
}
