//! The fixed message lines for the program `account`, one history: every answer and
//! refusal, numbers and texts at their borders, lines of another form or too long, an
//! account that is filled and emptied, and the asking for the total after all these.

use std::io::{self, Write};

use super::bordermessages::{numbered, CODES, REFUSED, TEXTS};
use super::borders::print_lines;
use super::histories::{asking, line_of};
use crate::program::account::{MESSAGE_MAX, PLACES};
use crate::program::lines::LINE_MAX;

type Lines = Vec<Vec<u8>>;

/// Lines of another form than a message's; their numbers would be new ones.
const MALFORMED: [&[u8]; 79] = [
    b"",
    b" ",
    b"  ",
    b"   ",
    b"\0",
    b"\r",
    b"\t",
    b"\xff",
    b"A",
    b"C",
    b"a",
    b"5000",
    b"A ",
    b"C ",
    b"A  ",
    b"A   ",
    b"A 5000",
    b"C 5000",
    b"A5000 ",
    b"A5000 00000000001UY1120000",
    b"A 500000000000001UY1120000",
    b"A 00000000001UY1120000",
    b"A  00000000001UY1120000",
    b"5000 00000000001UY1120000",
    b" 5000 00000000001UY1120000",
    b"00000000001UY1120000",
    b"a 5000 00000000001UY1120000",
    b"c 5000 00000000001UY1120000",
    b"B 5000 00000000001UY1120000",
    b"AA 5000 00000000001UY1120000",
    b"AC 5000 00000000001UY1120000",
    b"\xc1 5000 00000000001UY1120000",
    b" A 5000 00000000001UY1120000",
    b"A  5000 00000000001UY1120000",
    b"A\t5000 00000000001UY1120000",
    b"A\0 5000 00000000001UY1120000",
    b"A 5000\t00000000001UY1120000",
    b"A 5000\r",
    b"A 5000\r 00000000001UY1120000",
    b"A 05000 00000000001UY1120000",
    b"A 00 00000000001UY1120000",
    b"A 01 00000000001UY1120000",
    b"A +5000 00000000001UY1120000",
    b"A -5000 00000000001UY1120000",
    b"A -0 00000000001UY1120000",
    b"A 5000. 00000000001UY1120000",
    b"A 5,000 00000000001UY1120000",
    b"A 0x50 00000000001UY1120000",
    b"A 5e3 00000000001UY1120000",
    b"A 50a0 00000000001UY1120000",
    b"A \xb5 00000000001UY1120000",
    b"A 5000\0 00000000001UY1120000",
    b"A 18446744073709551616 00000000001UY1120000",
    b"C 18446744073709551620 00000000001UY1120000",
    b"C 20000000000000000000 00000000001UY1120000",
    b"A 100000000000000000000 00000000001UY1120000",
    b"A 00000000000000000005000 00000000001UY1120000",
    b"T ",
    b"T  ",
    b" T",
    b" T ",
    b"t",
    b"TT",
    b"TA",
    b"AT",
    b"T T",
    b"T\0",
    b"T\t",
    b"T\r",
    b"\tT",
    b"\xd4",
    b"T 0",
    b"T 1",
    b"T 5000",
    b"T 5000 ",
    b"T 5000 00000000001UY1120000",
    b"T 00000000001UY1120000",
    b"A T 00000000001UY1120000",
    b"total",
];

/// The numbers that are used up here are all under 5,000, so that a random history can follow.
pub fn border_account(output: &mut impl Write) -> io::Result<()> {
    let groups =
        [answers(), numbers(), texts(), malformed(), long(), filled(), reused(), emptied()];
    print_lines(&groups.concat(), output)
}

/// The lines, each with the asking for the total after it.
fn asked(lines: Lines) -> Lines {
    lines.into_iter().flat_map(|line| [line, asking()]).collect()
}

/// Lines that say each message to one code and another.
fn said(messages: &[(char, u64, usize)]) -> Lines {
    messages.iter().map(|&(kind, number, code)| line_of(kind, number, CODES[code])).collect()
}

/// The total of an empty account, then every answer; `already` and `not active` use up
/// their numbers, and equal ones are old.
fn answers() -> Lines {
    let messages = said(&[
        ('C', 1, 0),
        ('A', 1, 0),
        ('A', 2, 0),
        ('A', 2, 0),
        ('A', 3, 0),
        ('C', 3, 0),
        ('A', 5, 1),
        ('A', 4, 2),
        ('C', 5, 1),
        ('C', 6, 2),
        ('A', 6, 2),
        ('A', 7, 2),
        ('C', 8, 0),
        ('C', 9, 0),
        ('A', 9, 0),
        ('A', 10, 0),
        ('C', 11, 0),
        ('C', 12, 1),
        ('C', 13, 2),
    ]);
    [vec![asking()], asked(messages)].concat()
}

/// Numbers at their borders, none of which is used up; then one that is.
fn numbers() -> Lines {
    let numbers = [0, MESSAGE_MAX + 1, MESSAGE_MAX + 2, 1 << 50, 1 << 63, u64::MAX - 1, u64::MAX];
    let mut lines: Lines = Vec::new();
    for number in numbers {
        lines.push(line_of('A', number, CODES[0]));
        lines.push(line_of('C', number, b"no code"));
    }
    lines.extend(said(&[('A', 14, 0), ('A', 14, 1), ('C', 1, 0), ('A', 13, 0), ('A', 0, 0)]));
    asked(lines)
}

/// Texts that reading refuses, with a number that none of them uses up and with an
/// old one; then good ones.
fn texts() -> Lines {
    let letters = REFUSED.iter().map(|code| code.as_slice());
    let mut lines: Lines = Vec::new();
    for text in TEXTS.iter().copied().chain(letters) {
        lines.push(line_of('A', 15, text));
        lines.push(line_of('C', 14, text));
        lines.push(asking());
    }
    lines.extend(asked(said(&[('C', 15, 0), ('A', 16, 0), ('C', 17, 0), ('C', 18, 0)])));
    lines
}

fn malformed() -> Lines {
    let lines = MALFORMED.iter().map(|line| line.to_vec());
    let good = asked(said(&[('A', 19, 0), ('A', 20, 0)]));
    lines.chain([asking()]).chain(good).collect()
}

/// Lines as long as a line may be, good and bad, and a byte longer; then whether
/// a number was used up.
fn long() -> Lines {
    let good = line_of('C', 21, CODES[0]);
    let mut lines = Vec::new();
    for line in [&good, &asking()] {
        for length in [LINE_MAX, LINE_MAX + 1] {
            let mut line = line.clone();
            line.resize(length, b'0');
            lines.push(line);
        }
    }
    lines.extend(said(&[('C', 21, 0), ('C', 21, 0)]));
    asked(lines)
}

/// Activations until all places are active and then two more; what a full account
/// answers.
fn filled() -> Lines {
    let filling = (0..PLACES + 2).map(|at| line_of('A', 100 + at as u64, &numbered(at))).collect();
    let last = numbered(PLACES - 1);
    let full = vec![
        line_of('A', 357, CODES[1]),
        line_of('A', 358, &last),
        line_of('C', 359, CODES[1]),
        line_of('A', 359, CODES[1]),
        line_of('A', 360, REFUSED[0]),
        line_of('A', 0, CODES[1]),
        b"A".to_vec(),
        line_of('A', 360, CODES[1]),
        line_of('C', 360, &last),
        line_of('C', 361, &numbered(PLACES)),
    ];
    [asked(filling), asked(full)].concat()
}

/// Places cancelled and used again in another order, until the account is full once more.
fn reused() -> Lines {
    let mut lines: Lines = Vec::new();
    for (number, at) in [200, 3, 255, 0, 100].into_iter().enumerate() {
        lines.push(line_of('C', 400 + number as u64, &numbered(at)));
    }
    for (number, at) in [1_000, 3, 1_001, 255, 1_002, 0].into_iter().enumerate() {
        lines.push(line_of('A', 410 + number as u64, &numbered(at)));
    }
    lines.push(line_of('C', 420, &numbered(1_002)));
    lines.push(line_of('A', 421, &numbered(0)));
    lines.push(line_of('A', 422, &numbered(200)));
    asked(lines)
}

/// Cancellations of all codes, some of which are not active, and a last activation.
fn emptied() -> Lines {
    let mut lines: Lines =
        (0..PLACES).rev().map(|at| line_of('C', 1_000 - at as u64, &numbered(at))).collect();
    for (number, at) in [1_000, 1_001, 1_002].into_iter().enumerate() {
        lines.push(line_of('C', 1_001 + number as u64, &numbered(at)));
    }
    lines.push(line_of('A', 1_004, CODES[1]));
    asked(lines)
}
