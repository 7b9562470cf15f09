//! The fixed requests with a page of records, at every border of request 6: those that
//! matter most, and then every byte of a record with every value, every length of a page
//! up to three records with every offset near, and numbers at their borders.

use std::io::{self, Write};

use super::bordermessages::{numbered, Lines, CODES, REFUSED, TEXTS};
use super::borders::print_lines;
use super::journals::{look_line, record_line, replay_line};
use super::pages::{record, LONGEST};
use crate::program::account::{MESSAGE_MAX, PLACES};
use crate::program::lines::LINE_MAX;
use crate::program::record::{CODE_AT, KIND_AT, NUMBER_AT, RECORD};

/// Offsets that overflow where a record's length or a page's address is added, or that are
/// small in their low 32 bits only.
const FAR: [u64; 10] = [
    1 << 31,
    1 << 32,
    (1 << 32) + 31,
    1 << 63,
    u64::MAX - 62,
    u64::MAX - 31,
    u64::MAX - 30,
    u64::MAX - 29,
    u64::MAX - 1,
    u64::MAX,
];

/// Prints the requests that matter most. The last line has no line feed.
pub fn border_records(output: &mut impl Write) -> io::Result<()> {
    print_lines(&few(), output)
}

/// Prints these, and the sweeps after them. The last line has no line feed.
pub fn border_journal(output: &mut impl Write) -> io::Result<()> {
    let groups = [
        few(),
        texts(),
        far(),
        numbers(),
        bytes(),
        stops(),
        lengths(),
        malformed(),
        long(),
        vec![replay_line(&two())],
    ];
    print_lines(&groups.concat(), output)
}

fn few() -> Lines {
    [written(), orders(), looked(), replayed(), digits()].concat()
}

/// A page of two records.
fn two() -> Vec<u8> {
    [record(b'A', CODES[1], 1), record(b'C', CODES[1], 32)].concat()
}

/// The record of case 1's code, changed.
fn changed(change: impl FnOnce(&mut [u8])) -> Vec<u8> {
    let mut bytes = record(b'A', CODES[1], 1);
    change(&mut bytes);
    bytes
}

/// Records written at the page's start, between others, at its end and past it.
fn written() -> Lines {
    let room = [b'.'; 95];
    let write = |length: usize, offset: u64| record_line('A', 1, offset, &room[..length], CODES[1]);
    let mut lines: Lines = [(0, 0), (0, 1), (30, 0), (31, 0), (31, 1), (31, 31), (32, 0)]
        .into_iter()
        .chain([(32, 1), (32, 2), (62, 31), (62, 32), (62, 62), (62, 63), (95, 31), (95, 65)])
        .chain([(93, u64::MAX), (93, u64::MAX - 30)])
        .map(|(length, offset)| write(length, offset))
        .collect();
    // Over the first record, across both, and over the second.
    for offset in [0, 15, 31] {
        lines.push(record_line('C', MESSAGE_MAX, offset, &two(), CODES[2]));
    }
    for number in [0, 1, 31, 32, 33, (1 << 35) - 1, 1 << 35, MESSAGE_MAX, MESSAGE_MAX + 1] {
        lines.push(record_line('C', number, 0, &room[..31], CODES[0]));
    }
    lines.push(record_line('A', u64::MAX, 0, &room[..31], CODES[0]));
    for text in [TEXTS[0], TEXTS[3], TEXTS[4], TEXTS[13], TEXTS[15], REFUSED[1], REFUSED[4]] {
        lines.push(record_line('A', 1, 0, &room[..31], text));
    }
    lines
}

/// Two of 41, 42 and 51 at once, and all three.
fn orders() -> Lines {
    let page = [b'.'; 31];
    let mut lines = Vec::new();
    for (number, text, offset) in [
        (0, REFUSED[0], 0),
        (0, CODES[0], 1),
        (MESSAGE_MAX + 1, REFUSED[0], 32),
        (1, REFUSED[0], 1),
        (1, REFUSED[0], u64::MAX),
        (1, CODES[0], 1),
    ] {
        lines.push(record_line('A', number, offset, &page, text));
    }
    lines
}

/// The record at each offset that matters, and two things wrong with it at once.
fn looked() -> Lines {
    let page = two();
    let mut lines: Lines =
        [0, 1, 30, 31, 32, 61, 62, 63, u64::MAX].map(|offset| look_line(offset, &page)).to_vec();
    lines.extend([0, 1, 29, 30, 31, 32, 60, 61].map(|length| look_line(0, &page[..length])));
    lines.extend([look_line(31, &page[..61]), look_line(31, &page[..31])]);
    let number = |letters: &'static [u8; 8]| {
        move |record: &mut [u8]| record[NUMBER_AT..].copy_from_slice(letters)
    };
    let records = [
        changed(number(b"YYYYYYYY")),
        changed(number(b"10000000")),
        changed(number(b"00000000")),
        changed(number(b"0000000I")),
        changed(number(b"O0000001")),
        changed(number(b"0000000y")),
        changed(|record| record[..CODE_AT].copy_from_slice(b"+*A")),
        changed(|record| record[..CODE_AT].copy_from_slice(b"**T")),
        changed(|record| record[..CODE_AT].copy_from_slice(b"++A")),
        changed(|record| record[KIND_AT] = b'C'),
        changed(|record| record[KIND_AT] = b'a'),
        changed(|record| record[KIND_AT] = b'T'),
        changed(|record| record[CODE_AT..NUMBER_AT].make_ascii_lowercase()),
        changed(|record| record[NUMBER_AT - 1] = b'O'),
    ];
    lines.extend(records.iter().map(|record| look_line(0, record)));
    lines.extend(records[6..8].iter().map(|record| look_line(0, &record[..30])));
    // One code for each number of reading from 13 to 18.
    for code in [REFUSED[1], REFUSED[2], REFUSED[6], REFUSED[8], REFUSED[12], REFUSED[14]] {
        lines.push(look_line(0, &record(b'A', code, 1)));
    }
    lines
}

/// Pages that end well, that stop at each refusal, and of each answer; one fills the account.
fn replayed() -> Lines {
    let one = record(b'A', CODES[1], 5);
    let old = record(b'C', CODES[1], 5);
    let next = record(b'C', CODES[1], 6);
    let answers = [one.clone(), old.clone(), next.clone(), record(b'C', CODES[1], 7)].concat();
    let again = [answers.clone(), record(b'A', CODES[1], 8), record(b'A', CODES[1], 9)].concat();
    let greatest = [record(b'A', CODES[0], MESSAGE_MAX), record(b'A', CODES[2], MESSAGE_MAX)];
    let stopped = |bad: &[u8]| [&one[..], bad, &next].concat();
    let mut lines: Lines = [
        Vec::new(),
        one.clone(),
        two(),
        answers,
        again,
        greatest.concat(),
        one[..30].to_vec(),
        stopped(&next[..30]),
        stopped(b"."),
        stopped(b"*"),
        stopped(&changed(|record| record[1] = b'*')),
        stopped(&changed(|record| record[KIND_AT] = b'B')),
        stopped(&record(b'A', REFUSED[12], 6)),
        stopped(&record(b'A', CODES[0], 0)),
        [&one[..], &old, b"*"].concat(),
        [&one[..], &next, b"*+A"].concat(),
        [b".", &one[..]].concat(),
        two()[1..].to_vec(),
    ]
    .iter()
    .map(|page| replay_line(page))
    .collect();
    lines.push(replay_line(&filled()));
    lines
}

/// Activations of more codes than there are places, one of them again, one cancelled and
/// its place taken by one that had found no place.
fn filled() -> Vec<u8> {
    let mut page = Vec::new();
    for at in 0..PLACES + 2 {
        page.extend(record(b'A', &numbered(at), 1 + at as u64));
    }
    for (kind, at) in [(b'A', 7), (b'C', 100), (b'A', PLACES + 1), (b'A', 100), (b'C', PLACES)] {
        page.extend(record(kind, &numbered(at), (page.len() / RECORD + 1) as u64));
    }
    page
}

/// Digits in small letters and mixed, and words that are no page.
fn digits() -> Lines {
    let page = String::from_utf8_lossy(&look_line(0, &two())).into_owned();
    let mut lines = vec![page.to_lowercase().into_bytes(), page.replace('B', "b").into_bytes()];
    for word in ["", "0", "--", "2A2", "2a2B2", "2G", "2A 2B", "2A2B ", " 2A2B", "0x2A", "- "] {
        lines.push(format!("replay {word}").into_bytes());
    }
    lines
}

/// Texts that reading refuses, in a page that has room and in one that has not.
fn texts() -> Lines {
    let letters = REFUSED.iter().map(|code| code.as_slice());
    let all: Vec<&[u8]> = TEXTS.iter().copied().chain(letters).collect();
    let mut lines = Vec::new();
    for text in all {
        for (number, offset) in [(1, 31), (1, 32), (0, 31)] {
            lines.push(record_line('C', number, offset, &two(), text));
        }
    }
    for code in REFUSED {
        let page = [record(b'A', CODES[0], 1), record(b'C', code, 2)].concat();
        lines.push(look_line(31, &page));
        lines.push(replay_line(&page));
    }
    lines
}

/// Offsets far past the end.
fn far() -> Lines {
    let mut lines = Vec::new();
    for page in [Vec::new(), two(), [two(), two()].concat()] {
        for offset in FAR {
            lines.push(look_line(offset, &page));
            lines.push(record_line('A', 1, offset, &page, CODES[0]));
        }
    }
    lines
}

/// Numbers at their borders and where a letter more is used, written and looked at.
fn numbers() -> Lines {
    let mut numbers = vec![0, 1, 2, (1 << 32) - 1, 1 << 32, MESSAGE_MAX - 1, MESSAGE_MAX];
    numbers.extend([MESSAGE_MAX + 1, MESSAGE_MAX + 2, 1 << 45, 1 << 63, u64::MAX - 1, u64::MAX]);
    for letters in 1..8 {
        let least = 1 << (5 * letters);
        numbers.extend([least - 1, least, least + 1]);
    }
    let mut lines = Vec::new();
    for number in numbers {
        for kind in ['A', 'C'] {
            lines.push(record_line(kind, number, 0, &[b'.'; 33], CODES[0]));
            if number <= MESSAGE_MAX {
                let page = record(kind as u8, CODES[0], number);
                lines.extend([look_line(0, &page), replay_line(&page)]);
            }
        }
    }
    lines
}

/// Every byte of a record with every value.
fn bytes() -> Lines {
    let every = (0..RECORD).flat_map(|at| (0..=255).map(move |byte| (at, byte)));
    every.map(|(at, byte)| look_line(0, &changed(|record| record[at] = byte))).collect()
}

/// Every byte of the second of three records with some values: replay stops there or goes on.
fn stops() -> Lines {
    let mut lines = Vec::new();
    for at in 0..RECORD {
        for byte in *b"0AYIOac*+ \0\xff" {
            let second = changed(|record| record[at] = byte);
            let page = [record(b'A', CODES[0], 1), second, record(b'C', CODES[0], 64)].concat();
            lines.push(replay_line(&page));
        }
    }
    lines
}

/// Every length of a page up to three records and two bytes, with every offset near a
/// record's start, a record's length before the page's end, and that end.
fn lengths() -> Lines {
    let page = [two(), two()].concat();
    let mut lines = Vec::new();
    for length in 0..=95 {
        let page = &page[..length];
        let near = |offset: &u64| {
            let ends = [0, 31, 62, 93, length as u64, (length as u64).saturating_sub(31)];
            ends.iter().any(|end| end.abs_diff(*offset) <= 1)
        };
        for offset in (0..=length as u64 + 2).filter(near) {
            lines.push(look_line(offset, page));
            lines.push(record_line('A', 33, offset, page, CODES[2]));
        }
        lines.push(replay_line(page));
    }
    lines
}

/// Requests of no good form, and nearly so: the last ones have a text that reading refuses.
const MALFORMED: [&str; 50] = [
    "record",
    "record ",
    "record A",
    "record A 1",
    "record A 1 0",
    "record A 1 0 -",
    "record A 1 0  00000000001UY1120000",
    "record A 1 - 00000000001UY1120000",
    "record A 1 0 2A2 00000000001UY1120000",
    "record A 1 0 2G 00000000001UY1120000",
    "record A 1 0 -- 00000000001UY1120000",
    "record A 1 00 - 00000000001UY1120000",
    "record A 1 -1 - 00000000001UY1120000",
    "record A 1 +0 - 00000000001UY1120000",
    "record A 1 18446744073709551616 - 00000000001UY1120000",
    "record A 01 0 - 00000000001UY1120000",
    "record A  0 - 00000000001UY1120000",
    "record A 18446744073709551616 0 - 00000000001UY1120000",
    "record a 1 0 - 00000000001UY1120000",
    "record c 1 0 - 00000000001UY1120000",
    "record B 1 0 - 00000000001UY1120000",
    "record T 1 0 - 00000000001UY1120000",
    "record  1 0 - 00000000001UY1120000",
    "record AC 1 0 - 00000000001UY1120000",
    "record A\t1 0 - 00000000001UY1120000",
    " record A 1 0 - 00000000001UY1120000",
    "Record A 1 0 - 00000000001UY1120000",
    "records A 1 0 - 00000000001UY1120000",
    "look",
    "look ",
    "look 0",
    "look 0 ",
    "look 0  ",
    "look 0 - ",
    "look 0 2A ",
    "look 0 2A2B 00",
    "look - 0",
    "look 00 -",
    "look 18446744073709551616 -",
    "look  -",
    "look -",
    "Look 0 -",
    "replay",
    "replay 0 -",
    "replay -\r",
    "Replay -",
    "replays -",
    "record A 1 0 - ",
    "record A 1 0 -  ",
    "record A 18446744073709551615 18446744073709551615 - -",
];

fn malformed() -> Lines {
    MALFORMED.iter().map(|line| line.as_bytes().to_vec()).collect()
}

/// Lines as long as a line may be, and a byte or two longer.
fn long() -> Lines {
    let page = [b'.'; LINE_MAX / 2];
    let mut text = record_line('A', 1, 0, &two(), CODES[0]);
    text.resize(LINE_MAX, b'0');
    let mut lines = vec![
        look_line(10, &page[..(LINE_MAX - 8) / 2]),
        look_line(1, &page[..(LINE_MAX - 6) / 2]),
        replay_line(&page[..(LINE_MAX - 7) / 2]),
        replay_line(&page[..(LINE_MAX - 5) / 2]),
        replay_line(&two().repeat(LONGEST / 2)),
        [&text[..], b"0"].concat(),
    ];
    lines.push(text);
    lines
}
