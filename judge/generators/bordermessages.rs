//! The fixed requests with a message, at every border of request 3: accounts, message
//! numbers, texts, the order of the checks, and malformed ones. Their totals are right; those
//! for the total stand among them.

use std::io::{self, Write};

use super::accounts::{message_line, place};
use super::borders::print_lines;
use super::bordertotals::border_totals;
use super::texts::Code;
use crate::program::account::{Account, Place, HALF_END, MESSAGE_MAX, PLACES};
use crate::program::code::LETTERS;
use crate::program::lines::LINE_MAX;

/// The codes of cases 4, 1 and 3.
pub const CODES: [&Code; 3] =
    [b"00000000001UY1120000", b"0W7ARCTDHYYRA99A0001", b"000000XCYYYNEDDE0000"];

/// Codes with the least and the greatest halves that reading accepts.
const LEAST: &Code = b"00000000001E21120000";
const GREATEST: &Code = b"37GYXFYKYYYUYYYYYYYY";

/// Codes that differ from that of case 1 in one half only: in the tenth letter, in
/// the eleventh, in the degrees, in the scale, in the number.
const NEAR: [&Code; 5] = [
    b"0W7ARCTDHXYRA99A0001", b"0W7ARCTDHYWRA99A0001", b"0V7ARCTDHYYRA99A0001",
    b"0W7ARCTDHYYQA99A0001", b"0W7ARCTDHYYRA99A0002",
];

/// Twenty letters that reading refuses by 13 to 18, at their borders.
pub const REFUSED: [&Code; 18] = [
    b"00000000000UY1120000", b"00000000000000000000", b"G0000000001UY1120000",
    b"80000000001UY1120000", b"GGGGGGGGGGHUY1120000", b"YYYYYYYYYYYYYYYYYYYY",
    b"1PK086A700MLC95H074R", b"2D7AH9G9G0BLC95H074R", b"0M7AW4B55AMLC95H074R",
    b"0M78C4YD5AMLC95H074R", b"087YUQGQJMBLC95H074R", b"087XK8TVJMBLC95H074R",
    b"0W7ARCTDHYYDA99A0001", b"0W7ARCTDHYYVA99A0001", b"0W7ARCTDHYYR199A0001",
    b"0W7ARCTDHYYRA09A0001", b"0W7ARCTDHYYRA90A0001", b"0W7ARCTDHYYRA9910001",
];

/// Texts that are no twenty letters.
pub const TEXTS: [&[u8]; 20] = [
    b"",
    b" ",
    b"0",
    b"0W7ARCTDHYYRA99A000",
    b"0W7ARCTDHYYRA99A00010",
    b" 0W7ARCTDHYYRA99A0001",
    b"0W7ARCTDHYYRA99A0001 ",
    b"0W7ARCTDHYYRA99A0001\r",
    b"0W7ARCTDHYYRA99A0001\0",
    b" 0W7ARCTDHYYRA99A000",
    b"0W7ARCTDHYYRA99A000 ",
    b"0W7ARCTDH YRA99A0001",
    b"0W7ARCTDHY RA99A0001",
    b"0w7arctdhyyra99a0001",
    b"0W7ARCTDHYYRA99A000o",
    b"0W7ARCTDHYYRA99A000O",
    b"IW7ARCTDHYYRA99A0001",
    b"0W7ARCTDHYYRA99A000\xff",
    b"0W7ARCTDHYYRA99A0001 0W7ARCTDHYYRA99A0001",
    b"                    ",
];

pub type Lines = Vec<Vec<u8>>;

/// Prints the list. Its last line has no line feed.
pub fn border_messages(output: &mut impl Write) -> io::Result<()> {
    let groups = [
        answers(),
        numbers(),
        halves(),
        contents(),
        twice(),
        lowest(),
        near(),
        activities(),
        texts(),
        orders(),
        full(),
        border_totals(),
        malformed(),
        long(),
        vec![message_line('A', 1, &Account::empty(), &[], CODES[0])],
    ];
    print_lines(&groups.concat(), output)
}

/// An account with these places and their count.
pub fn account(last: u64, places: &[(usize, Place)]) -> Account {
    let mut account = Account { last, ..Account::empty() };
    for &(at, place) in places {
        account.places[at] = place;
    }
    account.total = account.count();
    account
}

/// Both kinds of message with the next number.
pub fn both(account: &Account, text: &[u8]) -> Lines {
    let number = account.last.saturating_add(1);
    ['A', 'C'].map(|kind| message_line(kind, number, account, &[], text)).to_vec()
}

/// Each answer of a small account, empty and with the codes in three places.
fn answers() -> Lines {
    let held = [(0, place(1, CODES[0])), (7, place(1, CODES[1])), (255, place(1, CODES[2]))];
    let accounts = [account(0, &[]), account(41, &held[..1]), account(41, &held)];
    let mut lines = Vec::new();
    for account in &accounts {
        for code in CODES.iter().chain(&NEAR).chain(&[LEAST, GREATEST]) {
            lines.extend(both(account, *code));
        }
    }
    // Places that hold nothing may be listed too.
    lines.push(message_line('A', 42, &accounts[1], &[1, 2, 255], CODES[1]));
    lines.push(message_line('C', 42, &accounts[1], &[1, 2, 255], CODES[0]));
    lines
}

/// Last numbers and message numbers on both sides of each other and of their borders.
fn numbers() -> Lines {
    let half = 1 << 32;
    let lasts = [0, 1, 2, 1_000, half - 1, half, MESSAGE_MAX - 1, MESSAGE_MAX];
    let large = [MESSAGE_MAX + 1, MESSAGE_MAX + 2, HALF_END, 1 << 63, u64::MAX];
    let mut lines = Vec::new();
    for last in lasts.into_iter().chain(large) {
        let one = account(last, &[(0, place(1, CODES[0]))]);
        let around = [last.saturating_sub(1), last, last.saturating_add(1), last % half];
        let mut numbers = [0, 1, half - 1, half, half + 1, MESSAGE_MAX - 1, MESSAGE_MAX].to_vec();
        numbers.extend(around.into_iter().chain([MESSAGE_MAX + 1, u64::MAX]));
        numbers.sort_unstable();
        numbers.dedup();
        for (kind, code) in [('A', CODES[1]), ('C', CODES[0])] {
            let line = |&number| message_line(kind, number, &one, &[], code);
            lines.extend(numbers.iter().map(line));
        }
    }
    lines
}

/// Each half on both sides of its border, in an active place and in a free one.
fn halves() -> Lines {
    let good = place(1, CODES[1]);
    let values = |half: u64| {
        [
            HALF_END - 1,
            HALF_END,
            HALF_END + 1,
            HALF_END | half,
            1 << 63 | half,
            u64::MAX - HALF_END + 1 | half,
            u64::MAX,
        ]
    };
    let highs = values(good.high).map(|high| Place { high, ..good });
    let lows = values(good.low).map(|low| Place { low, ..good });
    let borders = [place(1, LEAST), place(1, GREATEST), Place { high: 0, low: 0, ..good }];
    let mut lines = Vec::new();
    for held in highs.into_iter().chain(lows).chain(borders) {
        for (activity, at) in [(1, 0), (u64::MAX, 255), (0, 0)] {
            let one = account(5, &[(at, Place { activity, ..held })]);
            lines.push(message_line('A', 6, &one, &[], CODES[1]));
        }
        lines.push(message_line('C', 6, &account(5, &[(0, held)]), &[], CODES[1]));
    }
    lines
}

/// Letters that reading refuses in an active place, in a free one, and as the text.
fn contents() -> Lines {
    let mut lines = Vec::new();
    for code in REFUSED {
        for activity in [1, 0] {
            let one = account(5, &[(3, place(activity, code)), (9, place(1, CODES[0]))]);
            lines.push(message_line('A', 6, &one, &[], CODES[1]));
        }
        lines.extend(both(&account(5, &[(0, place(1, CODES[0]))]), code));
    }
    lines
}

/// One code in two places, active in both, in one and in none; then two codes that
/// share a half.
fn twice() -> Lines {
    let mut lines = Vec::new();
    for (one, other) in [(0, 1), (0, 255), (254, 255), (3, 200)] {
        for (here, there) in [(1, 1), (1, 2), (u64::MAX, 1), (1, 0), (0, 1), (0, 0)] {
            let places = [(one, place(here, CODES[1])), (other, place(there, CODES[1]))];
            lines.extend(both(&account(5, &places), CODES[1]));
        }
    }
    for code in NEAR {
        let places = [(0, place(1, CODES[1])), (9, place(1, code)), (4, place(1, CODES[0]))];
        lines.extend(both(&account(5, &places), code));
        lines.extend(both(&account(5, &places), CODES[2]));
    }
    let three = [1, 6, 8].map(|at| (at, place(1, CODES[0])));
    lines.extend(both(&account(5, &three), CODES[1]));
    lines
}

/// Free places below, between and above active ones, with something in them.
fn lowest() -> Lines {
    let mut lines = Vec::new();
    let some = Place { activity: 0, high: u64::MAX, low: 7 };
    for free in 0..4 {
        let mut places: Vec<(usize, Place)> =
            (0..4).map(|at| (at, place(1, &numbered(at)))).collect();
        for rubbish in [Place::default(), some, place(0, CODES[0]), place(0, CODES[1])] {
            places[free].1 = rubbish;
            lines.extend(both(&account(5, &places), CODES[1]));
            let more = [places.clone(), vec![(255, rubbish)]].concat();
            lines.push(message_line('A', 6, &account(5, &more), &[], CODES[1]));
        }
    }
    lines
}

/// Two codes are active of which one has the high and the other the low half of the
/// text.
fn near() -> Lines {
    let (one, two) = (place(1, CODES[1]), place(1, CODES[2]));
    let mixed = [&CODES[1][..10], &CODES[2][10..]].concat();
    let both_ways = [
        account(5, &[(0, one), (1, two)]),
        account(5, &[(0, two), (1, one)]),
        account(5, &[(0, one), (1, two), (2, Place { low: two.low, ..one })]),
        // The halves in each other's place are no code that reading accepts.
        account(5, &[(0, Place { high: one.low, low: one.high, ..one })]),
    ];
    both_ways.iter().flat_map(|account| both(account, &mixed)).collect()
}

/// Any number but 0 is active.
fn activities() -> Lines {
    let mut lines = Vec::new();
    for activity in [0, 1, 2, 128, 255, 256, 1 << 32, 1 << 63, u64::MAX - 1, u64::MAX] {
        let one = account(5, &[(2, place(activity, CODES[0])), (4, place(1, CODES[1]))]);
        lines.extend(both(&one, CODES[0]));
        lines.extend(both(&one, CODES[2]));
    }
    lines
}

fn texts() -> Lines {
    let one = account(5, &[(0, place(1, CODES[1]))]);
    TEXTS.iter().flat_map(|text| both(&one, text)).collect()
}

/// Two or more of 40, 41, 42 and `old` at once.
fn orders() -> Lines {
    let good = account(5, &[(0, place(1, CODES[0]))]);
    let bad = account(5, &[(0, Place { activity: 1, high: 0, low: 0 })]);
    let mut lines = Vec::new();
    for account in [&good, &bad] {
        for number in [0, 5, 6, MESSAGE_MAX + 1] {
            for text in [CODES[0].as_slice(), CODES[1], b"", REFUSED[0]] {
                for kind in ['A', 'C'] {
                    lines.push(message_line(kind, number, account, &[], text));
                }
            }
        }
    }
    lines
}

/// The code of case 4 with another unit number.
pub fn numbered(number: usize) -> Code {
    let mut code = *CODES[0];
    for (i, letter) in code[16..].iter_mut().rev().enumerate() {
        *letter = LETTERS[number >> (5 * i) & 31];
    }
    code
}

/// An account with 256 active codes.
pub fn full_account(last: u64) -> Account {
    let places: Vec<(usize, Place)> = (0..PLACES).map(|at| (at, place(1, &numbered(at)))).collect();
    account(last, &places)
}

/// Full accounts and those with one free place.
fn full() -> Lines {
    let full = full_account(5);
    let (first, last) = (numbered(0), numbered(PLACES - 1));
    let line = |kind: char, number: u64, text: &[u8]| message_line(kind, number, &full, &[], text);
    let with = |at: usize, place: Place| {
        let mut account = full;
        account.places[at] = place;
        account.total = account.count();
        message_line('A', 6, &account, &[], CODES[1])
    };
    vec![
        line('A', 6, CODES[1]),
        line('A', 6, &last),
        line('C', 6, &first),
        line('C', 6, &last),
        line('C', 6, CODES[1]),
        line('A', 5, CODES[1]),
        with(0, Place::default()),
        with(255, place(0, CODES[1])),
        with(100, place(7, CODES[2])),
        with(255, place(1, &first)),
    ]
}

/// Requests of no good form, after the first word and its space.
const MALFORMED: [&str; 50] = [
    "",
    " ",
    "A",
    "A ",
    "A 1",
    "A 1 0",
    "A 1 0 0",
    "A 1 0 0 0",
    "A 1 0 0 ",
    "a 1 0 0 0 ",
    "c 1 0 0 0 ",
    "B 1 0 0 0 ",
    "AC 1 0 0 0 ",
    "T 1 0 0 0 ",
    " A 1 0 0 0 ",
    "A  1 0 0 0 ",
    "A 1  0 0 0 ",
    "A 1 0  0 0 ",
    "A 1 0 0  0 ",
    "A\t1 0 0 0 ",
    "A 1 0\t0 0 ",
    "A 1 0 0 0\t",
    "A 01 0 0 0 ",
    "A +1 0 0 0 ",
    "A -1 0 0 0 ",
    "A 18446744073709551616 0 0 0 ",
    "A 1 00 0 0 ",
    "A 1 18446744073709551616 0 0 ",
    "A 1 0 00 0 ",
    "A 1 0 -1 0 ",
    "A 1 0 +0 0 ",
    "A 1 0 18446744073709551616 0 ",
    "A 1 0 0 00 ",
    "A 1 0 0 -1 ",
    "A 1 0 0 1 ",
    "A 1 0 0 257 ",
    "A 1 0 0 18446744073709551615 ",
    "A 1 0 0 18446744073709551616 ",
    "A 1 0 1 1 0 1 0",
    "A 1 0 1 1 0 1 0 65937447321600",
    "A 1 0 0 1 256 0 0 0 ",
    "A 1 0 0 1 18446744073709551615 0 0 0 ",
    "A 1 0 0 1 00 0 0 0 ",
    "A 1 0 0 1 0 00 0 0 ",
    "A 1 0 0 1 0 0 18446744073709551616 0 ",
    "A 1 0 0 1 0 0 0 18446744073709551616 ",
    "A 1 0 0 1 0 18446744073709551616 0 0 ",
    "A 1 0 0 2 0 0 0 0 0 0 0 0 ",
    "A 1 0 0 2 1 0 0 0 0 0 0 0 ",
    "A 1 0 0 2 255 0 0 0 256 0 0 0 ",
];

fn malformed() -> Lines {
    let code = CODES[0].as_slice();
    let starts = MALFORMED.iter().map(|start| [b"message ", start.as_bytes(), code].concat());
    let words: [&[u8]; 5] = [
        b"message", b"message ", b"Message A 1 0 0 0 ", b" message A 1 0 0 0 ",
        b"message\tA 1 0 0 0 ",
    ];
    // These are of the form: less is listed than it seems, or the text begins with a
    // space, or has a word too many.
    let nearly: [&[u8]; 4] = [
        b"message A 1 0 0 0 1 0 0 0 ",
        b"message A 1 0 0 0  ",
        b"message A 1 0 0 0 ",
        b"message C 18446744073709551615 18446744073709551615 18446744073709551615 0 ",
    ];
    let ended = |line: &&[u8]| line.to_vec();
    starts.chain(words.iter().map(ended)).chain(nearly.iter().map(ended)).collect()
}

/// Lines as long as a line may be, and a byte longer.
fn long() -> Lines {
    let line = message_line('A', 1, &Account::empty(), &[], CODES[0]);
    [LINE_MAX, LINE_MAX + 1]
        .map(|length| {
            let mut line = line.clone();
            line.resize(length, b'0');
            line
        })
        .to_vec()
}
