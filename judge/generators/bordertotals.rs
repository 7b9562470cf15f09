//! The fixed requests for the kept total, at every border of request 5: messages to
//! accounts whose total is the count of their places or just is not, the asking for the
//! total, and malformed ones.

use super::accounts::{message_line, place, total_line};
use super::bordermessages::{account, both, full_account, numbered, Lines, CODES, REFUSED};
use crate::program::account::{Account, Place, HALF_END, MESSAGE_MAX, PLACES};

/// What a free place may hold.
const RUBBISH: Place = Place { activity: 0, high: u64::MAX, low: 7 };

pub fn border_totals() -> Lines {
    [wrong(), counted(), spoiled(), orders(), full(), asked(), malformed()].concat()
}

pub fn with_total(account: &Account, total: u64) -> Account {
    Account { total, ..*account }
}

/// Accounts with no, one and three active codes and totals on both sides of the count,
/// the borders, the last number, and totals that are right only in their low bits.
fn wrong() -> Lines {
    let held = [(0, place(1, CODES[0])), (7, place(1, CODES[2])), (255, place(1, &numbered(9)))];
    let mut lines = Vec::new();
    for places in [&held[..0], &held[..1], &held] {
        let sound = account(41, places);
        let count = sound.total;
        let low = [count + 256, count + (1 << 16), count + (1 << 32), count + (1 << 63)];
        let mut totals = [0, 1, 2, 3, 4, 41, 255, 256, 257, u64::MAX - 1, u64::MAX].to_vec();
        totals.extend(low);
        for total in totals {
            let account = with_total(&sound, total);
            lines.extend(both(&account, CODES[0]));
            lines.extend(both(&account, CODES[1]));
        }
    }
    lines
}

/// A free place does not count whatever it holds, and an active one counts as one
/// whatever its activity is.
fn counted() -> Lines {
    let code = |activity: u64| (3, place(activity, CODES[0]));
    let other = |activity: u64| (9, place(activity, CODES[2]));
    let free = [
        account(5, &[(0, RUBBISH)]),
        account(5, &[code(0), other(0)]),
        account(5, &[(0, RUBBISH), code(1), other(0)]),
        account(5, &[code(1), (255, place(0, CODES[0]))]),
    ];
    let activities = [2, 3, 255, 256, 1 << 32, 1 << 63, u64::MAX];
    let single = activities.map(|activity| account(5, &[code(activity)]));
    let double = activities.map(|activity| account(5, &[code(1), other(activity)]));
    let mut lines = Vec::new();
    for account in free.iter().chain(&single).chain(&double) {
        let sum = account.places.iter().fold(0u64, |sum, place| sum.wrapping_add(place.activity));
        let mut totals = vec![0, 1, 2, 3, sum];
        totals.sort_unstable();
        totals.dedup();
        for total in totals {
            lines.extend(both(&with_total(account, total), CODES[0]));
        }
    }
    lines
}

/// Accounts that are refused 40 for another cause: one code twice, no code, a half or
/// the last number too large.
fn unsound() -> [Account; 5] {
    let good = (0, place(1, CODES[0]));
    [
        account(5, &[good, (1, good.1)]),
        account(5, &[good, (1, place(1, REFUSED[0]))]),
        account(5, &[good, (1, Place { activity: 1, high: 0, low: HALF_END })]),
        account(MESSAGE_MAX + 1, &[good]),
        account(u64::MAX, &[]),
    ]
}

/// The total is right or wrong beside another cause of 40: also the count of only the
/// good places.
fn spoiled() -> Lines {
    let totals = [0, 1, 2, 3, u64::MAX];
    let accounts =
        unsound().into_iter().flat_map(|account| totals.map(|total| with_total(&account, total)));
    accounts.flat_map(|account| both(&account, CODES[1])).collect()
}

/// A wrong total comes before 41, 42 and `old`; with the right one they leave it.
fn orders() -> Lines {
    let one = account(5, &[(0, place(1, CODES[0]))]);
    let mut lines = Vec::new();
    for total in [0, 1, 2] {
        for number in [0, 5, 6, MESSAGE_MAX + 1] {
            for text in [CODES[0].as_slice(), CODES[1], b"", REFUSED[0]] {
                for kind in ['A', 'C'] {
                    let account = with_total(&one, total);
                    lines.push(message_line(kind, number, &account, &[], text));
                }
            }
        }
    }
    lines
}

/// Full accounts, and one that a free place with something in it keeps from being full.
/// They are few, because they are long.
fn full() -> Lines {
    let full = full_account(5);
    let mut nearly = full;
    nearly.places[100] = RUBBISH;
    let line = |kind: char, account: &Account, total: u64, text: &[u8]| {
        message_line(kind, 6, &with_total(account, total), &[], text)
    };
    let held = numbered(PLACES - 1);
    vec![
        line('A', &full, 255, CODES[1]),
        line('A', &full, 257, CODES[1]),
        line('C', &full, 0, &held),
        line('C', &full, 255, &held),
        line('C', &full, 257, &held),
        line('A', &nearly, 255, CODES[1]),
        line('A', &nearly, 256, CODES[1]),
    ]
}

/// The kept total is answered, of whatever account.
fn asked() -> Lines {
    let half = 1 << 32;
    let totals = [0, 1, 9, 10, 255, 256, 257, half - 1, half, 1 << 63, u64::MAX - 1, u64::MAX];
    let one = account(5, &[(3, place(2, CODES[0])), (9, RUBBISH)]);
    let unsound = unsound();
    let mut lines = Vec::new();
    for account in [&Account::empty(), &one].into_iter().chain(&unsound) {
        lines.extend(totals.map(|total| total_line(&with_total(account, total), &[])));
    }
    for last in [1, half, MESSAGE_MAX, MESSAGE_MAX + 1, u64::MAX] {
        lines.push(total_line(&account(last, &[(0, place(1, CODES[1]))]), &[]));
    }
    // Places that hold nothing may be listed too.
    lines.push(total_line(&one, &[0, 4, 255]));
    lines.push(total_line(&Account::empty(), &[0, 1, 255]));
    lines.push(total_line(&full_account(5), &[]));
    lines.push(total_line(&with_total(&full_account(0), 7), &[]));
    lines
}

/// Requests of no good form, after the first word and its space.
const MALFORMED: [&str; 61] = [
    "",
    " ",
    "0",
    "0 ",
    "0 0",
    "0 0 ",
    " 0 0 0",
    "0  0 0",
    "0 0  0",
    "0 0 0 ",
    "0 0 0  ",
    "0 0 0 0",
    "0 0 0 T",
    "0 0 0 00000000001UY1120000",
    "0 0 0\t",
    "0 0 0\r",
    "0 0 0\0",
    "0 0\t0",
    "0\t0 0",
    "00 0 0",
    "0 00 0",
    "0 0 00",
    "+0 0 0",
    "0 +1 0",
    "0 -1 0",
    "0 1. 0",
    "0 1,000 0",
    "0 0x1 0",
    "0 a 0",
    "a 0 0",
    "0 0 a",
    "A 1 0 0 0 00000000001UY1120000",
    "18446744073709551616 0 0",
    "0 18446744073709551616 0",
    "0 18446744073709551620 0",
    "0 20000000000000000000 0",
    "0 100000000000000000000 0",
    "0 0 18446744073709551616",
    "0 0 18446744073709551615",
    "0 0 1",
    "0 0 1 ",
    "0 0 257",
    "0 1 1 0",
    "0 1 1 0 1",
    "0 1 1 0 1 0",
    "0 1 1 0 1 0 ",
    "0 1 1 0 1 0 65937447321600 ",
    "0 1 1 0 1 0 65937447321600 0",
    "0 1 1 0 1 0 065937447321600",
    "0 1 0 0 1 0 65937447321600",
    "0 1 2 0 1 0 65937447321600",
    "0 0 1 256 0 0 0",
    "0 0 1 18446744073709551615 0 0 0",
    "0 0 1 00 0 0 0",
    "0 0 1 0 00 0 0",
    "0 0 1 0 18446744073709551616 0 0",
    "0 0 1 0 0 18446744073709551616 0",
    "0 0 1 0 0 0 18446744073709551616",
    "0 0 2 0 0 0 0 0 0 0 0",
    "0 0 2 1 0 0 0 0 0 0 0",
    "0 0 2 255 0 0 0 256 0 0 0",
];

/// Other first words, and no space after the right one.
const WORDS: [&str; 10] = [
    "total", "Total 0 0 0", "TOTAL 0 0 0", " total 0 0 0", "total\t0 0 0", "totals 0 0 0",
    "tota 0 0 0", "total0 0 0", "T", "T 0 0 0",
];

/// These are of the form, with numbers as large as may be.
const NEARLY: [&str; 3] = [
    "total 18446744073709551615 18446744073709551615 0",
    "total 0 7 1 255 18446744073709551615 18446744073709551615 18446744073709551615",
    "total 0 0 2 0 0 0 0 255 0 0 0",
];

fn malformed() -> Lines {
    let rests = MALFORMED.iter().map(|rest| format!("total {rest}").into_bytes());
    let whole = |line: &&str| line.as_bytes().to_vec();
    rests.chain(WORDS.iter().map(whole)).chain(NEARLY.iter().map(whole)).collect()
}
