//! Random requests with an account, a message to it or the asking for its total:
//! accounts from empty to full, good and refused 40, with message numbers and texts on
//! both sides of every border.

use super::broken::broken;
use super::random::Random;
use super::texts::{codes, refused_code, refused_text, relative, some_code, Code};
use crate::program::account::{Account, Place, HALF_END, MESSAGE_MAX, PLACES};
use crate::program::code::LETTERS;
use crate::program::handed::account_words;
use crate::program::lines::LINE_MAX;

/// Numbers that are no activity of a place that a message made.
const ACTIVITIES: [u64; 7] = [2, 3, 255, 256, 1 << 32, 1 << 63, u64::MAX];

/// Last numbers at their borders and at those of 32 bits.
const LASTS: [u64; 10] =
    [0, 0, 0, 1, 2, 1_000, (1 << 32) - 1, 1 << 32, MESSAGE_MAX - 1, MESSAGE_MAX];

/// Words that are no numbers of up to 64 bits.
const BAD_NUMBERS: [&str; 12] = [
    "", "00", "01", "+1", "-1", "1.0", "a", "1\t", "18446744073709551616", "18446744073709551620",
    "20000000000000000000", "100000000000000000000",
];

/// An account, and the codes that its active and its free places hold.
struct Drawn {
    account: Account,
    active: Vec<Code>,
    rubbish: Vec<Code>,
}

/// A `message` request's line, which lists every place that is not 0 and those of
/// `also`.
pub fn message_line(
    kind: char,
    number: u64,
    account: &Account,
    also: &[usize],
    text: &[u8],
) -> Vec<u8> {
    let start = format!("message {kind} {number} {} ", words_of(account, also));
    [start.as_bytes(), text].concat()
}

/// A `total` request's line, which lists the same places.
pub fn total_line(account: &Account, also: &[usize]) -> Vec<u8> {
    format!("total {}", words_of(account, also)).into_bytes()
}

fn words_of(account: &Account, also: &[usize]) -> String {
    let listed = |at: usize| account.places[at] != Place::default() || also.contains(&at);
    account_words(account, listed)
}

/// A place that holds a code; the letters may be refused by reading.
pub fn place(activity: u64, code: &Code) -> Place {
    let half = |letters: &[u8]| {
        let value = |letter: &u8| LETTERS.iter().position(|known| known == letter).unwrap_or(0);
        letters.iter().fold(0, |half, letter| half << 5 | value(letter) as u64)
    };
    Place { activity, high: half(&code[..10]), low: half(&code[10..]) }
}

pub fn message_request(random: &mut Random) -> Vec<u8> {
    let mut drawn = account(random);
    let (last, number) = numbers(random);
    drawn.account.last = last;
    if random.one_in(8) {
        spoil(random, &mut drawn);
    }
    drawn.account.total = drawn.account.count();
    if random.one_in(10) {
        drawn.account.total = wrong_total(random, &drawn.account);
    }
    // A full account is for activations.
    let full = drawn.active.len() == PLACES;
    let kind = if full && random.one_in(2) { 'A' } else { random.pick(&['A', 'C']) };
    let text = text(random, &drawn);
    let also = also_listed(random);
    let mut line = message_line(kind, number, &drawn.account, &also, &text);
    // Rarely as long as a line may be, or a byte longer.
    if random.one_in(1_000) {
        line.resize(LINE_MAX + random.index(2), b'0');
    }
    if random.one_in(30) {
        return malformed(random, &line, 3);
    }
    line
}

/// Asks for a total, which is as often wrong as right; one request in eight is
/// malformed.
pub fn total_request(random: &mut Random) -> Vec<u8> {
    let mut drawn = account(random);
    drawn.account.last = numbers(random).0;
    if random.one_in(4) {
        spoil(random, &mut drawn);
    }
    let any = random.below(u64::MAX);
    drawn.account.total = match random.below(4) {
        0..=1 => drawn.account.count(),
        2 => wrong_total(random, &drawn.account),
        _ => any,
    };
    let also = also_listed(random);
    let line = total_line(&drawn.account, &also);
    if random.one_in(8) {
        return malformed(random, &line, 1);
    }
    line
}

/// Places that are listed even where they hold nothing, mostly none.
fn also_listed(random: &mut Random) -> Vec<usize> {
    if random.one_in(8) {
        return (0..random.index(6)).map(|_| random.index(PLACES)).collect();
    }
    Vec::new()
}

/// A total that is not the count of the account's places: beside it, at the borders,
/// of other things that could be counted, or right only in its low bits.
fn wrong_total(random: &mut Random, account: &Account) -> u64 {
    let count = account.count();
    let all = account.places.iter();
    let listed = all.clone().filter(|place| **place != Place::default()).count() as u64;
    let ones = all.clone().filter(|place| place.activity == 1).count() as u64;
    let sum = all.fold(0u64, |sum, place| sum.wrapping_add(place.activity));
    let beside = [count + 1, count.saturating_sub(1)];
    let borders = [0, 256, 257, u64::MAX, account.last];
    let low = [count + 256, count | 1 << 32, count | 1 << 63];
    let totals = [&beside[..], &beside, &beside, &borders, &low, &[listed, ones, sum]].concat();
    let wrong: Vec<u64> = totals.into_iter().filter(|&total| total != count).collect();
    random.pick(&wrong)
}

/// How many places are active; one time in eight all or nearly all.
fn active_count(random: &mut Random) -> usize {
    match random.below(100) {
        0..=11 => 0,
        12..=74 => 1 + random.index(8),
        75..=87 => 9 + random.index(40),
        88..=90 => PLACES - 1 - random.index(6),
        _ => PLACES,
    }
}

/// So many places in any order: the first, the last, such with few free ones below
/// them, or any.
fn some_places(random: &mut Random, count: usize) -> Vec<usize> {
    let room = match random.below(4) {
        0 => count,
        1 => (count + 1 + random.index(4)).min(PLACES),
        _ => PLACES,
    };
    let first = if random.one_in(6) { PLACES - room } else { 0 };
    let mut places: Vec<usize> = (first..first + room).collect();
    for at in 0..count {
        let other = at + random.index(room - at);
        places.swap(at, other);
    }
    places.truncate(count);
    places
}

fn account(random: &mut Random) -> Drawn {
    let count = active_count(random);
    let active = codes(random, count);
    let mut account = Account::empty();
    for (at, code) in some_places(random, count).into_iter().zip(&active) {
        let other = random.pick(&ACTIVITIES);
        account.places[at] = place(if random.one_in(10) { other } else { 1 }, code);
    }
    let mut drawn = Drawn { account, active, rubbish: Vec::new() };
    if random.one_in(3) {
        litter(random, &mut drawn);
    }
    drawn
}

/// Leaves something in the halves of some free places, often in the lowest.
fn litter(random: &mut Random, drawn: &mut Drawn) {
    let free = |account: &Account| -> Vec<usize> {
        (0..PLACES).filter(|&at| !account.places[at].active()).collect()
    };
    for _ in 0..random.between(1, 5) {
        let free = free(&drawn.account);
        if free.is_empty() {
            return;
        }
        let code = any_code(random, &drawn.active);
        let any = random.below(u64::MAX);
        let at = free[if random.one_in(2) { 0 } else { random.index(free.len()) }];
        drawn.account.places[at] = match random.below(6) {
            0 => Place { activity: 0, high: any, low: HALF_END },
            1 => Place { activity: 0, high: u64::MAX, low: u64::MAX },
            2 => Place { activity: 0, high: random.pick(&[0, any]), low: any },
            _ => {
                drawn.rubbish.push(code);
                place(0, &code)
            }
        };
    }
}

/// One of the codes, or a new one.
fn any_code(random: &mut Random, codes: &[Code]) -> Code {
    if codes.is_empty() || random.one_in(2) {
        return some_code(random);
    }
    random.pick(codes)
}

/// Makes an account that is refused 40.
fn spoil(random: &mut Random, drawn: &mut Drawn) {
    let any = random.below(u64::MAX - MESSAGE_MAX);
    let account = &mut drawn.account;
    let active: Vec<usize> = (0..PLACES).filter(|&at| account.places[at].active()).collect();
    let at = if active.is_empty() { random.index(PLACES) } else { random.pick(&active) };
    account.places[at].activity = account.places[at].activity.max(1);
    let other = (at + 1 + random.index(PLACES - 1)) % PLACES;
    let more = random.pick(&[HALF_END, 2 * HALF_END, 3 << 62, u64::MAX - HALF_END + 1]);
    let activity = random.pick(&[1, 1, 1, 2, u64::MAX]);
    match random.below(7) {
        0..=1 => account.places[other] = Place { activity, ..account.places[at] },
        2 => account.places[at].high |= more,
        3 => account.places[at].low |= more,
        4 => account.places[at] = place(activity, &refused_code(random)),
        5 => account.places[at] = Place { activity, high: 0, low: 0 },
        _ => account.last = random.pick(&[1, 2, 1 << 40, any]) + MESSAGE_MAX,
    }
}

/// A last number and a message number, which more often than not may follow it.
fn numbers(random: &mut Random) -> (u64, u64) {
    let any = random.below(MESSAGE_MAX + 1);
    let half = 1u64 << 32;
    let last = if random.one_in(3) { any } else { random.pick(&LASTS) };
    let ahead = 1 + random.below(1_000);
    let huge = random.below(u64::MAX);
    let number = match random.below(32) {
        0 => 0,
        1 => 1,
        2 => last.saturating_sub(1),
        3 => last,
        // Only the high half differs, or the low half says the opposite.
        4 => last % half,
        5 => last.saturating_sub(half - 1),
        6 => last + half,
        7 => MESSAGE_MAX,
        8 => MESSAGE_MAX + 1,
        9 => u64::MAX,
        10 => random.pick(&[huge, any]),
        11..=13 => last + ahead,
        _ => last + 1,
    };
    (last, number)
}

/// A text: an active code or one close to it, one of a free place, a new one, or
/// one that reading refuses.
fn text(random: &mut Random, drawn: &Drawn) -> Vec<u8> {
    let code = any_code(random, &drawn.active);
    match random.below(20) {
        0..=1 => refused_text(random, &code),
        2..=4 if !drawn.rubbish.is_empty() => random.pick(&drawn.rubbish).to_vec(),
        5..=11 if !drawn.active.is_empty() => random.pick(&drawn.active).to_vec(),
        12..=15 => {
            let other = any_code(random, &drawn.active);
            relative(random, &code, &other).to_vec()
        }
        _ => some_code(random).to_vec(),
    }
}

/// A request that is nearly always of no good form; its account begins at the word
/// `start`.
fn malformed(random: &mut Random, line: &[u8], start: usize) -> Vec<u8> {
    let mut words: Vec<Vec<u8>> = line.split(|&byte| byte == b' ').map(<[u8]>::to_vec).collect();
    let bad = random.pick(&BAD_NUMBERS).as_bytes().to_vec();
    let at = random.index(words.len().min(start + 7));
    let (count, first, second) = (start + 2, start + 3, start + 7);
    let two = words.len() > second;
    match random.below(8) {
        0..=1 => return broken(random, line),
        2 => words[1] = random.pick(&["a", "c", "B", "", "AC", "A\t"]).into(),
        3 => words[count] = random.pick(&["0", "1", "2", "255", "256", "257"]).into(),
        4 if two => words.swap(first, second),
        5 if two => words[first] = random.pick(&["256", "255", "254"]).into(),
        6 => words.push(random.pick(&["", "0", "1", "00000000001UY1120000"]).into()),
        7 => words.truncate(words.len() - 1),
        _ => words[at] = bad,
    }
    words.join(&b' ')
}
