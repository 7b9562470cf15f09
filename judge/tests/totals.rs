//! The judge's tests of the kept total, in the words of request 5: it is the count of the
//! active places after every message from an empty account, asking answers it, and an
//! account in which it is another number is refused 40.

use std::collections::BTreeMap;

use super::accounts::{activate, cancel, is, with};
use crate::generators::borderaccount::border_account;
use crate::generators::bordermessages::{border_messages, full_account, numbered, CODES, REFUSED};
use crate::generators::bordertotals::with_total;
use crate::generators::histories::messages;
use crate::generators::requests::{kinds_of, requests};
use crate::program::account::{Account, Place, HALF_END, MESSAGE_MAX, PLACES};
use crate::program::messages::account as account_program;
use crate::program::trials::{request_of, trials, Request};

const ONE: &[u8] = CODES[0];
const TWO: &[u8] = CODES[1];

/// An account with so many active places, the first ones; what the others hold does
/// not count.
fn counted(count: usize) -> Account {
    let mut account = Account { total: count as u64, ..full_account(5) };
    account.places[count..].iter_mut().for_each(|place| place.activity = 0);
    account
}

/// Whether every message is refused 40, and the account comes back as it went in.
fn refused(account: &Account) -> bool {
    let texts = [TWO, &numbered(0), REFUSED[0], b""];
    texts.iter().all(|text| {
        [0, 5, 6, MESSAGE_MAX + 1].iter().all(|&number| {
            is(activate(account, number, text), "40 0", account)
                && is(cancel(account, number, text), "40 0", account)
        })
    })
}

/// For every count of active places just one total is good; an activation raises it by
/// one and a cancellation lowers it by one, from 0 to 256 and back.
pub fn counts_good() -> bool {
    (0..=PLACES).all(|count| {
        let (good, total) = (counted(count), count as u64);
        let wrong = [
            total.wrapping_sub(1),
            total + 1,
            total + 256,
            total + (1 << 32),
            total + (1 << 63),
            u64::MAX,
        ];
        let next = |account: Account| (account.total, account.count());
        let full = count == PLACES;
        let more = if full { total } else { total + 1 };
        let less = total.saturating_sub(1);
        wrong.iter().all(|&total| refused(&with_total(&good, total)))
            && next(activate(&good, 6, TWO).1) == (more, more)
            && next(cancel(&good, 6, &numbered(0)).1) == (less, less)
            && next(cancel(&good, 6, TWO).1) == (total, total)
            && next(activate(&good, 5, TWO).1) == (total, total)
            && next(activate(&good, 6, REFUSED[0]).1) == (total, total)
            && next(activate(&good, 0, TWO).1) == (total, total)
    })
}

/// An active place counts as one whatever its activity is, a free one not whatever it
/// holds; another cause of 40 is one with any total.
pub fn places_good() -> bool {
    let free = Place { activity: 0, high: u64::MAX, low: 7 };
    let mut odd = with(5, &[(0, 2, ONE), (3, u64::MAX, TWO), (9, 0, CODES[2])]);
    odd.places[200] = free;
    let mut twice = with(5, &[(0, 1, ONE), (1, 1, ONE)]);
    let mut large = with(5, &[(0, 1, ONE), (1, 1, TWO)]);
    large.places[1].low += HALF_END;
    let late = Account { last: MESSAGE_MAX + 1, ..odd };
    let causes = [twice, large, late];
    twice.places[1].activity = 0;
    odd.total == 2
        && activate(&odd, 6, CODES[2]).1.total == 3
        && cancel(&odd, 6, TWO).1.total == 1
        && [0, 1, 3, 4, u64::MAX].iter().all(|&total| refused(&with_total(&odd, total)))
        && causes.iter().all(|account| {
            [0, 1, 2, 3, u64::MAX].iter().all(|&total| refused(&with_total(account, total)))
        })
        && refused(&twice)
        && !refused(&with_total(&twice, 1))
}

/// What the trials answer to each line.
fn answers(lines: &[u8]) -> Vec<String> {
    let mut answers = Vec::new();
    // Writing into a Vec does not fail.
    let _ = trials(lines, &mut answers);
    String::from_utf8_lossy(&answers).lines().map(str::to_string).collect()
}

/// `total` requests with their answers by hand, then those that are none.
pub fn asked_good() -> bool {
    let answered = [
        ("total 0 0 0", "0"),
        ("total 0 1 0", "1"),
        ("total 7 300 0", "300"),
        ("total 18446744073709551615 18446744073709551615 0", "18446744073709551615"),
        ("total 0 1 1 255 1 0 65937447321600", "1"),
        ("total 0 9 2 0 1 0 0 1 1 0 0", "9"),
        ("total 0 0 2 0 5 0 0 255 0 18446744073709551615 3", "0"),
        ("total 0 18446744073709551616 0", "?"),
        ("total 0 0 0 ", "?"),
        ("total 0 0 0 0", "?"),
        ("total 0 0", "?"),
        ("total 0 0 1", "?"),
        ("total 0 0 1 0 0 0", "?"),
        ("total 0 0 1 256 0 0 0", "?"),
        ("total 0 0 2 1 0 0 0 1 0 0 0", "?"),
        ("total", "?"),
        ("T", "?"),
    ];
    answered.iter().all(|(line, answer)| answers(line.as_bytes()) == [answer.to_string()])
}

/// What a `message` request says of the total: the account comes back with it.
pub fn handed_back_good() -> bool {
    let code = String::from_utf8_lossy(ONE);
    let place = "0 1 0 65937447321600";
    let answered = [
        (format!("message A 6 5 0 0 {code}"), format!("activated 6 1 1 {place}")),
        (format!("message C 6 5 1 1 {place} {code}"), "cancelled 6 0 0".to_string()),
        (format!("message A 6 5 1 1 {place} {code}"), format!("already 6 1 1 {place}")),
        (format!("message A 6 5 0 1 {place} {code}"), format!("40 5 0 1 {place}")),
        (format!("message C 6 5 2 1 {place} {code}"), format!("40 5 2 1 {place}")),
        (format!("message C 6 5 1 0 {code}"), "40 5 1 0".to_string()),
        (format!("message A 6 5 0 {code}"), "?".to_string()),
    ];
    answered.iter().all(|(line, answer)| answers(line.as_bytes()) == [answer.clone()])
}

/// What the program `account` replies to each line, without the line's number.
fn replies(lines: &[u8]) -> Vec<String> {
    let mut replies = Vec::new();
    // Writing into a Vec does not fail.
    let _ = account_program(lines, &mut replies);
    let text = String::from_utf8_lossy(&replies);
    text.lines().filter_map(|line| line.split_once(' ')).map(|two| two.1.to_string()).collect()
}

/// Lines that ask, with the replies by hand, and lines that do not; the last has no line
/// feed.
pub fn lines_good() -> bool {
    let code = String::from_utf8_lossy(ONE);
    let replied = [
        ("T".to_string(), "total 0"),
        (format!("A 1 {code}"), "activated"),
        ("T".to_string(), "total 1"),
        ("T ".to_string(), "refused 9 0"),
        ("T 1".to_string(), "refused 9 0"),
        ("TT".to_string(), "refused 9 0"),
        ("TA".to_string(), "refused 9 0"),
        ("T\r".to_string(), "refused 9 0"),
        (" T".to_string(), "refused 9 0"),
        ("t".to_string(), "refused 9 0"),
        (String::new(), "refused 9 0"),
        (format!("T 2 {code}"), "refused 9 0"),
        (format!("T{}", " ".repeat(24_575)), "refused 9 0"),
        (format!("T{}", " ".repeat(24_576)), "refused 10 0"),
        ("T".to_string(), "total 1"),
        (format!("A 2 {code}"), "already"),
        (format!("A 2 {code}"), "old"),
        (format!("A 0 {code}"), "refused 41 0"),
        ("A 3 ".to_string(), "refused 42 0"),
        ("T".to_string(), "total 1"),
        (format!("C 3 {code}"), "cancelled"),
        ("T".to_string(), "total 0"),
        (format!("C 4 {code}"), "not active"),
        ("T".to_string(), "total 0"),
    ];
    let lines: Vec<&str> = replied.iter().map(|(line, _)| line.as_str()).collect();
    let wanted: Vec<&str> = replied.iter().map(|&(_, reply)| reply).collect();
    replies(lines.join("\n").as_bytes()) == wanted
}

/// By the replies alone: each total is the "activated" ones before it less the
/// "cancelled" ones. Gives how often a total came, and how often right after each reply.
fn totals(replies: &[String]) -> Option<(BTreeMap<u64, usize>, BTreeMap<String, usize>)> {
    let (mut active, mut before) = (0u64, "");
    let (mut totals, mut after) = (BTreeMap::new(), BTreeMap::new());
    for reply in replies {
        match reply.strip_prefix("total ") {
            Some(total) if total != active.to_string() => return None,
            Some(_) => {
                *totals.entry(active).or_insert(0) += 1;
                *after.entry(before.to_string()).or_insert(0) += 1;
            }
            None if reply == "activated" => active += 1,
            None if reply == "cancelled" => active -= 1,
            None => {}
        }
        before = reply.strip_prefix("total").map_or(reply, |_| "total");
    }
    Some((totals, after))
}

const BEFORE: [&str; 9] = [
    "activated", "already", "cancelled", "not active", "old", "refused 41 0", "refused 42 0",
    "refused 43 0", "refused 9 0",
];

/// The fixed and the random lines ask at 0, at 1, at 255 and at 256 and after every reply,
/// the random ones often, and are replied "activated" less "cancelled".
pub fn history_good() -> bool {
    let (mut fixed, mut random) = (Vec::new(), Vec::new());
    // Writing into a Vec does not fail.
    let _ = border_account(&mut fixed);
    let _ = messages(22, 30_000, &mut random);
    [(fixed, 1, 400), (random, 10, 2_000)].iter().all(|(lines, least, all)| {
        let Some((totals, after)) = totals(&replies(lines)) else {
            return false;
        };
        let often = |count: Option<&usize>| count.is_some_and(|count| count >= least);
        [0, 1, 255, 256].iter().all(|total| often(totals.get(total)))
            && BEFORE.iter().all(|&reply| often(after.get(reply)))
            && totals.values().sum::<usize>() > *all
    })
}

/// The account that a request hands in.
fn account_of(line: &[u8]) -> Option<Account> {
    match request_of(line)? {
        Request::Message(handed) => Some(handed.account),
        Request::Total(account) => Some(*account),
        _ => None,
    }
}

/// Whether messages refuse an account by 40.
fn unsound(account: &Account) -> bool {
    activate(account, 1, ONE).0 == "40 0"
}

/// Whether the total alone makes it so.
fn only_total(account: &Account) -> bool {
    unsound(account) && !unsound(&with_total(account, account.count()))
}

fn made(kind: &str, count: u64) -> Vec<Vec<u8>> {
    let mut lines = Vec::new();
    // Writing into a Vec does not fail.
    let _ = kinds_of(kind).map_or(Ok(()), |share| requests(23, count, &share, &mut lines));
    lines.split(|&byte| byte == b'\n').map(<[u8]>::to_vec).collect()
}

/// Of random `message` requests about one in twelve is refused for the total alone. Of
/// random `total` requests a fifth and more are of sound accounts, of such as are unsound
/// for the total alone and of others; many are none, and each other is answered the total
/// that it says.
pub fn requests_good() -> bool {
    let sent: Vec<Account> = made("message", 6_000).iter().filter_map(|l| account_of(l)).collect();
    let lines = made("total", 3_000);
    let asked: Vec<Account> = lines.iter().filter_map(|line| account_of(line)).collect();
    let alone = sent.iter().filter(|account| only_total(account)).count();
    let sound = asked.iter().filter(|account| !unsound(account)).count();
    let wrong = asked.iter().filter(|account| only_total(account)).count();
    let others = asked.len() - sound - wrong;
    (450..=600).contains(&alone)
        && sound > 600
        && wrong > 600
        && others > 400
        && (200..=400).contains(&(3_000 - asked.len()))
        && says_totals(&lines)
}

/// Whether each line is answered its third word, or `?` where it is no request.
fn says_totals(lines: &[Vec<u8>]) -> bool {
    let given = answers(&lines.join(&b'\n'));
    lines.iter().zip(&given).all(|(line, answer)| {
        let word = line.split(|&byte| byte == b' ').nth(2).unwrap_or_default();
        match account_of(line) {
            Some(_) => answer.as_bytes() == word,
            None => answer == "?",
        }
    })
}

/// The fixed requests have the total alone wrong, and ask of sound and unsound accounts.
pub fn borders_good() -> bool {
    let mut fixed = Vec::new();
    // Writing into a Vec does not fail.
    let _ = border_messages(&mut fixed);
    let lines: Vec<Vec<u8>> = fixed.split(|&byte| byte == b'\n').map(<[u8]>::to_vec).collect();
    let (asked, sent): (Vec<Vec<u8>>, Vec<Vec<u8>>) =
        lines.into_iter().partition(|line| line.starts_with(b"total "));
    let alone = |lines: &[Vec<u8>]| {
        lines.iter().filter_map(|line| account_of(line)).filter(only_total).count()
    };
    let sound = asked.iter().filter_map(|l| account_of(l)).filter(|a| !unsound(a)).count();
    alone(&sent) > 200 && alone(&asked) > 10 && sound > 5 && says_totals(&asked)
}
