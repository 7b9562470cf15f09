//! The judge's tests of the account: each answer and refusal in the words of request
//! 3, the active codes told in a second way over a long history, and what the
//! generators make.

use std::collections::{BTreeMap, BTreeSet};

use crate::generators::borderaccount::border_account;
use crate::generators::bordermessages::{border_messages, full_account, numbered, CODES, REFUSED};
use crate::generators::histories::messages;
use crate::generators::requests::{kinds_of, requests};
use crate::program::account::{
    halves_of, Account, Answer, Kind, Message, Place, HALF_END, MESSAGE_MAX, PLACES,
};
use crate::program::code::{self, Refusal, LENGTH};
use crate::program::messages::{account as account_program, message_of};
use crate::program::trials::trials;

/// Two codes, and letters that reading refuses.
const ONE: &[u8] = CODES[0];
const TWO: &[u8] = CODES[1];
const BAD: &[u8] = REFUSED[0];

/// An answer in words, or a refusal's number, and the account afterwards.
fn sent(account: &Account, kind: Kind, number: u64, text: &[u8]) -> (String, Account) {
    let mut after = *account;
    let said = match after.send(&Message { kind, number, text }) {
        Ok(answer) => format!("{answer:?}"),
        Err(refusal) => format!("{} {}", refusal.number, refusal.place),
    };
    (said, after)
}

pub fn activate(account: &Account, number: u64, text: &[u8]) -> (String, Account) {
    sent(account, Kind::Activate, number, text)
}

pub fn cancel(account: &Account, number: u64, text: &[u8]) -> (String, Account) {
    sent(account, Kind::Cancel, number, text)
}

/// An account with these codes in these places, and as a total how many of them are
/// active.
pub fn with(last: u64, places: &[(usize, u64, &[u8])]) -> Account {
    let total = places.iter().filter(|place| place.1 != 0).count() as u64;
    let mut account = Account { last, total, ..Account::empty() };
    for &(at, activity, text) in places {
        let (high, low) = halves_of(text).unwrap_or((u64::MAX, u64::MAX));
        account.places[at] = Place { activity, high, low };
    }
    account
}

pub fn is(got: (String, Account), said: &str, after: &Account) -> bool {
    got == (said.to_string(), *after)
}

/// Each answer, with the account afterwards written out.
pub fn answers_good() -> bool {
    let empty = Account::empty();
    let both = with(5, &[(0, 1, ONE), (3, 2, TWO)]);
    is(activate(&empty, 1, ONE), "Activated", &with(1, &[(0, 1, ONE)]))
        && is(activate(&empty, MESSAGE_MAX, ONE), "Activated", &with(MESSAGE_MAX, &[(0, 1, ONE)]))
        && is(cancel(&empty, 9, ONE), "NotActive", &with(9, &[]))
        && is(activate(&both, 6, TWO), "Already", &with(6, &[(0, 1, ONE), (3, 2, TWO)]))
        && is(cancel(&both, 6, TWO), "Cancelled", &with(6, &[(0, 1, ONE)]))
        && is(cancel(&both, 7, ONE), "Cancelled", &with(7, &[(3, 2, TWO)]))
        && is(cancel(&both, 6, CODES[2]), "NotActive", &Account { last: 6, ..both })
        && [1, 4, 5].iter().all(|&number| {
            is(activate(&both, number, CODES[2]), "Old", &both)
                && is(cancel(&both, number, ONE), "Old", &both)
                && is(cancel(&both, number, CODES[2]), "Old", &both)
        })
}

/// The lowest free place is taken, whatever it holds, and the others stay; what a free
/// place holds is not active.
pub fn places_good() -> bool {
    let rubbish = Place { activity: 0, high: u64::MAX, low: 7 };
    let mut account = with(5, &[(0, 1, ONE), (2, 1, CODES[2]), (4, 0, TWO), (255, 0, ONE)]);
    account.places[1] = rubbish;
    account.places[3] = rubbish;
    let mut taken = Account { last: 6, total: 3, ..account };
    taken.places[1] = with(0, &[(1, 1, TWO)]).places[1];
    let mut cleared = Account { last: 6, total: 1, ..account };
    cleared.places[0] = Place::default();
    let (_, once) = activate(&taken, 7, &numbered(9));
    let below = cancel(&cancel(&once, 8, CODES[2]).1, 9, ONE).1;
    is(activate(&account, 6, TWO), "Activated", &taken)
        && is(cancel(&account, 6, ONE), "Cancelled", &cleared)
        && is(cancel(&account, 6, TWO), "NotActive", &Account { last: 6, ..account })
        && once.places[3] == with(0, &[(3, 1, &numbered(9))]).places[3]
        && below.places[0] == Place::default()
        && activate(&below, 10, &numbered(8)).1.places[0].active()
}

/// What is refused 40 and what is not, with good messages and with bad ones, where the
/// total is right.
pub fn handed_in_good() -> bool {
    let good = with(5, &[(3, 1, ONE), (9, u64::MAX, TWO)]);
    let changed = |change: fn(&mut Account)| {
        let mut account = good;
        change(&mut account);
        account.total = account.count();
        account
    };
    let bad: [fn(&mut Account); 10] = [
        |account| account.places[200] = account.places[3],
        |account| account.places[0] = Place { activity: 7, ..account.places[9] },
        |account| account.places[3].high += HALF_END,
        |account| account.places[3].low += HALF_END,
        |account| account.places[9].low = u64::MAX,
        |account| account.places[9].high = HALF_END,
        |account| account.places[0].activity = 1,
        |account| account.places[3].low -= 1 << 45,
        |account| account.last = MESSAGE_MAX + 1,
        |account| account.last = u64::MAX,
    ];
    let fine: [fn(&mut Account); 6] = [
        |account| account.places[200] = Place { activity: 0, ..account.places[3] },
        |account| account.places[0] = Place { activity: 0, ..account.places[9] },
        |account| account.places[0] = Place { activity: 0, high: HALF_END, low: u64::MAX },
        |account| account.places[0].low = 1,
        |account| account.last = MESSAGE_MAX - 1,
        |account| account.places[3].high += 1,
    ];
    let refused = |account: &Account| {
        [(6, ONE), (0, ONE), (u64::MAX, BAD), (6, BAD), (5, ONE)].iter().all(|&(number, text)| {
            is(activate(account, number, text), "40 0", account)
                && is(cancel(account, number, text), "40 0", account)
        })
    };
    bad.iter().all(|&change| refused(&changed(change)))
        && fine.iter().all(|&change| {
            let account = changed(change);
            activate(&account, account.last + 1, CODES[2]).0 == "Activated"
        })
}

/// 41 before 42, 42 before `old`, and none of them changes the account.
pub fn order_good() -> bool {
    let account = with(5, &[(0, 1, ONE)]);
    let full = full_account(5);
    let texts = REFUSED.iter().map(|code| code.as_slice()).chain([b"".as_slice(), b" ", &ONE[1..]]);
    [0, MESSAGE_MAX + 1, u64::MAX].iter().all(|&number| {
        is(activate(&account, number, BAD), "41 0", &account)
            && is(cancel(&account, number, ONE), "41 0", &account)
            && is(activate(&full, number, TWO), "41 0", &full)
    }) && texts.into_iter().all(|text| {
        [1, 5, 6, MESSAGE_MAX].iter().all(|&number| {
            is(activate(&account, number, text), "42 0", &account)
                && is(cancel(&account, number, text), "42 0", &account)
        })
    }) && is(activate(&full, 5, BAD), "42 0", &full)
        && is(activate(&full, 5, TWO), "Old", &full)
}

/// 43 uses up the number, and comes only where all 256 places hold others.
pub fn full_good() -> bool {
    let full = full_account(5);
    let used = Account { last: 6, ..full };
    (0..PLACES).all(|at| {
        let code = numbered(at);
        let mut free = Account { total: 255, ..full };
        free.places[at].activity = 0;
        let mut taken = used;
        taken.places[at] = with(0, &[(0, 1, TWO)]).places[0];
        let mut cleared = Account { total: 255, ..used };
        cleared.places[at] = Place::default();
        is(activate(&full, 6, &code), "Already", &used)
            && is(cancel(&full, 6, &code), "Cancelled", &cleared)
            && is(activate(&free, 6, TWO), "Activated", &taken)
            && is(activate(&free, 6, &code), "Activated", &used)
    }) && is(activate(&full, 6, TWO), "43 0", &used)
        && is(activate(&used, 6, TWO), "Old", &used)
        && is(cancel(&full, 6, TWO), "NotActive", &used)
}

/// What is told of an account without its places: the latest activation or cancellation
/// of each text that was processed, "full" ones passed over.
#[derive(Default)]
struct Told {
    latest: BTreeMap<Vec<u8>, Kind>,
    last: u64,
    activated: usize,
    cancelled: usize,
}

impl Told {
    fn active(&self) -> BTreeSet<Vec<u8>> {
        let activated = self.latest.iter().filter(|latest| *latest.1 == Kind::Activate);
        activated.map(|latest| latest.0.clone()).collect()
    }

    /// Hears a message and what was said to it; whether that is an answer it may have.
    fn hear(&mut self, message: &Message, said: Result<Answer, Refusal>) -> bool {
        let processed = (self.last + 1..=MESSAGE_MAX).contains(&message.number)
            && code::read(message.text).is_ok();
        let active = self.active();
        let full = processed
            && message.kind == Kind::Activate
            && active.len() == PLACES
            && !active.contains(message.text);
        if processed {
            self.last = message.number;
        }
        if processed && !full {
            self.latest.insert(message.text.to_vec(), message.kind);
        }
        self.activated += usize::from(said == Ok(Answer::Activated));
        self.cancelled += usize::from(said == Ok(Answer::Cancelled));
        match said {
            Ok(Answer::Old) => !processed,
            Ok(_) => processed && !full,
            Err(refusal) if refusal.number == 43 => full,
            Err(refusal) => !processed && [41, 42].contains(&refusal.number),
        }
    }

    /// Whether the account's active codes are those that are told, none of them twice,
    /// and their number is the kept total.
    fn fits(&self, account: &Account) -> bool {
        let letters: Option<Vec<[u8; LENGTH]>> = account.active().map(Place::letters).collect();
        let letters = letters.unwrap_or_default();
        let active: BTreeSet<Vec<u8>> = letters.iter().map(|code| code.to_vec()).collect();
        active == self.active()
            && letters.len() == active.len()
            && letters.len() + self.cancelled == self.activated
            && account.total() == letters.len() as u64
            && account.last == self.last
    }
}

/// Over a long history: the active codes are exactly those whose latest processed
/// message, with "full" ones passed over, was an activation, their number is the
/// "activated" answers less the "cancelled" ones and the kept total, and 40 never comes.
pub fn history_good() -> bool {
    let mut lines = Vec::new();
    // Writing into a Vec does not fail.
    let _ = messages(18, 10_000, &mut lines);
    let (mut account, mut told) = (Account::empty(), Told::default());
    lines.split(|&byte| byte == b'\n').filter_map(message_of).all(|message| {
        let said = account.send(&message);
        told.hear(&message, said) && told.fits(&account)
    })
}

/// How often each word stands at the start of a line, or after its first word.
pub fn counts(text: &[u8], skip: usize) -> BTreeMap<String, usize> {
    let mut counts = BTreeMap::new();
    for line in String::from_utf8_lossy(text).lines() {
        let words: Vec<&str> = line.split(' ').skip(skip).collect();
        let name = if words[0] == "refused" { words[1] } else { words[0] };
        *counts.entry(name.to_string()).or_insert(0) += 1;
    }
    counts
}

/// Whether just these names were met, each so often.
pub fn met(counts: &BTreeMap<String, usize>, names: &str, least: usize) -> bool {
    let wanted: BTreeSet<&str> = names.split(' ').collect();
    counts.keys().map(String::as_str).collect::<BTreeSet<&str>>() == wanted
        && counts.values().all(|&count| count >= least)
}

const REQUESTED: &str = "40 41 42 43 ? activated already cancelled not-active old";
const REPLIED: &str = "10 41 42 43 9 activated already cancelled not old total";

/// The fixed and the random messages meet every answer, the random ones often.
pub fn requests_good() -> bool {
    let Some(share) = kinds_of("message") else {
        return false;
    };
    let (mut fixed, mut random) = (Vec::new(), Vec::new());
    let (mut answers, mut often) = (Vec::new(), Vec::new());
    // Writing into a Vec does not fail.
    let _ = border_messages(&mut fixed);
    let fixed = fixed.split(|&byte| byte == b'\n').filter(|line| !line.starts_with(b"total"));
    let fixed = fixed.collect::<Vec<&[u8]>>().join(&b'\n');
    let _ = trials(fixed.as_slice(), &mut answers);
    let _ = requests(19, 4_000, &share, &mut random);
    let _ = trials(random.as_slice(), &mut often);
    let answered = counts(&often, 0);
    met(&counts(&answers, 0), REQUESTED, 2)
        && met(&answered, REQUESTED, 40)
        && answered.values().sum::<usize>() == 4_000
}

/// The fixed lines and a random history meet every reply, each numbered by its line;
/// the last line of an odd seed has no line feed.
pub fn lines_good() -> bool {
    let (mut fixed, mut random) = (Vec::new(), Vec::new());
    let (mut replies, mut often) = (Vec::new(), Vec::new());
    // Writing into a Vec does not fail.
    let _ = border_account(&mut fixed).and_then(|()| account_program(&fixed[..], &mut replies));
    let _ = messages(21, 20_000, &mut random);
    let _ = account_program(random.as_slice(), &mut often);
    let often_text = String::from_utf8_lossy(&often).into_owned();
    let numbered = |(reply, line): (&str, usize)| reply.starts_with(&format!("{line} "));
    let mut replied = counts(&often, 1);
    met(&counts(&replies, 1), REPLIED, 1)
        && replied.remove("10").is_some()
        && met(&replied, &REPLIED.replace("10 ", ""), 300)
        && often_text.lines().zip(1..).all(numbered)
        && often_text.lines().count() == 20_000
        && random.last() != Some(&b'\n')
}
