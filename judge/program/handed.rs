//! The `message` and `total` requests of the trials: an account handed in as words, a
//! message to it and the account handed back, or the asking for its total.

use std::io::{self, Write};

use super::account::{Account, Answer, Message, Place, PLACES};
use super::lines::{first_word, long_number};
use super::messages::kind_of;

pub struct Handed<'a> {
    pub account: Account,
    pub message: Message<'a>,
}

/// A number and what follows the space after it.
pub fn first_number(rest: &[u8]) -> Option<(u64, &[u8])> {
    let (word, rest) = first_word(rest)?;
    Some((long_number(word)?, rest))
}

/// The request after its first word and a space: kind, number, account and text,
/// which is the rest of the line as it is.
pub fn handed_of(rest: &[u8]) -> Option<Handed<'_>> {
    let (kind, rest) = first_word(rest)?;
    let (number, rest) = first_number(rest)?;
    let (account, text) = account_of(rest)?;
    Some(Handed { account, message: Message { kind: kind_of(kind)?, number, text } })
}

/// The account of a `total` request after its first word and a space; it ends the
/// line.
pub fn asked_of(rest: &[u8]) -> Option<Account> {
    // A space ends each word of an account, and the line's end stands for the last one.
    let rest = [rest, b" "].concat();
    let (account, after) = account_of(&rest)?;
    Some(account).filter(|_| after.is_empty())
}

/// An account: last number, total, count, and of so many places, in rising order, the
/// place, its activity and its halves; then what follows. Other places are 0.
fn account_of(rest: &[u8]) -> Option<(Account, &[u8])> {
    let mut account = Account::empty();
    let (last, rest) = first_number(rest)?;
    let (total, rest) = first_number(rest)?;
    let (count, mut rest) = first_number(rest)?;
    (account.last, account.total) = (last, total);
    let mut least = 0;
    // More than 256 places cannot rise, so no count needs a bound of its own.
    for _ in 0..count {
        let (at, after) = first_number(rest)?;
        let (activity, after) = first_number(after)?;
        let (high, after) = first_number(after)?;
        let (low, after) = first_number(after)?;
        let at = usize::try_from(at).ok().filter(|at| (least..PLACES).contains(at))?;
        account.places[at] = Place { activity, high, low };
        least = at + 1;
        rest = after;
    }
    Some((account, rest))
}

/// An account in words: the places that `listed` says.
pub fn account_words(account: &Account, listed: impl Fn(usize) -> bool) -> String {
    let at: Vec<usize> = (0..PLACES).filter(|&at| listed(at)).collect();
    let mut words = format!("{} {} {}", account.last, account.total, at.len());
    for at in at {
        let Place { activity, high, low } = account.places[at];
        words.push_str(&format!(" {at} {activity} {high} {low}"));
    }
    words
}

/// An account in words, with each place that holds something.
pub fn held_words(account: &Account) -> String {
    account_words(account, |at| account.places[at] != Place::default())
}

/// Sends the message and shows the answer and the account afterwards.
pub fn answer_handed(handed: &Handed, output: &mut impl Write) -> io::Result<()> {
    let mut account = handed.account;
    match account.send(&handed.message) {
        Ok(Answer::Activated) => write!(output, "activated")?,
        Ok(Answer::Already) => write!(output, "already")?,
        Ok(Answer::Cancelled) => write!(output, "cancelled")?,
        Ok(Answer::NotActive) => write!(output, "not-active")?,
        Ok(Answer::Old) => write!(output, "old")?,
        Err(refusal) => write!(output, "{}", refusal.number)?,
    }
    write!(output, " {}", held_words(&account))
}
