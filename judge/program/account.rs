//! The account of entitlements, requests 3 and 5 of document 02: 256 places, a last
//! number and a total, what the messages activate and cancel do to it and are answered,
//! and the asking for its total.

use super::code::{self, letter_value, put_letters, refused, Refusal, LENGTH};

/// Places of an account.
pub const PLACES: usize = 256;

/// The greatest message number, and the greatest last number.
pub const MESSAGE_MAX: u64 = 1_099_511_627_775;

/// Letters in a half of a code.
const HALF: usize = LENGTH / 2;

/// The first number that is too large for ten letters.
pub const HALF_END: u64 = 1 << 50;

/// The halves of a code: ten letters each as a number, high letter first.
pub type Halves = (u64, u64);

/// A place is active when its activity is not 0. What a free place holds says
/// nothing.
#[derive(Clone, Copy, Debug, Default, PartialEq, Eq)]
pub struct Place {
    pub activity: u64,
    pub high: u64,
    pub low: u64,
}

impl Place {
    pub fn active(&self) -> bool {
        self.activity != 0
    }

    pub fn halves(&self) -> Halves {
        (self.high, self.low)
    }

    /// Its twenty letters, or none where a half is too large for ten.
    pub fn letters(&self) -> Option<[u8; LENGTH]> {
        if self.high >= HALF_END || self.low >= HALF_END {
            return None;
        }
        let mut letters = [0; LENGTH];
        put_letters(&mut letters[..HALF], self.high);
        put_letters(&mut letters[HALF..], self.low);
        Some(letters)
    }
}

#[derive(Clone, Copy, Debug, PartialEq, Eq)]
pub struct Account {
    pub places: [Place; PLACES],
    pub last: u64,
    pub total: u64,
}

#[derive(Clone, Copy, Debug, PartialEq, Eq)]
pub enum Kind {
    Activate,
    Cancel,
}

#[derive(Clone, Copy, Debug)]
pub struct Message<'a> {
    pub kind: Kind,
    pub number: u64,
    pub text: &'a [u8],
}

#[derive(Clone, Copy, Debug, PartialEq, Eq)]
pub enum Answer {
    Activated,
    Already,
    Cancelled,
    NotActive,
    Old,
}

impl Account {
    pub fn empty() -> Account {
        Account { places: [Place::default(); PLACES], last: 0, total: 0 }
    }

    /// The places that are active.
    pub fn active(&self) -> impl Iterator<Item = &Place> {
        self.places.iter().filter(|place| place.active())
    }

    /// How many places are active.
    pub fn count(&self) -> u64 {
        self.active().count() as u64
    }

    /// The kept total, of any account: nothing is counted and nothing refused.
    pub fn total(&self) -> u64 {
        self.total
    }

    /// Whether the account may be handed in: what is refused 40 is not good.
    fn good(&self) -> bool {
        let readable =
            |place: &Place| place.letters().is_some_and(|letters| code::read(&letters).is_ok());
        let mut codes: Vec<Halves> = self.active().map(Place::halves).collect();
        codes.sort_unstable();
        codes.windows(2).all(|two| two[0] != two[1])
            && self.active().all(readable)
            && self.last <= MESSAGE_MAX
            && self.total == self.count()
    }

    /// Does what a message says and answers it. A refusal 40, 41 or 42 and `Old`
    /// leave the account as it is; all else uses up the number.
    pub fn send(&mut self, message: &Message) -> Result<Answer, Refusal> {
        if !self.good() {
            return Err(refused(40));
        }
        let code = code_of(message)?;
        if message.number <= self.last {
            return Ok(Answer::Old);
        }
        self.last = message.number;
        let held = self.places.iter().position(|place| place.active() && place.halves() == code);
        match (message.kind, held) {
            (Kind::Activate, Some(_)) => Ok(Answer::Already),
            (Kind::Activate, None) => self.activate(code),
            (Kind::Cancel, Some(place)) => {
                self.places[place] = Place::default();
                self.total -= 1;
                Ok(Answer::Cancelled)
            }
            (Kind::Cancel, None) => Ok(Answer::NotActive),
        }
    }

    /// Takes the lowest free place for a code that is not active.
    fn activate(&mut self, (high, low): Halves) -> Result<Answer, Refusal> {
        let free = self.places.iter_mut().find(|place| !place.active()).ok_or(refused(43))?;
        *free = Place { activity: 1, high, low };
        self.total += 1;
        Ok(Answer::Activated)
    }
}

/// The code of a message whose number and text are good; 41 comes before 42.
pub fn code_of(message: &Message) -> Result<Halves, Refusal> {
    if !(1..=MESSAGE_MAX).contains(&message.number) {
        return Err(refused(41));
    }
    halves_of(message.text).ok_or(refused(42))
}

/// The halves of a text, or none where reading refuses it.
pub fn halves_of(text: &[u8]) -> Option<Halves> {
    code::read(text).ok()?;
    let half = |letters: &[u8]| {
        letters.iter().try_fold(0, |half, &letter| Some(half << 5 | letter_value(letter)?))
    };
    Some((half(&text[..HALF])?, half(&text[HALF..])?))
}
