//! Random message lines as one long history for the program `account`: it fills an
//! account, keeps it full, empties it and begins again, with every answer often, and asks
//! for the total at any time.

use std::io::{self, Write};

use super::broken::{broken, noise};
use super::random::Random;
use super::texts::{codes, refused_text, relative, some_code, Code};
use crate::program::account::{halves_of, MESSAGE_MAX, PLACES};
use crate::program::lines::LINE_MAX;
use crate::program::messages::message_of;

/// Codes that a history speaks of, more than there are places.
const POOL: usize = PLACES + 64;

/// The first number is above this, so that a history can follow the fixed lines.
pub const START: u64 = 100_000;

/// Short lines of another form than a message's.
const SHORT: [&str; 28] = [
    "", " ", "A", "C", "A ", "A 5", "C 5", "A  ", "A 5\t", "\r", "5", "5 A", "AC 5 ", "a", "\t",
    "A\t5 ", "T ", "T ", "TT", "T 5", "T 5 ", "t", " T", "T\r", "T\0", "TA", "AT", "\u{d4}",
];

/// Kinds and numbers, each with what separates it from the code, of no message.
const STARTS: [&str; 24] = [
    "a 5 ", "c 5 ", "B 5 ", " A 5 ", "A  5 ", "A 05 ", "A 00 ", "A +5 ", "A -5 ", "A 5. ",
    "A 5\r ", "A\t5 ", "A 5\t", "A 0x5 ", "A ", "5 ", "", "A5 ", "T 5 ", "T ",
    "C 18446744073709551616 ", "A 18446744073709551620 ", "A 99999999999999999999 ",
    "C 100000000000000000000 ",
];

/// What most messages of a stretch are for.
#[derive(Clone, Copy, PartialEq, Eq)]
enum Phase {
    Filling,
    Full,
    Emptying,
    Mixed,
}

/// What is known of the account so far.
struct History {
    codes: Vec<Code>,
    active: Vec<bool>,
    last: u64,
    phase: Phase,
    /// Lines until a phase without a goal ends.
    left: u64,
}

/// Prints `count` message lines; the last has no line feed if the seed is odd.
pub fn messages(seed: u64, count: u64, output: &mut impl Write) -> io::Result<()> {
    let mut random = Random::new(seed);
    let mut history = History::new(&mut random);
    let ending = ending(&history.codes);
    let end = ending.len() as u64;
    for place in 0..count {
        let left = count - place;
        // A short history has no ending.
        let line = if left <= end && count >= 10 * end {
            ending[(end - left) as usize].clone()
        } else {
            history.line(&mut random, left)
        };
        output.write_all(&line)?;
        if seed % 2 == 0 || left > 1 {
            output.write_all(b"\n")?;
        }
    }
    output.flush()
}

/// The line of a message.
pub fn line_of(kind: char, number: u64, text: &[u8]) -> Vec<u8> {
    [format!("{kind} {number} ").as_bytes(), text].concat()
}

/// The line that asks for the total.
pub fn asking() -> Vec<u8> {
    b"T".to_vec()
}

/// The last lines: the greatest number, after which all is old.
fn ending(codes: &[Code]) -> Vec<Vec<u8>> {
    let (one, two): (&[u8], &[u8]) = (&codes[0], &codes[1]);
    vec![
        line_of('C', MESSAGE_MAX - 3, one),
        line_of('C', MESSAGE_MAX - 2, two),
        line_of('A', MESSAGE_MAX + 1, one),
        line_of('A', MESSAGE_MAX - 1, one),
        line_of('C', MESSAGE_MAX - 1, one),
        line_of('A', MESSAGE_MAX, &one[1..]),
        line_of('A', MESSAGE_MAX, two),
        asking(),
        line_of('A', MESSAGE_MAX, two),
        line_of('C', MESSAGE_MAX, two),
        line_of('C', MESSAGE_MAX + 1, two),
        line_of('C', u64::MAX, two),
        line_of('C', 0, two),
        line_of('C', 1, two),
        line_of('C', MESSAGE_MAX, b""),
        b"C 18446744073709551616 ".to_vec(),
        asking(),
        line_of('C', MESSAGE_MAX, one),
    ]
}

impl History {
    fn new(random: &mut Random) -> History {
        let codes = codes(random, POOL);
        History { codes, active: vec![false; POOL], last: START, phase: Phase::Filling, left: 0 }
    }

    fn count(&self) -> usize {
        self.active.iter().filter(|&&active| active).count()
    }

    /// The next line, where so many are left.
    fn line(&mut self, random: &mut Random, left: u64) -> Vec<u8> {
        self.turn(random);
        if random.one_in(4_000) {
            return self.long(random);
        }
        // An account is never empty for long.
        if random.one_in(if self.count() == 0 { 4 } else { 12 }) {
            return asking();
        }
        let number = self.next_number(random, left);
        match random.below(100) {
            0..=6 => self.malformed(random, number),
            7..=11 => {
                let code = random.pick(&self.codes);
                let text = refused_text(random, &code);
                let number = if random.one_in(4) { self.bad_number(random) } else { number };
                line_of(random.pick(&['A', 'C']), number, &text)
            }
            12..=20 => {
                let number = self.bad_number(random);
                let (kind, at) = self.message(random);
                line_of(kind, number, &self.codes[at])
            }
            _ => {
                let (kind, at) = self.message(random);
                self.process(kind, at, number);
                line_of(kind, number, &self.codes[at])
            }
        }
    }

    /// Goes on to the next phase where one has reached its goal.
    fn turn(&mut self, random: &mut Random) {
        self.left = self.left.saturating_sub(1);
        let (next, left) = match (self.phase, self.count()) {
            (Phase::Filling, PLACES) => (Phase::Full, random.between(50, 400)),
            (Phase::Full, _) if self.left == 0 => (Phase::Emptying, 0),
            (Phase::Emptying, 0) => (Phase::Mixed, random.between(50, 300)),
            (Phase::Mixed, _) if self.left == 0 => (Phase::Filling, 0),
            _ => return,
        };
        (self.phase, self.left) = (next, left as u64);
    }

    /// A number above the last, mostly the next one, rarely so far on that numbers
    /// outgrow 32 bits; as many stay as lines are left.
    fn next_number(&self, random: &mut Random, left: u64) -> u64 {
        let step = match random.below(1_000) {
            0 => 1 + random.below(1 << 33),
            1..=10 => 1 + random.below(100_000),
            11..=110 => 1 + random.below(100),
            _ => 1,
        };
        (self.last + step).min(MESSAGE_MAX - left)
    }

    /// A number that is old or too large, or 0.
    fn bad_number(&self, random: &mut Random) -> u64 {
        let (any, huge) = (random.below(self.last), random.below(u64::MAX - MESSAGE_MAX));
        match random.below(12) {
            0..=3 => self.last,
            4..=5 => self.last - 1,
            6 => 1,
            7..=8 => any,
            9 => 0,
            10 => random.pick(&[MESSAGE_MAX + 1, MESSAGE_MAX + 2, u64::MAX]),
            _ => MESSAGE_MAX + 1 + huge,
        }
    }

    /// A kind and a code of the pool, as the phase wants them.
    fn message(&mut self, random: &mut Random) -> (char, usize) {
        // Of twenty: activations of codes that are not active and that are, then
        // cancellations of codes that are active and that are not.
        let shares = match self.phase {
            Phase::Filling => [14, 2, 2, 2],
            Phase::Full => [10, 4, 3, 3],
            Phase::Emptying => [2, 2, 13, 3],
            Phase::Mixed => [7, 3, 7, 3],
        };
        let share = random.below(20);
        let (kind, active) = match share {
            share if share < shares[0] => ('A', false),
            share if share < shares[0] + shares[1] => ('A', true),
            share if share < shares[0] + shares[1] + shares[2] => ('C', true),
            _ => ('C', false),
        };
        (kind, self.pick(random, active))
    }

    /// A code of the pool that is active, or one that is not; another where there is
    /// none. Now and then a code that is not active gives way to a new one.
    fn pick(&mut self, random: &mut Random, active: bool) -> usize {
        let fitting: Vec<usize> = (0..POOL).filter(|&at| self.active[at] == active).collect();
        if fitting.is_empty() {
            return random.index(POOL);
        }
        let at = random.pick(&fitting);
        if !active && random.one_in(8) {
            let (one, other) = (random.pick(&self.codes), random.pick(&self.codes));
            let new =
                if random.one_in(2) { some_code(random) } else { relative(random, &one, &other) };
            if !self.codes.contains(&new) {
                self.codes[at] = new;
            }
        }
        at
    }

    /// Remembers what a message with a good number does.
    fn process(&mut self, kind: char, at: usize, number: u64) {
        self.last = number;
        if kind == 'C' {
            self.active[at] = false;
        } else if self.count() < PLACES {
            self.active[at] = true;
        }
    }

    /// A line that is nearly always refused 9, and never changes the account.
    fn malformed(&mut self, random: &mut Random, number: u64) -> Vec<u8> {
        let code = random.pick(&self.codes);
        let length = random.pick(&[0, 1, 2, 5, 40]);
        let line = match random.below(8) {
            0 => noise(random, length),
            1..=2 => random.pick(&SHORT).into(),
            3..=4 => [random.pick(&STARTS).as_bytes(), &code].concat(),
            _ => {
                let line = line_of(random.pick(&['A', 'C']), number, &code);
                broken(random, &line)
            }
        };
        self.harmless(line)
    }

    /// The line, with a space more where by chance it is a message that uses up a
    /// number.
    fn harmless(&self, mut line: Vec<u8>) -> Vec<u8> {
        let uses = message_of(&line).is_some_and(|message| {
            (self.last + 1..=MESSAGE_MAX).contains(&message.number)
                && halves_of(message.text).is_some()
        });
        if uses {
            line.push(b' ');
        }
        line
    }

    /// A line about as long as a line may be, or far longer.
    fn long(&mut self, random: &mut Random) -> Vec<u8> {
        let lengths = [LINE_MAX - 1, LINE_MAX, LINE_MAX, LINE_MAX + 1, LINE_MAX + 1, 60_000];
        let start: &str = match random.below(6) {
            0..=1 => random.pick(&STARTS),
            2 => "T",
            _ => "A 1 ",
        };
        let mut line = [start.as_bytes(), &random.pick(&self.codes)].concat();
        line.resize(random.pick(&lengths), random.pick(b"0Y "));
        line
    }
}
