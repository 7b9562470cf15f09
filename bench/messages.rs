//! Prints messages for an account, one a line as the account's program reads them:
//!   messages SEED ACTIVE COUNT <CODES
//! first ACTIVE activations from empty, then COUNT messages that keep the account at ACTIVE codes or one
//! below. The codes come in a line each, more than ACTIVE of them. The same words and codes give the same
//! lines on every machine.

#[allow(dead_code)] // the judge uses more of it
#[path = "../judge/generators/random.rs"]
mod random;

use std::io::{self, BufRead, Write};

use random::Random;

const USAGE: &str = "usage: messages SEED ACTIVE COUNT <CODES
ACTIVE: 2 to 256, fewer than there are codes";

/// The places of an account.
const PLACES: usize = 256;

/// How much higher than the one before a number is, at most.
const STEP: u64 = 9;

/// The codes that are active, those that are not, and the last number that was used up.
struct Account {
    active: Vec<String>,
    others: Vec<String>,
    last: u64,
}

/// Takes a code out of a list that is not empty, any of them alike.
fn draw(codes: &mut Vec<String>, random: &mut Random) -> String {
    codes.swap_remove(random.index(codes.len()))
}

/// One of a list that is not empty.
fn any<'a>(codes: &'a [String], random: &mut Random) -> &'a str {
    &codes[random.index(codes.len())]
}

impl Account {
    fn next_number(&mut self, random: &mut Random) -> u64 {
        self.last += 1 + random.below(STEP);
        self.last
    }

    /// An activation of a code that was never active or was cancelled.
    fn activated(&mut self, random: &mut Random) -> String {
        let code = draw(&mut self.others, random);
        let line = format!("A {} {code}", self.next_number(random));
        self.active.push(code);
        line
    }

    /// A cancellation of a code that is active.
    fn cancelled(&mut self, random: &mut Random) -> String {
        let code = draw(&mut self.active, random);
        let line = format!("C {} {code}", self.next_number(random));
        self.others.push(code);
        line
    }

    /// A message with a number that was used up or passed over, with any of the codes.
    fn old(&self, random: &mut Random) -> String {
        let kind = if random.one_in(2) { 'A' } else { 'C' };
        let codes = if random.one_in(2) { &self.active } else { &self.others };
        format!("{kind} {} {}", 1 + random.below(self.last), any(codes, random))
    }

    /// Any message: README.md has the shares.
    fn message(&mut self, kept: usize, random: &mut Random) -> String {
        let missing = self.active.len() < kept;
        match random.below(100) {
            0..=59 if missing => self.activated(random),
            0..=59 => self.cancelled(random),
            60..=74 => format!("C {} {}", self.next_number(random), any(&self.others, random)),
            75..=79 => self.old(random),
            _ => {
                let full = self.active.len() == PLACES && random.one_in(2);
                let number = self.next_number(random);
                let codes = if full { &self.others } else { &self.active };
                format!("A {number} {}", any(codes, random))
            }
        }
    }
}

/// Prints the messages, or answers false for words that say none.
fn print_messages(words: &[String], output: &mut impl Write) -> io::Result<bool> {
    let [seed, kept, count] = words else { return Ok(false) };
    let (Ok(seed), Ok(kept), Ok(count)) = (seed.parse(), kept.parse(), count.parse::<u64>()) else {
        return Ok(false);
    };
    let mut random = Random::new(seed);
    let codes = io::stdin().lock().lines().collect::<io::Result<Vec<String>>>()?;
    let mut account = Account { active: Vec::new(), others: codes, last: 0 };
    // So that one below there still is a code to repeat, and one that is not active.
    if !(2..=PLACES).contains(&kept) || account.others.len() <= kept {
        return Ok(false);
    }
    for _ in 0..kept {
        writeln!(output, "{}", account.activated(&mut random))?;
    }
    for _ in 0..count {
        writeln!(output, "{}", account.message(kept, &mut random))?;
    }
    output.flush().map(|()| true)
}

fn main() {
    let words: Vec<String> = std::env::args().skip(1).collect();
    let mut output = io::BufWriter::new(io::stdout().lock());
    match print_messages(&words, &mut output) {
        Ok(true) => {}
        Ok(false) => {
            eprintln!("{USAGE}");
            std::process::exit(2);
        }
        Err(error) => {
            eprintln!("messages: {error}");
            std::process::exit(2);
        }
    }
}
