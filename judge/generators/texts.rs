//! Random codes, such as differ in one half only, and texts that reading refuses, for
//! messages.

use super::random::Random;
use super::requests::{good_fields, spoil_part, with_no_letter, wrong_length};
use crate::program::code::{parts_of, read, spell, take_apart, LENGTH, LETTERS};

pub type Code = [u8; LENGTH];

/// A code that reading accepts.
pub fn some_code(random: &mut Random) -> Code {
    spell(&parts_of(&good_fields(random)))
}

/// A code that differs from the first in one half only, now and then in no letter:
/// in a letter beside the cut, in a part, or in a whole half, which is the other's.
pub fn relative(random: &mut Random, code: &Code, other: &Code) -> Code {
    let mut code = *code;
    match random.below(8) {
        0 => code[9] = random.pick(LETTERS),
        // The eleventh letter ends with the closing bit.
        1 => code[10] = LETTERS[2 * random.index(16) + 1],
        2 => code[11] = LETTERS[14 + random.index(14)],
        3 => code[12 + random.index(4)] = LETTERS[2 + random.index(30)],
        4 => code[16 + random.index(4)] = random.pick(LETTERS),
        5 => return with_degrees(random, &code),
        6 => code[..10].copy_from_slice(&other[..10]),
        _ => code[10..].copy_from_slice(&other[10..]),
    }
    code
}

/// Other degrees, so that only the high letters of the high half differ.
fn with_degrees(random: &mut Random, code: &Code) -> Code {
    let Ok(mut parts) = take_apart(code) else {
        return *code;
    };
    let minutes = (1 << 18) - 1;
    parts.lat_bits = random.below(90) << 18 | parts.lat_bits & minutes;
    parts.lon_bits = random.below(180) << 18 | parts.lon_bits & minutes;
    spell(&parts)
}

/// So many codes that reading accepts, each another; half are relatives of others.
pub fn codes(random: &mut Random, count: usize) -> Vec<Code> {
    let mut all: Vec<Code> = Vec::with_capacity(count);
    while all.len() < count {
        let code = if all.is_empty() || random.one_in(2) {
            some_code(random)
        } else {
            let (one, other) = (random.pick(&all), random.pick(&all));
            relative(random, &one, &other)
        };
        if !all.contains(&code) {
            all.push(code);
        }
    }
    all
}

/// Twenty letters that reading refuses, by 13 to 18.
pub fn refused_code(random: &mut Random) -> Code {
    let mut parts = parts_of(&good_fields(random));
    for _ in 0..random.pick(&[1, 1, 1, 2, 4]) {
        spoil_part(random, &mut parts);
    }
    spell(&parts)
}

/// A text that reading refuses, made of a code where it is not twenty other letters.
pub fn refused_text(random: &mut Random, code: &Code) -> Vec<u8> {
    let text = match random.below(12) {
        0 => Vec::new(),
        1..=2 => wrong_length(random, code),
        3..=4 => with_no_letter(random, code),
        5 => code.to_ascii_lowercase(),
        6 => spaced(random, code),
        7 => (0..LENGTH).map(|_| random.pick(LETTERS)).collect(),
        _ => refused_code(random).to_vec(),
    };
    // Changed by chance, it could be a good one.
    if read(&text).is_ok() {
        return [text, b" ".to_vec()].concat();
    }
    text
}

/// A code with a space too many or in place of a letter.
fn spaced(random: &mut Random, code: &Code) -> Vec<u8> {
    let mut text = code.to_vec();
    let at = random.index(LENGTH + 1);
    match random.below(4) {
        0 => text.insert(0, b' '),
        1 => text.push(b' '),
        2 => text.insert(at, b' '),
        _ => text[at.min(LENGTH - 1)] = b' ',
    }
    text
}
