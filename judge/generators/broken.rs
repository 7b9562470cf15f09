//! Ways to break a line of words and numbers, for listing lines and requests.

use super::random::Random;

/// Words that are no numbers.
pub const BAD_NUMBERS: [&[u8]; 22] = [
    b"",
    b"00",
    b"01",
    b"007",
    b"+1",
    b"-1",
    b"-0",
    b"1.0",
    b"1,000",
    b"0x10",
    b"1e3",
    b"12a",
    b"a",
    b"4294967296",
    b"4294967300",
    b"5000000000",
    b"9999999999",
    b"10000000000",
    b"00000000001",
    b"18446744073709551616",
    b"1\t",
    "１".as_bytes(),
];

/// A byte that stands in no good line of words: no digit, no capital, no
/// small letter of a request's word, no space and no line feed.
fn strange(random: &mut Random) -> u8 {
    match random.below(4) {
        0 => random.pick(b"\0\t\r\x0b\x7f"),
        1 => random.pick(b"-+.,;:?_'\"/*"),
        2 => random.pick(b"jxyzJXYZ"),
        _ => random.between(128, 255) as u8,
    }
}

/// The line broken in one way; nearly always no good line any more.
pub fn broken(random: &mut Random, line: &[u8]) -> Vec<u8> {
    let mut line = line.to_vec();
    let at = random.index(line.len() + 1);
    match random.below(9) {
        0 => line.insert(0, b' '),
        1 => line.push(b' '),
        2 => line.push(b'\r'),
        3 => line.insert(at, strange(random)),
        4 => {
            line.splice(at..(at + 1).min(line.len()), [strange(random)]);
        }
        5 => respace(random, &mut line),
        6 => line.truncate(at),
        _ => return bad_number(random, &line),
    }
    line
}

/// Makes one space two, or a tab, or nothing.
fn respace(random: &mut Random, line: &mut Vec<u8>) {
    let spaces: Vec<usize> = (0..line.len()).filter(|&i| line[i] == b' ').collect();
    if spaces.is_empty() {
        line.push(b' ');
        return;
    }
    let at = random.pick(&spaces);
    let new: &[u8] = random.pick(&[b"  ", b"\t", b"", b"\0"]);
    line.splice(at..at + 1, new.iter().copied());
}

/// Puts a bad number for one of the words after the first.
fn bad_number(random: &mut Random, line: &[u8]) -> Vec<u8> {
    let mut words: Vec<&[u8]> = line.split(|&byte| byte == b' ').collect();
    let at = (1 + random.index(words.len())).min(words.len() - 1);
    words[at] = random.pick(&BAD_NUMBERS);
    words.join(&b' ')
}

/// Bytes of any value but a line feed.
pub fn noise(random: &mut Random, length: usize) -> Vec<u8> {
    (0..length).map(|_| random.byte()).map(|b| if b == b'\n' { b' ' } else { b }).collect()
}
