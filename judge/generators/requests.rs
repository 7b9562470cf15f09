//! The generator of requests for the trials.

use std::io::{self, Write};

use super::accounts::{message_request, total_request};
use super::asked::{inside_request, meets_request, odd_request};
use super::broken::{broken, noise, BAD_NUMBERS};
use super::crossing::{self, crossed_unit, missed_unit};
use super::far::far;
use super::journals::{look_request, record_request, replay_request};
use super::random::Random;
use super::shapes;
use super::tails::tail_unit;
use super::units;
use crate::program::code::{bits_of, parts_of, spell, Fields, Parts, LENGTH, LETTERS, NUMBER_MAX};
use crate::program::grid::{Point, DEGREE, LAT_END, LON_END, MINUTE, STEP};
use crate::program::lines::LINE_MAX;
use crate::program::trials::{request_of, Request};

type Maker = fn(&mut Random) -> Vec<u8>;

/// Draws a kind of unit and its number.
type Numbered = fn(&mut Random) -> (char, i64);

/// How often a kind of request is made, against the others, and how.
type Share = (u64, Maker);

/// The kinds of requests with their shares.
const KINDS: [(&str, u64, Maker); 17] = [
    ("write", 25, write_request),
    ("read", 30, read_request),
    ("plain", 15, plain_request),
    ("quick", 15, quick_request),
    ("plain-units", 5, plain_unit),
    ("quick-units", 5, quick_unit),
    ("crossed-units", 5, crossing_unit),
    ("meets", 10, meets_request),
    ("odd", 10, odd_request),
    ("inside", 15, inside_request),
    ("bad", 15, bad_request),
    ("tail-units", 5, tailed_unit),
    ("message", 5, message_request),
    ("total", 1, total_request),
    ("record", 3, record_request),
    ("look", 4, look_request),
    ("replay", 3, replay_request),
];

/// Small bad requests, each wrong in its own way.
const MALFORMED: [&[u8]; 49] = [
    b"read",
    b"READ 00000000001UY1120000",
    b"Read 00000000001UY1120000",
    b"read\t00000000001UY1120000",
    b" read 00000000001UY1120000",
    b"reads 0",
    b"rea d",
    b"write",
    b"write ",
    b"WRITE 20 0 0 27 31 1 1 2 0",
    b"Write 20 0 0 27 31 1 1 2 0",
    b"write 65 0 0 27 31 1 1 2 0",
    b"write 064 0 0 27 31 1 1 2 0",
    b"write 4294967295 0 0 27 31 1 1 2 0",
    b"write 20 0 0 27 31 1 1 2 0\r",
    b"plain",
    b"quick",
    b"plain ",
    b"quick 20",
    b"quick 20 ",
    b"quick 20 B",
    b"quick 20 B ",
    b"quick 20 b 1",
    b"quick 20 BF 1",
    b"quick 20 F 0 ",
    b"plain 65 F 0",
    b"quick 100 F 0",
    b"plain 20 X 0 0 0 0 960 32 960 32 0",
    b"quick 20 20 F 0",
    b"plain F 0 0 0 0 960 32 960 32 0",
    b"meets",
    b"meets 0 0 10 10 2 4 2",
    b"meets 0 0 10 10 2 4 2 4 ",
    b"meets 0 0 10 10 2 4 2 4 0",
    b"Meets 0 0 10 10 2 4 2 4",
    b"odd",
    b"odd 5",
    b"odd 5 5 ",
    b"ODD 5 5 0 0 0 10 10 10 10 0",
    b"inside",
    b"inside 27 0",
    b"inside 27 0 0  0 0 0 32 32 32 32 0",
    b"listing",
    b"?",
    b"\0",
    b"\r",
    b"0",
    b"\xff\xfe",
    b"quick\xa020\xa0F\xa00",
];

/// The kinds of a comma list, or none when one is not known.
pub fn kinds_of(list: &str) -> Option<Vec<Share>> {
    let known = |name: &str| KINDS.iter().find(|kind| kind.0 == name);
    list.split(',').map(|name| known(name).map(|kind| (kind.1, kind.2))).collect()
}

/// The kinds of a mix: all but those of an account and of a journal, the last five, so that
/// what a seed gives stays the same.
pub fn mixed_kinds() -> Vec<Share> {
    KINDS[..KINDS.len() - 5].iter().map(|kind| (kind.1, kind.2)).collect()
}

/// Prints `count` requests of the kinds.
pub fn requests(seed: u64, count: u64, kinds: &[Share], output: &mut impl Write) -> io::Result<()> {
    let mut random = Random::new(seed);
    let shares: u64 = kinds.iter().map(|kind| kind.0).sum();
    for _ in 0..count {
        let mut share = random.below(shares);
        for &(part, maker) in kinds {
            if share < part {
                output.write_all(&maker(&mut random))?;
                output.write_all(b"\n")?;
                break;
            }
            share -= part;
        }
    }
    output.flush()
}

fn room(random: &mut Random) -> i64 {
    match random.below(10) {
        0..=1 => random.pick(&[0, 1, 19]),
        2..=3 => random.pick(&[20, 21, 64]),
        4 => random.between(0, 64),
        _ => 20,
    }
}

/// A reference in one direction that writing accepts.
fn good_reference(random: &mut Random, end: i64) -> i64 {
    let border = random.between(1, end / DEGREE) * DEGREE;
    let minute = random.between(1, end / MINUTE) * MINUTE;
    match random.below(6) {
        0 => random.pick(&[0, STEP, end - 2 * STEP, end - STEP]),
        1 => border - STEP,
        2 => minute - STEP,
        _ => random.between(0, end / STEP - 1) * STEP,
    }
}

/// A reference in one direction that writing refuses.
fn bad_reference(random: &mut Random, end: i64) -> i64 {
    let most = i64::from(u32::MAX);
    let crooked = random.between(0, end / STEP - 1) * STEP + random.between(1, STEP - 1);
    let beyond = random.between(end / STEP, most / STEP) * STEP;
    match random.below(4) {
        0 => random.pick(&[1, 16, 31, 33, end - 33, end - 31, end - 16, end - 1]),
        1 => random.pick(&[end, end + 1, end + STEP, most, most - 1, most - 31, most - 63]),
        2 => crooked,
        _ => beyond,
    }
}

fn good_span(random: &mut Random, least: i64) -> i64 {
    let any = random.between(least, 31);
    random.pick(&[least, 30, 31, any, any, any])
}

pub fn good_fields(random: &mut Random) -> Fields {
    let number = random.between(0, NUMBER_MAX);
    Fields {
        lat: good_reference(random, LAT_END),
        lon: good_reference(random, LON_END),
        scale: random.between(14, 27),
        east: good_span(random, 2),
        west: good_span(random, 1),
        south: good_span(random, 1),
        north: good_span(random, 2),
        number: random.pick(&[0, 1, 31, 32, NUMBER_MAX - 1, NUMBER_MAX, number, number, number]),
    }
}

/// Gives one field a value that writing refuses.
fn spoil_field(random: &mut Random, fields: &mut Fields) {
    let large = random.between(32, u32::MAX.into());
    let bad_scale = random.pick(&[0, 1, 12, 13, 28, 31, 32, 46, 59, 270, 4_294_967_295, large]);
    let bad_span = random.pick(&[0, 0, 32, 33, 34, 63, 64, 257, 4_294_967_295, large]);
    let past = NUMBER_MAX + 1;
    let bad_number = random.pick(&[past, past + 1, 2 * past - 1, 2 * past, 4_294_967_295]);
    match random.below(9) {
        0 => fields.lat = bad_reference(random, LAT_END),
        1 => fields.lon = bad_reference(random, LON_END),
        2 => fields.scale = bad_scale,
        3 => fields.east = random.pick(&[1, bad_span]),
        4 => fields.west = bad_span,
        5 => fields.south = bad_span,
        6 => fields.north = random.pick(&[1, bad_span]),
        _ => fields.number = bad_number,
    }
}

/// A `write` request's line.
pub fn write_line(room: i64, f: &Fields) -> Vec<u8> {
    let line = format!(
        "write {room} {} {} {} {} {} {} {} {}",
        f.lat, f.lon, f.scale, f.east, f.west, f.south, f.north, f.number
    );
    line.into_bytes()
}

fn write_request(random: &mut Random) -> Vec<u8> {
    let mut fields = good_fields(random);
    let faults = random.pick(&[0, 0, 0, 1, 1, 1, 1, 2, 3, 6]);
    for _ in 0..faults {
        spoil_field(random, &mut fields);
    }
    write_line(room(random), &fields)
}

/// A `read` request's line.
pub fn read_line(text: &[u8]) -> Vec<u8> {
    [b"read ", text].concat()
}

fn read_request(random: &mut Random) -> Vec<u8> {
    let mut parts = parts_of(&good_fields(random));
    let text = match random.below(10) {
        0..=1 => spell(&parts).to_vec(),
        2 => changed(random, &spell(&parts)),
        3 => with_no_letter(random, &spell(&parts)),
        4 => wrong_length(random, &spell(&parts)),
        5 => (0..LENGTH).map(|_| random.pick(LETTERS)).collect(),
        6..=8 => {
            spoil_part(random, &mut parts);
            spell(&parts).to_vec()
        }
        _ => {
            for _ in 0..random.between(2, 6) {
                spoil_part(random, &mut parts);
            }
            spell(&parts).to_vec()
        }
    };
    read_line(&text)
}

/// One letter changed to another.
fn changed(random: &mut Random, code: &[u8]) -> Vec<u8> {
    let mut text = code.to_vec();
    text[random.index(code.len())] = random.pick(LETTERS);
    text
}

/// A byte that is no letter, or two.
pub fn with_no_letter(random: &mut Random, code: &[u8]) -> Vec<u8> {
    let mut text = code.to_vec();
    for _ in 0..random.between(1, 2) {
        let byte = match random.below(5) {
            0 => random.pick(b"IOSZ"),
            1 => random.between(b'a'.into(), b'z'.into()) as u8,
            2 => random.pick(b" \0\t\r@`[{/:\x7f\x80\xff"),
            3 => random.between(128, 255) as u8,
            _ => noise(random, 1)[0],
        };
        text[random.index(code.len())] = byte;
    }
    text
}

/// A text of any length but 20, of letters or of any bytes.
pub fn wrong_length(random: &mut Random, code: &[u8]) -> Vec<u8> {
    let hundreds = random.between(100, 900) as usize;
    let length = random.pick(&[0, 1, 10, 18, 19, 21, 22, 40, 255, 256, 276, hundreds]);
    if random.one_in(3) {
        return noise(random, length);
    }
    code.iter().copied().cycle().take(length).collect()
}

/// Puts other degrees, minutes or seconds into an angle's bits.
fn with_angle(bits: u64, degrees: Option<u64>, minutes: Option<u64>, seconds: Option<u64>) -> u64 {
    bits_of(
        degrees.unwrap_or(bits >> 18),
        minutes.unwrap_or(bits >> 12 & 63),
        seconds.unwrap_or(bits >> 6 & 63),
        bits & 63,
    )
}

/// Makes one of the parts bad that reading checks.
pub fn spoil_part(random: &mut Random, parts: &mut Parts) {
    let north_south = random.one_in(2);
    let least = if north_south { 90 } else { 180 };
    let any = random.between(least, 255) as u64;
    let degrees = Some(random.pick(&[least as u64, 255, any]));
    let sixty = Some(60 + random.below(4));
    let bits = if north_south { &mut parts.lat_bits } else { &mut parts.lon_bits };
    match random.below(7) {
        0 => parts.closing = 0,
        1 => *bits |= 1 << 26,
        2 => *bits = with_angle(*bits, degrees, None, None),
        3 => *bits = with_angle(*bits, None, sixty, None),
        4 => *bits = with_angle(*bits, None, None, sixty),
        5 => parts.scale = random.pick(&[0, 1, 12, 13, 28, 29, 30, 31]),
        _ => {
            let span = random.index(4);
            // E and N, the first and the last, begin at 2.
            parts.spans[span] = if span % 3 == 0 { random.below(2) } else { 0 };
        }
    }
}

fn plain_request(random: &mut Random) -> Vec<u8> {
    code_request(random, "plain")
}

fn quick_request(random: &mut Random) -> Vec<u8> {
    code_request(random, "quick")
}

fn code_request(random: &mut Random, road: &str) -> Vec<u8> {
    let start = format!("{road} {} ", room(random)).into_bytes();
    let line = [start, units::well_formed(random)].concat();
    // Rarely as long as a line may be, or a byte longer.
    if random.one_in(2_000) {
        return units::filled(line, LINE_MAX + random.index(2));
    }
    line
}

/// A small unit that passes checks 1 to 6 and 31, so that the plain road has to
/// search.
fn plain_unit(random: &mut Random) -> Vec<u8> {
    let (corners, _) = shapes::simple(random);
    unit_request(random, "plain", &corners, units::good_number)
}

/// The same for the quick road; every third unit is one on which it has to go
/// far down.
fn quick_unit(random: &mut Random) -> Vec<u8> {
    let corners = if random.one_in(3) { far(random) } else { shapes::simple(random).0 };
    unit_request(random, "quick", &corners, units::good_number)
}

/// A unit for refusal 31: half are crossed, the others just not. Half are asked of
/// each road, of the plain one only such as it would end on quickly. One in eight
/// would be refused 6.
fn crossing_unit(random: &mut Random) -> Vec<u8> {
    let maker = random.pick(&[crossed_unit as crossing::Maker, missed_unit]);
    let number = if random.one_in(8) { units::bad_number as Numbered } else { units::good_number };
    if random.one_in(2) {
        let corners = crossing::small(random, maker);
        return unit_request(random, "plain", &corners, number);
    }
    let corners = maker(random);
    unit_request(random, "quick", &corners, number)
}

/// A unit with a long tail that passes checks 1 to 6 and 31; about half take the
/// step to a coarser level, the others just miss it. Half are asked of each road, of
/// the plain one only such as it ends on quickly.
fn tailed_unit(random: &mut Random) -> Vec<u8> {
    if random.one_in(2) {
        let corners = crossing::small(random, tail_unit);
        return unit_request(random, "plain", &corners, units::good_number);
    }
    let corners = tail_unit(random);
    unit_request(random, "quick", &corners, units::good_number)
}

fn unit_request(random: &mut Random, road: &str, corners: &[Point], number: Numbered) -> Vec<u8> {
    let any = random.between(20, 64);
    let room = random.pick(&[20, 20, 20, 20, 21, 64, any]);
    let (kind, number) = number(random);
    let start = format!("{road} {room} ").into_bytes();
    [start, units::line_of(kind, number, &units::coordinates_of(corners))].concat()
}

/// A malformed request, now and then one that is only nearly so.
fn bad_request(random: &mut Random) -> Vec<u8> {
    // Rarely, so that files stay small.
    if random.one_in(400) {
        return long(random);
    }
    let length = random.pick(&[0, 1, 2, 5, 40]);
    match random.below(100) {
        0..=8 => noise(random, length),
        9..=20 => fixed(random),
        21..=60 => {
            let line = write_request(random);
            broken(random, &line)
        }
        61..=70 => other_count(random),
        _ => {
            let maker: Maker = random.pick(&[
                plain_request as Maker, quick_request, meets_request, odd_request, inside_request,
            ]);
            let line = maker(random);
            surely_bad(broken(random, &line))
        }
    }
}

/// Makes sure that a broken request to code or to answer a question is no
/// request: changed by chance, a unit could be one that takes the plain road
/// very long, and a question with fewer coordinates is a good one.
fn surely_bad(mut line: Vec<u8>) -> Vec<u8> {
    if let Some(Request::Code { .. } | Request::Ask(_)) = request_of(&line) {
        line.push(b' ');
    }
    line
}

/// One of the small bad requests.
fn fixed(random: &mut Random) -> Vec<u8> {
    let bad = random.pick(&BAD_NUMBERS);
    if random.one_in(4) {
        return [b"write ", bad, b" 0 0 27 31 1 1 2 0"].concat();
    }
    random.pick(&MALFORMED).to_vec()
}

/// A `write` request with a word too few or too many.
fn other_count(random: &mut Random) -> Vec<u8> {
    let mut line = write_request(random);
    if random.one_in(2) {
        line.extend_from_slice(b" 0");
        return line;
    }
    let last = line.iter().rposition(|&byte| byte == b' ').unwrap_or(0);
    line.truncate(last);
    line
}

/// A line about as long as a line may be; those that may stand are `read`
/// requests.
fn long(random: &mut Random) -> Vec<u8> {
    let length = random.pick(&[LINE_MAX - 1, LINE_MAX, LINE_MAX + 1, LINE_MAX + 1, 2 * LINE_MAX]);
    let mut line = read_line(b"");
    line.resize(length, random.pick(b"0GY .\x80"));
    line
}
