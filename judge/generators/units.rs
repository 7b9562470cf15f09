//! Random listing lines: good units, units refused by each number the listing
//! can give, malformed lines and, rarely, lines that are too long.

use std::io::{self, Write};

use super::broken::{broken, noise};
use super::crossing::small_crossed;
use super::random::Random;
use super::shapes;
use crate::program::code::NUMBER_MAX;
use crate::program::grid::{Point, DEGREE, LAT_END, LON_END};
use crate::program::lines::LINE_MAX;

/// Short lines of another form than the listing's.
const SHORT: [&[u8]; 9] = [b"B", b"F", b"B ", b"F ", b" ", b"b 1", b"X 0", b"BF 0", b"0 0"];

/// Prints `count` listing lines; the last has no line feed if the seed is odd.
pub fn units(seed: u64, count: u64, output: &mut impl Write) -> io::Result<()> {
    let mut random = Random::new(seed);
    for place in 0..count {
        let line = match random.below(500) {
            0 => long(&mut random),
            1..=75 => malformed(&mut random),
            76..=85 => large(&mut random),
            _ => well_formed(&mut random),
        };
        output.write_all(&line)?;
        if seed % 2 == 0 || place + 1 < count {
            output.write_all(b"\n")?;
        }
    }
    output.flush()
}

/// The coordinates of corners, latitude and longitude alternating.
pub fn coordinates_of(corners: &[Point]) -> Vec<i64> {
    corners.iter().flat_map(|corner| [corner.lat, corner.lon]).collect()
}

/// A listing line from its kind, number and coordinates.
pub fn line_of(kind: char, number: i64, coordinates: &[i64]) -> Vec<u8> {
    let mut line = format!("{kind} {number}");
    for coordinate in coordinates {
        line.push_str(&format!(" {coordinate}"));
    }
    line.into_bytes()
}

/// A kind with a number that passes check 6.
pub fn good_number(random: &mut Random) -> (char, i64) {
    if random.one_in(3) {
        return ('F', 0);
    }
    let any = random.between(1, NUMBER_MAX);
    ('B', random.pick(&[1, 2, 31, 32, 1_024, 32_768, NUMBER_MAX - 1, NUMBER_MAX, any, any]))
}

pub fn bad_number(random: &mut Random) -> (char, i64) {
    let any = random.between(1, u32::MAX.into());
    if random.one_in(2) {
        ('F', random.pick(&[1, 2, 32, NUMBER_MAX, NUMBER_MAX + 1, u32::MAX.into(), any]))
    } else {
        ('B', random.pick(&[0, NUMBER_MAX + 1, NUMBER_MAX + 2, u32::MAX.into()]))
    }
}

/// A line of the listing's form: a small unit, good or with one or more faults.
pub fn well_formed(random: &mut Random) -> Vec<u8> {
    let (corners, _) = shapes::simple(random);
    let mut coordinates = coordinates_of(&corners);
    let (mut kind, mut number) = good_number(random);
    let faults = random.pick(&[0, 0, 0, 0, 0, 1, 1, 1, 2, 3]);
    for _ in 0..faults {
        match random.below(7) {
            0 => make_odd(random, &mut coordinates),
            1 => recount(random, &mut coordinates),
            2 => put_above(random, &mut coordinates),
            3 => coordinates = too_wide(random),
            4 => coordinates = coordinates_of(&small_crossed(random)),
            _ => (kind, number) = bad_number(random),
        }
    }
    line_of(kind, number, &coordinates)
}

/// An odd count of numbers.
fn make_odd(random: &mut Random, coordinates: &mut Vec<i64>) {
    if coordinates.len() % 2 == 1 {
        return;
    }
    if random.one_in(2) {
        coordinates.pop();
    } else {
        coordinates.push(random.between(0, 1_000));
    }
}

/// Fewer than 3 corners, or by repeating, rarely, about 1,024.
fn recount(random: &mut Random, coordinates: &mut Vec<i64>) {
    if !random.one_in(8) || coordinates.len() < 2 {
        coordinates.truncate(random.pick(&[0, 2, 4, 4]));
        return;
    }
    let corners = random.pick(&[1_023, 1_024, 1_024, 1_025, 1_026]);
    let last = [coordinates[coordinates.len() - 2], coordinates[coordinates.len() - 1]];
    while coordinates.len() < 2 * corners {
        coordinates.extend(last);
    }
}

/// A coordinate above its range.
fn put_above(random: &mut Random, coordinates: &mut [i64]) {
    if coordinates.is_empty() {
        return;
    }
    let at = random.index(coordinates.len());
    let end = if at % 2 == 0 { LAT_END } else { LON_END };
    let any = random.between(end + 1, u32::MAX.into());
    coordinates[at] = random.pick(&[end + 1, end + 32, u32::MAX.into(), any]);
}

/// A rectangle with one extent just above a degree, or far above it, sometimes
/// with two corners in each other's place, so that it is crossed too.
fn too_wide(random: &mut Random) -> Vec<i64> {
    let far = DEGREE + random.pick(&[1, 1, 2, 33, DEGREE]);
    let near = random.between(1, DEGREE);
    let (height, width) = if random.one_in(2) { (far, near) } else { (near, far) };
    let south = random.between(0, LAT_END - height);
    let west = random.between(0, LON_END - width);
    let (north, east) = (south + height, west + width);
    if random.one_in(4) {
        return vec![south, west, north, east, south, east, north, west];
    }
    vec![south, west, south, east, north, east, north, west]
}

/// A unit of any size; the plain search may take very long with it.
fn large(random: &mut Random) -> Vec<u8> {
    let (kind, number) = good_number(random);
    let corners = shapes::any(random);
    line_of(kind, number, &coordinates_of(&corners))
}

/// A line that is nearly always refused 9.
fn malformed(random: &mut Random) -> Vec<u8> {
    let length = random.pick(&[0, 1, 2, 5, 40]);
    match random.below(8) {
        0 => noise(random, length),
        1 => random.pick(&SHORT).to_vec(),
        _ => {
            let line = well_formed(random);
            broken(random, &line)
        }
    }
}

/// A line about as long as a line may be, or far longer, good or broken.
fn long(random: &mut Random) -> Vec<u8> {
    let lengths = [LINE_MAX - 1, LINE_MAX, LINE_MAX + 1, LINE_MAX + 1, 2 * LINE_MAX, 100_000];
    let length = random.pick(&lengths);
    let line = filled(well_formed(random), length);
    if random.one_in(3) {
        return broken(random, &line);
    }
    line
}

/// A line of this form with more coordinates, so that it has so many bytes.
pub fn filled(mut line: Vec<u8>, length: usize) -> Vec<u8> {
    while line.len() + 2 <= length {
        line.extend_from_slice(b" 1");
    }
    line.resize(length, b'1');
    line
}
