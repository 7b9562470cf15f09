//! The twenty characters: letters, location, scale, spans and number; writing
//! a code from its fields and reading one back, with their refusals.

use super::grid::{size, DEGREE, LAT_END, LON_END, MINUTE, SECOND, STEP};

/// The letters by value. The note in 000 strikes out I, O, S and Z, so 23 is P.
pub const LETTERS: &[u8; 32] = b"0123456789ABCDEFGHJKLMNPQRTUVWXY";

/// Bytes in a code.
pub const LENGTH: usize = 20;

/// A building's greatest number, and the greatest of four letters.
pub const NUMBER_MAX: i64 = 1_048_575;

#[derive(Clone, Copy, Debug, PartialEq, Eq)]
pub struct Refusal {
    pub number: u8,
    pub place: usize,
}

/// A refusal without a named place.
pub fn refused(number: u8) -> Refusal {
    Refusal { number, place: 0 }
}

/// What a code says. Every value of a u32 is allowed here; writing refuses
/// those that do not fit.
#[derive(Clone, Copy, Debug, Default, PartialEq, Eq)]
pub struct Fields {
    /// The reference in u.
    pub lat: i64,
    pub lon: i64,
    pub scale: i64,
    pub east: i64,
    pub west: i64,
    pub south: i64,
    pub north: i64,
    pub number: i64,
}

/// The sides read back from a code, in u.
#[derive(Clone, Copy, Debug, Default, PartialEq, Eq)]
pub struct Rectangle {
    pub west: i64,
    pub east: i64,
    pub south: i64,
    pub north: i64,
}

/// A code before its letters: 27 bits a direction, the closing bit, the
/// letters' values for scale, E, W, S, N, and the number.
#[derive(Clone, Copy, Debug, PartialEq, Eq)]
pub struct Parts {
    pub lat_bits: u64,
    pub lon_bits: u64,
    pub closing: u64,
    pub scale: u64,
    pub spans: [u64; 4],
    pub number: u64,
}

/// The 27 bits of an angle: 9 of degrees, 6 of minutes, 6 of seconds, 6 of
/// 64ths of a second.
pub fn bits_of(degrees: u64, minutes: u64, seconds: u64, parts: u64) -> u64 {
    (degrees << 18) | (minutes << 12) | (seconds << 6) | parts
}

/// Degrees with the hemisphere bit, minutes, seconds, 64ths.
fn split_bits(bits: u64) -> (u64, u64, u64, u64) {
    (bits >> 18, (bits >> 12) & 63, (bits >> 6) & 63, bits & 63)
}

fn angle_bits(angle: i64) -> u64 {
    let degrees = angle / DEGREE;
    let minutes = angle % DEGREE / MINUTE;
    let seconds = angle % MINUTE / SECOND;
    let parts = angle % SECOND / STEP;
    bits_of(degrees as u64, minutes as u64, seconds as u64, parts as u64)
}

fn angle_of(bits: u64) -> i64 {
    let (degrees, minutes, seconds, parts) = split_bits(bits);
    degrees as i64 * DEGREE
        + minutes as i64 * MINUTE
        + seconds as i64 * SECOND
        + parts as i64 * STEP
}

/// Bits paired, latitude first.
fn pair(lat_bits: u64, lon_bits: u64) -> u64 {
    (0..27)
        .rev()
        .fold(0, |paired, i| (paired << 2) | (lat_bits >> i & 1) << 1 | (lon_bits >> i & 1))
}

/// The latitude's and the longitude's bits out of 54 paired ones.
fn unpair(paired: u64) -> (u64, u64) {
    (0..27).rev().fold((0, 0), |(lat, lon), i| {
        (lat << 1 | (paired >> (2 * i + 1) & 1), lon << 1 | (paired >> (2 * i) & 1))
    })
}

/// Letters of a number, five bits each, high first.
pub fn put_letters(room: &mut [u8], value: u64) {
    for (i, letter) in room.iter_mut().rev().enumerate() {
        *letter = LETTERS[(value >> (5 * i) & 31) as usize];
    }
}

pub fn letter_value(byte: u8) -> Option<u64> {
    LETTERS.iter().position(|&letter| letter == byte).map(|value| value as u64)
}

/// The letters of parts, good or not; each must fit its bits.
pub fn spell(parts: &Parts) -> [u8; LENGTH] {
    let mut code = [0; LENGTH];
    let location = pair(parts.lat_bits, parts.lon_bits) << 1 | parts.closing;
    put_letters(&mut code[..11], location);
    put_letters(&mut code[11..12], parts.scale);
    for (i, &span) in parts.spans.iter().enumerate() {
        put_letters(&mut code[12 + i..13 + i], span);
    }
    put_letters(&mut code[16..], parts.number);
    code
}

/// The parts of fields that are in their ranges.
pub fn parts_of(fields: &Fields) -> Parts {
    Parts {
        lat_bits: angle_bits(fields.lat),
        lon_bits: angle_bits(fields.lon),
        closing: 1,
        scale: fields.scale as u64,
        spans: [fields.east, fields.west, fields.south, fields.north].map(|span| span as u64),
        number: fields.number as u64,
    }
}

/// Writing from fields: bytes 0 to 19 of the room on acceptance, no others.
pub fn write(fields: &Fields, room: &mut [u8]) -> Result<(), Refusal> {
    if room.len() < LENGTH {
        return Err(refused(21));
    }
    let good_reference = fields.lat % STEP == 0
        && fields.lon % STEP == 0
        && fields.lat < LAT_END
        && fields.lon < LON_END;
    if !good_reference {
        return Err(refused(22));
    }
    if !(14..=27).contains(&fields.scale) {
        return Err(refused(23));
    }
    let good_spans = [fields.east, fields.north].iter().all(|span| (2..=31).contains(span))
        && [fields.west, fields.south].iter().all(|span| (1..=31).contains(span));
    if !good_spans {
        return Err(refused(24));
    }
    if fields.number > NUMBER_MAX {
        return Err(refused(25));
    }
    room[..LENGTH].copy_from_slice(&spell(&parts_of(fields)));
    Ok(())
}

/// The parts of a text of twenty letters.
pub fn take_apart(text: &[u8]) -> Result<Parts, Refusal> {
    if text.len() != LENGTH {
        return Err(refused(11));
    }
    let mut values = [0; LENGTH];
    for (place, &byte) in text.iter().enumerate() {
        values[place] = letter_value(byte).ok_or(Refusal { number: 12, place })?;
    }
    let join = |values: &[u64]| values.iter().fold(0, |joined, value| joined << 5 | value);
    let location = join(&values[..11]);
    let (lat_bits, lon_bits) = unpair(location >> 1);
    Ok(Parts {
        lat_bits,
        lon_bits,
        closing: location & 1,
        scale: values[11],
        spans: [values[12], values[13], values[14], values[15]],
        number: join(&values[16..]),
    })
}

fn check_parts(parts: &Parts) -> Result<(), Refusal> {
    if parts.closing == 0 {
        return Err(refused(13));
    }
    let (lat_degrees, lat_minutes, lat_seconds, _) = split_bits(parts.lat_bits);
    let (lon_degrees, lon_minutes, lon_seconds, _) = split_bits(parts.lon_bits);
    if lat_degrees >= 256 || lon_degrees >= 256 {
        return Err(refused(14));
    }
    if lat_degrees > 89 || lon_degrees > 179 {
        return Err(refused(15));
    }
    if [lat_minutes, lat_seconds, lon_minutes, lon_seconds].iter().any(|&value| value > 59) {
        return Err(refused(16));
    }
    if !(14..=27).contains(&parts.scale) {
        return Err(refused(17));
    }
    let [east, west, south, north] = parts.spans;
    if east < 2 || north < 2 || west < 1 || south < 1 {
        return Err(refused(18));
    }
    Ok(())
}

/// Reading a code.
pub fn read(text: &[u8]) -> Result<(Fields, Rectangle), Refusal> {
    let parts = take_apart(text)?;
    check_parts(&parts)?;
    let [east, west, south, north] = parts.spans.map(|span| span as i64);
    let fields = Fields {
        lat: angle_of(parts.lat_bits),
        lon: angle_of(parts.lon_bits),
        scale: parts.scale as i64,
        east,
        west,
        south,
        north,
        number: parts.number as i64,
    };
    Ok((fields, rectangle(&fields)))
}

/// The rectangle of good fields; it stops at 0, at 90° and at 180°.
fn rectangle(fields: &Fields) -> Rectangle {
    let side = size(fields.scale as u8);
    Rectangle {
        west: (fields.lon - (fields.west - 1) * side).max(0),
        east: (fields.lon + (fields.east - 1) * side).min(LON_END),
        south: (fields.lat - (fields.south - 1) * side).max(0),
        north: (fields.lat + (fields.north - 1) * side).min(LAT_END),
    }
}
