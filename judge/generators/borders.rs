//! The fixed list of `write` and `read` requests at every border of the
//! document's tables, and the malformed ones.

use std::io::{self, Write};

use super::broken::BAD_NUMBERS;
use super::requests::{read_line, write_line};
use crate::program::code::{bits_of, parts_of, spell, Fields, Parts, LENGTH, NUMBER_MAX};
use crate::program::grid::{LAT_END, LON_END, STEP};
use crate::program::lines::LINE_MAX;

const MOST: i64 = u32::MAX as i64;

/// The codes of cases 1, 3 and 4.
const CASE_CODES: [&[u8]; 3] =
    [b"0W7ARCTDHYYRA99A0001", b"000000XCYYYNEDDE0000", b"00000000001UY1120000"];

/// Fields in the middle of their ranges: 39°54'37", 116°18'54".
const MIDDLE: Fields = Fields {
    lat: 294_250_496,
    lon: 857_567_232,
    scale: 20,
    east: 12,
    west: 9,
    south: 5,
    north: 17,
    number: 7_321,
};

/// Requests of no good form, each wrong in its own way.
const MALFORMED: [&[u8]; 44] = [
    b"", b" ", b"?", b"0", b"\0", b"\r", b"\t", b"\xff", b"read", b"read\t", b"read\r", b"Read 0",
    b"READ ", b" read ", b"readx 0", b"rea", b"write", b"write ", b"write 20",
    b"Write 20 0 0 27 31 1 1 2 0", b"WRITE 20 0 0 27 31 1 1 2 0", b" write 20 0 0 27 31 1 1 2 0",
    b"write  20 0 0 27 31 1 1 2 0", b"write 20 0 0 27 31 1 1 2 0 ",
    b"write 20 0 0 27 31 1 1 2 0\r", b"write 20 0 0 27 31 1 1 2 0\0",
    b"write 20 0 0 27 31 1 1 2 0 0", b"write 20 0 0 27 31 1 1 2", b"write 20 0 0 27 31 1 1 2 ",
    b"write 20 0 0 27  31 1 1 2 0", b"write\t20 0 0 27 31 1 1 2 0", b"write 65 0 0 27 31 1 1 2 0",
    b"write 66 0 0 27 31 1 1 2 0", b"write 256 0 0 27 31 1 1 2 0", b"plain", b"plain ", b"quick",
    b"quick 20", b"quick 20 ", b"quick 20 F", b"quick 20 f 0", b"quick 65 F 0", b"plain 20 F 0 ",
    b"plain 020 F 0",
];

type Lines = Vec<Vec<u8>>;

/// Prints the list. Its last line has no line feed, which is a border too.
pub fn borders(output: &mut impl Write) -> io::Result<()> {
    let groups = [
        write_cases(),
        write_values(),
        write_orders(),
        read_cases(),
        read_lengths(),
        read_bytes(),
        read_values(),
        read_stops(),
        read_orders(),
        malformed(),
        vec![write_line(20, &MIDDLE)],
    ];
    print_lines(&groups.concat(), output)
}

/// Prints lines with a line feed between each and the next.
pub fn print_lines(lines: &[Vec<u8>], output: &mut impl Write) -> io::Result<()> {
    output.write_all(&lines.join(&b'\n'))?;
    output.flush()
}

/// The fields in which cases 1, 3 and 4 are written, in rooms of each sort.
fn write_cases() -> Lines {
    let one = Fields {
        lat: 294_251_488,
        lon: 857_568_224,
        scale: 25,
        east: 10,
        west: 9,
        south: 9,
        north: 10,
        number: 1,
    };
    let three = Fields {
        lat: 110_560,
        lon: 110_560,
        scale: 22,
        east: 14,
        west: 13,
        south: 13,
        north: 14,
        number: 0,
    };
    let four =
        Fields { lat: 0, lon: 0, scale: 27, east: 31, west: 1, south: 1, north: 2, number: 0 };
    let mut lines = vec![write_line(20, &one), write_line(20, &three)];
    lines.extend([0, 1, 10, 19, 20, 21, 40, 63, 64].map(|room| write_line(room, &four)));
    lines
}

/// Sets one field of the middle ones to each value in turn.
fn varied(values: &[i64], set: fn(&mut Fields, i64)) -> Lines {
    let one = |&value: &i64| {
        let mut fields = MIDDLE;
        set(&mut fields, value);
        write_line(20, &fields)
    };
    values.iter().map(one).collect()
}

/// Spans on both sides of 1, 2 and 31, and those that are good modulo 32 or 256.
const SPANS: [i64; 18] =
    [0, 1, 2, 3, 15, 16, 30, 31, 32, 33, 34, 63, 64, 65, 257, 258, 65_538, MOST];

/// Numbers with each count of letters and on both sides of the greatest.
const NUMBERS: [i64; 15] = [
    0,
    1,
    31,
    32,
    1_023,
    1_024,
    32_767,
    32_768,
    NUMBER_MAX - 1,
    NUMBER_MAX,
    NUMBER_MAX + 1,
    NUMBER_MAX + 2,
    2 * NUMBER_MAX + 1,
    2 * NUMBER_MAX + 2,
    MOST,
];

/// References on both sides of multiples of 32 and of the end.
fn references(end: i64) -> Vec<i64> {
    let near = [0, 1, 16, 31, 32, 33, 63, 64, end - 33, end - STEP, end - 31, end - 1];
    let past = [end, end + 1, end + STEP, 2 * end, MOST - 63, MOST - 31, MOST - 1, MOST];
    [near.as_slice(), past.as_slice()].concat()
}

fn write_values() -> Lines {
    let scales: Vec<i64> = (0..=33).chain([46, 59, 64, 78, 270, 65_550, MOST]).collect();
    // 700,000,000 is too much for a latitude and good for a longitude.
    let lats = [references(LAT_END), vec![700_000_000, LON_END - STEP]].concat();
    let lons = [references(LON_END), vec![700_000_000, LAT_END, LAT_END + STEP]].concat();
    [
        varied(&lats, |f, value| f.lat = value),
        varied(&lons, |f, value| f.lon = value),
        varied(&scales, |f, value| f.scale = value),
        varied(&SPANS, |f, value| f.east = value),
        varied(&SPANS, |f, value| f.west = value),
        varied(&SPANS, |f, value| f.south = value),
        varied(&SPANS, |f, value| f.north = value),
        varied(&NUMBERS, |f, value| f.number = value),
    ]
    .concat()
}

/// Two checks of 21 to 25 fail at once, then all of them.
fn write_orders() -> Lines {
    let mut lines = Vec::new();
    for first in 21..=25 {
        for second in first + 1..=25 {
            lines.push(write_failing(&[first, second]));
        }
    }
    lines.push(write_failing(&[21, 22, 23, 24, 25]));
    lines
}

fn write_failing(numbers: &[u8]) -> Vec<u8> {
    let (mut room, mut fields) = (20, MIDDLE);
    for number in numbers {
        match number {
            21 => room = 19,
            22 => fields.lat = LAT_END,
            23 => fields.scale = 28,
            24 => fields.west = 32,
            _ => fields.number = NUMBER_MAX + 1,
        }
    }
    write_line(room, &fields)
}

/// The cases 2, 8, 9 and 10, and the codes of 1, 3 and 4.
fn read_cases() -> Lines {
    let others: [&[u8]; 5] = [
        b"GGGGGGGGGGHUY1120000", b"GGGGGGGGGGGUY1120000", b"00000000001UY112000O",
        b"00000000001UY112000P", b"00000000001UY112000o",
    ];
    CASE_CODES.iter().chain(&others).map(|code| read_line(code)).collect()
}

fn read_lengths() -> Lines {
    let mut lines: Lines = Vec::new();
    for length in [0, 1, 2, 10, 18, 19, 20, 21, 22, 40, 64, 255, 256, 276, 1_000] {
        let text: Vec<u8> = CASE_CODES[0].iter().copied().cycle().take(length).collect();
        lines.push(read_line(&text));
    }
    let good = CASE_CODES[0];
    lines.push(read_line(&[b" ", good].concat()));
    lines.push(read_line(&[good, b" "].concat()));
    lines.push(read_line(&[good, b"\r"].concat()));
    lines.push(read_line(&[good, b"\0"].concat()));
    lines.push(read_line(&[b' '; LENGTH]));
    lines.push(read_line(&[0; LENGTH]));
    lines
}

/// Every byte in the last place, no letter in each place, and two of them.
fn read_bytes() -> Lines {
    let with = |place: usize, byte: u8| {
        let mut code = CASE_CODES[2].to_vec();
        code[place] = byte;
        code
    };
    let every = (0..=255u8).filter(|&byte| byte != b'\n').map(|byte| with(LENGTH - 1, byte));
    let places = (0..LENGTH).map(|place| with(place, b"IOSZ"[place % 4]));
    let pairs = (1..LENGTH).map(|place| {
        let mut code = with(place, b'Z');
        code[place - 1] = b'a';
        code
    });
    every.chain(places).chain(pairs).map(|code| read_line(&code)).collect()
}

/// Reads the middle fields with their parts changed.
fn read_with(change: impl FnOnce(&mut Parts)) -> Vec<u8> {
    let mut parts = parts_of(&MIDDLE);
    change(&mut parts);
    read_line(&spell(&parts))
}

/// Each part on both sides of its borders.
fn read_values() -> Lines {
    let mut lines = Vec::new();
    lines.push(read_with(|parts| parts.closing = 0));
    for hemispheres in 1..4 {
        lines.push(read_with(|parts| {
            parts.lat_bits |= (hemispheres & 1) << 26;
            parts.lon_bits |= (hemispheres >> 1) << 26;
        }));
    }
    for degrees in [0, 1, 89, 90, 91, 127, 128, 179, 180, 181, 255] {
        lines.push(read_with(|parts| parts.lat_bits = bits_of(degrees, 1, 2, 3)));
        lines.push(read_with(|parts| parts.lon_bits = bits_of(degrees, 1, 2, 3)));
    }
    for value in [0, 1, 31, 32, 58, 59, 60, 61, 62, 63] {
        for bits in [bits_of(7, value, 8, 63), bits_of(7, 8, value, 63), bits_of(7, 8, 9, value)] {
            lines.push(read_with(|parts| parts.lat_bits = bits));
            lines.push(read_with(|parts| parts.lon_bits = bits));
        }
    }
    lines.extend((0..32).map(|scale| read_with(|parts| parts.scale = scale)));
    for span in 0..4 {
        for value in [0, 1, 2, 3, 16, 30, 31] {
            lines.push(read_with(|parts| parts.spans[span] = value));
        }
    }
    lines
}

/// Rectangles that stop at 0, 90° and 180°, and those that just do not.
fn read_stops() -> Lines {
    let (lat, lon) = (LAT_END, LON_END);
    let references = [(0, 0), (lat - STEP, lon - STEP), (960, 960), (lat - 960, lon - 960)];
    let mut lines = Vec::new();
    for scale in [14, 20, 26, 27] {
        for (lat, lon) in references {
            for span in [2, 30, 31] {
                let (east, west, south, north) = (span, span, span, span);
                let fields = Fields { lat, lon, scale, east, west, south, north, number: 1 };
                lines.push(read_line(&spell(&parts_of(&fields))));
            }
        }
    }
    lines
}

/// Two checks of 11 to 18 fail at once, then many of them.
fn read_orders() -> Lines {
    let mut lines = Vec::new();
    for first in 11..=18 {
        for second in first + 1..=18 {
            lines.push(read_failing(&[first, second]));
        }
    }
    for first in 11..=17 {
        let all: Vec<u8> = (first..=18).collect();
        lines.push(read_failing(&all));
    }
    lines
}

fn read_failing(numbers: &[u8]) -> Vec<u8> {
    let mut parts = parts_of(&MIDDLE);
    for number in numbers {
        match number {
            13 => parts.closing = 0,
            14 => parts.lon_bits |= 1 << 26,
            15 => parts.lat_bits = parts.lat_bits & !(255 << 18) | 90 << 18,
            16 => parts.lon_bits |= 60 << 6,
            17 => parts.scale = 13,
            18 => parts.spans[3] = 1,
            _ => {}
        }
    }
    let mut text = spell(&parts).to_vec();
    if numbers.contains(&12) {
        text[18] = b'I';
    }
    if numbers.contains(&11) {
        text.push(b'0');
    }
    read_line(&text)
}

fn malformed() -> Lines {
    let mut lines: Lines = MALFORMED.iter().map(|line| line.to_vec()).collect();
    for bad in BAD_NUMBERS {
        lines.push([b"write ", bad, b" 0 0 27 31 1 1 2 0"].concat());
        lines.push([b"write 20 0 ", bad, b" 27 31 1 1 2 0"].concat());
        lines.push([b"write 20 0 0 27 31 1 1 2 ", bad].concat());
    }
    for length in [LINE_MAX, LINE_MAX + 1] {
        let mut line = read_line(b"");
        line.resize(length, b'G');
        lines.push(line);
    }
    lines
}
