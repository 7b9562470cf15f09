//! The fixed list of units: the document's listing example and coding cases and
//! every refusal at its border, as listing lines; the units of the listing's
//! form also as requests for both roads.

use std::io::{self, Write};

use super::bordercrossings::crossings;
use super::borders::print_lines;
use super::bordertails::tails;
use super::units::{coordinates_of, line_of};
use crate::program::grid::{Cell, Point, DEGREE, LAT_END, LON_END, MINUTE, SECOND};
use crate::program::lines::LINE_MAX;
use crate::tests::cases::LISTING_INPUT;

/// Lines of another form than the listing's, each wrong in its own way.
const MALFORMED: [&[u8]; 71] = [
    b"",
    b" ",
    b"  ",
    b"B",
    b"F",
    b"B ",
    b"F ",
    b"0",
    b"0 0",
    b"b 1",
    b"f 0",
    b"X 0",
    b"BF 0",
    b"BB 1",
    b"B1",
    b"F0",
    b"\0",
    b"\r",
    b"\t",
    b"\x7f",
    b"\x80",
    b"\xff",
    b"F\t0",
    b"F\r",
    b"F 0\r",
    b"F 0\t",
    b"F 0 ",
    b" F 0",
    b"F  0",
    b"F 00",
    b"F 01",
    b"F -0",
    b"F +0",
    b"F 0.0",
    b"F 0x0",
    b"F 1e3",
    b"F a",
    b"F \0",
    b"F 0\0",
    b"F \xb2",
    b"F 4294967296",
    b"F 4294967300",
    b"F 9999999999",
    b"F 10000000000",
    b"F 04294967295",
    b"F 00000000000",
    b"B 18446744073709551617",
    b"B 340282366920938463463374607431768211457",
    b"F 0 0 0 0 960 32 960 32 0 ",
    b"F 0 0 0 0 960 32 960 32 0\r",
    b"F 0 0 0 0 960 32 960 32 0\t",
    b"F 0 0 0 0 960 32 960 32 0\0",
    b"F 0 0 0 0 960 32 960 32 0x",
    b"F 0 0 0 0 960 32 960 32 0\xff",
    b"F 0 0 0 0 960 32 960 32 0\xc2\xa0",
    b"\xef\xbb\xbfF 0 0 0 0 960 32 960 32 0",
    b"F 0 0 0  0 960 32 960 32 0",
    b"F 0 0 0\t0 960 32 960 32 0",
    b"F 0 0 0\x000 960 32 960 32 0",
    b"F 0 0 0,0 960 32 960 32 0",
    b"F 0 0 0 0 960 032 960 32 0",
    b"F 0 0 0 0 960 32 960 32 00",
    b"F 0 0 0 0 960 32 -960 32 0",
    b"F 0 0 0 0 960 32 960.0 32 0",
    b"F 0 0 0 0 960 32 4294967296 32 0",
    b"F 0 0 0 0 960 32 9999999999 32 0",
    b"F 0 0 0 0 960 32 10000000000 32 0",
    b"F 0 0 0 0 960 32 00000000960 32 0",
    b"F 0 0 0 0 960 32 18446744073709552576 32 0",
    b"f 0 0 0 0 960 32 960 32 0",
    b"b 1 0 0 0 960 32 960 32 0",
];

type Lines = Vec<Vec<u8>>;

/// Prints the example and the units as listing lines, then lines that are
/// refused 9 or 10.
pub fn border_units(output: &mut impl Write) -> io::Result<()> {
    let example: Lines = LISTING_INPUT.lines().map(|line| line.into()).collect();
    let last = line_of('B', 1, &square(0, 0, 32));
    print_lines(
        &[example, well_formed(), words(), malformed(), long(), vec![last]].concat(),
        output,
    )
}

/// Prints the same units as requests, each for both roads.
pub fn border_roads(output: &mut impl Write) -> io::Result<()> {
    let both = |room: usize, unit: &[u8]| {
        ["plain", "quick"].map(|road| [format!("{road} {room} ").as_bytes(), unit].concat())
    };
    let mut lines: Lines = well_formed().iter().flat_map(|unit| both(20, unit)).collect();
    for room in [0, 1, 19, 20, 21, 64] {
        // A good unit and one that fails check 2 as well.
        for unit in [line_of('F', 0, &square(0, 0, 32)), line_of('F', 0, &[0])] {
            lines.extend(both(room, &unit));
        }
    }
    print_lines(&lines, output)
}

fn well_formed() -> Lines {
    [
        cases(),
        counts(),
        ranges(),
        extents(),
        crossed(),
        numbers(),
        levels(),
        cuts(),
        no_cell(),
        spans(),
        choices(),
    ]
    .concat()
}

/// A rectangle's coordinates.
fn rectangle(south: i64, west: i64, height: i64, width: i64) -> Vec<i64> {
    let (north, east) = (south + height, west + width);
    vec![south, west, south, east, north, east, north, west]
}

fn square(south: i64, west: i64, side: i64) -> Vec<i64> {
    rectangle(south, west, side, side)
}

fn others(units: &[Vec<i64>]) -> Lines {
    units.iter().map(|coordinates| line_of('F', 0, coordinates)).collect()
}

/// The cases 1 to 7, 11 and 12.
fn cases() -> Lines {
    let mut lines = vec![line_of('B', 1, &square(294_250_496, 857_567_232, SECOND))];
    lines.extend(others(&[
        square(48 * SECOND, 48 * SECOND, 12 * SECOND),
        rectangle(0, 0, 32, 960),
        rectangle(0, 0, 32, 961),
        vec![0, 0, 0, 32, 32, 0],
        square(0, 0, 1_023),
        square(0, 0, 1_024),
        square(0, 0, DEGREE),
        square(0, 0, DEGREE + 1),
    ]));
    lines.push(line_of('B', 0, &square(0, 0, 32)));
    lines.push(line_of('F', 1, &square(0, 0, 32)));
    lines.push(line_of('B', 1_048_575, &square(0, 0, 32)));
    lines
}

/// A square of 1,024 corners, 32 u from one to the next.
fn many_corners() -> Vec<i64> {
    let side = 256 * 32;
    let steps = || (0..256).map(|k| k * 32);
    let south = steps().flat_map(|way| [0, way]);
    let east = steps().flat_map(|way| [way, side]);
    let north = steps().flat_map(|way| [side, side - way]);
    let west = steps().flat_map(|way| [side - way, 0]);
    south.chain(east).chain(north).chain(west).collect()
}

/// Refusals 2 and 3 at their borders.
fn counts() -> Lines {
    let four = square(0, 0, 64);
    let mut lines: Lines = (0..=8).map(|count| line_of('F', 0, &four[..count])).collect();
    lines.push(line_of('F', 0, &[four.as_slice(), &[0]].concat()));
    let many = many_corners();
    lines.push(line_of('F', 0, &many));
    lines.push(line_of('F', 0, &many[..2_047]));
    lines.push(line_of('F', 0, &[many.as_slice(), &[0]].concat()));
    lines.push(line_of('F', 0, &[many.as_slice(), &[0, 0]].concat()));
    // Odd and too few, odd and above a range, too few and above a range.
    lines.push(line_of('B', 0, &[LAT_END + 1]));
    lines.push(line_of('B', 0, &[LAT_END + 1, 0, 0, 0, 0, 0, 0]));
    lines.push(line_of('B', 0, &[LAT_END + 1, 0, 0, 0]));
    lines.push(line_of('B', 0, &[]));
    lines
}

/// Refusal 4 at its borders and in each place.
fn ranges() -> Lines {
    let (lat, lon) = (LAT_END - 64, LON_END - 64);
    let mut lines = others(&[
        square(lat, lon, 64),
        square(lat, lon, 65),
        rectangle(lat, lon, 65, 64),
        rectangle(lat, lon, 64, 65),
        // A longitude above 90° is good, a latitude is not.
        square(lat, LAT_END, 64),
        square(LAT_END, LAT_END, 64),
    ]);
    for place in 0..4 {
        for (which, above) in
            [(0, LAT_END + 1), (1, LON_END + 1), (0, u32::MAX.into()), (1, u32::MAX.into())]
        {
            let mut coordinates = square(lat, lon, 64);
            coordinates[2 * place + which] = above;
            lines.push(line_of('B', 0, &coordinates));
        }
    }
    let mut two = square(lat, lon, 64);
    (two[3], two[6]) = (LON_END + 1, LAT_END + 1);
    lines.push(line_of('F', 0, &two));
    let mut many = many_corners();
    many[2_047] = LON_END + 1;
    lines.push(line_of('F', 0, &many));
    lines
}

/// Refusal 5 at its borders, in each direction by itself.
fn extents() -> Lines {
    let mut lines = others(&[
        rectangle(0, 0, DEGREE, 64),
        rectangle(0, 0, DEGREE + 1, 64),
        rectangle(0, 0, 64, DEGREE),
        rectangle(0, 0, 64, DEGREE + 1),
        square(1, 1, DEGREE),
        square(DEGREE / 2, DEGREE / 2, DEGREE),
        square(LAT_END - DEGREE, LON_END - DEGREE, DEGREE),
        rectangle(0, 0, LAT_END, LON_END),
    ]);
    lines.push(line_of('B', 0, &square(0, 0, DEGREE + 1)));
    lines
}

/// Refusal 31 in every way and units that just escape it, then 31 beside 2 to 6.
fn crossed() -> Lines {
    let mut lines: Lines =
        crossings().iter().map(|(coordinates, _)| line_of('B', 1, coordinates)).collect();
    let bow_tie = |side: i64| vec![0, 0, side, side, 0, side, side, 0];
    let mut above = bow_tie(64);
    above[7] = LON_END + 1;
    lines.extend(others(&[
        bow_tie(DEGREE),
        bow_tie(DEGREE + 1),
        bow_tie(64)[..7].to_vec(),
        bow_tie(64)[..4].to_vec(),
        above,
    ]));
    for (kind, number) in [('B', 0), ('B', 1_048_576), ('F', 1)] {
        lines.push(line_of(kind, number, &bow_tie(64)));
        lines.push(line_of(kind, number, &bow_tie(DEGREE + 1)));
        // Three corners on a line and all in one point.
        lines.push(line_of(kind, number, &[0, 0, 64, 64, 32, 32]));
        lines.push(line_of(kind, number, &[64; 6]));
    }
    lines
}

/// Refusal 6 at its borders, and before refusal 7.
fn numbers() -> Lines {
    let unit = square(0, 0, 32);
    let buildings = [0, 1, 2, 31, 32, 1_048_574, 1_048_575, 1_048_576, u32::MAX.into()];
    let mut lines: Lines = buildings.iter().map(|&number| line_of('B', number, &unit)).collect();
    let other = [0, 1, 1_048_575, 1_048_576, u32::MAX.into()];
    lines.extend(other.iter().map(|&number| line_of('F', number, &unit)));
    lines.push(line_of('B', 0, &[0, 0, 0, 32, 32, 0]));
    lines
}

/// One cell of each level, exact and a u too small.
fn levels() -> Lines {
    let at = Point { lat: 294_250_496 + 5, lon: 857_567_232 + 1_000 };
    let mut lines = Vec::new();
    for level in 9..=27 {
        let mut corners = Cell::at(level, at).corners();
        lines.push(line_of('B', level.into(), &coordinates_of(&corners)));
        corners[2].lat -= 1;
        corners[2].lon -= 1;
        lines.push(line_of('B', level.into(), &coordinates_of(&corners)));
    }
    lines
}

/// The cut cells, in both directions and in each by itself, exact, a u too
/// small and with the ground beyond the cut.
fn cuts() -> Lines {
    let mut units = Vec::new();
    for (ground, levels) in [(DEGREE, [10, 11, 12]), (MINUTE, [16, 17, 18])] {
        for level in levels {
            let (high, low) = (3 * ground - 1, 2 * ground);
            for (lat, lon) in [(high, high), (high, low), (low, high)] {
                let cell = Cell::at(level, Point { lat, lon });
                let height = cell.lat.to - cell.lat.from;
                let width = cell.lon.to - cell.lon.from;
                for more in [-1, 0, 1] {
                    units.push(rectangle(
                        cell.lat.from,
                        cell.lon.from,
                        height + more,
                        width + more,
                    ));
                }
            }
        }
    }
    others(&units)
}

/// Refusal 7 and units that just escape it: points, thin units, and a notch that
/// no corner of the cell shows. Lines are crossed, and so is ground without an
/// inside because its boundary is run twice.
fn no_cell() -> Lines {
    let point = |lat: i64, lon: i64| [lat, lon].repeat(3);
    let (lat, lon) = (LAT_END, LON_END);
    others(&[
        point(0, 0),
        point(lat, 0),
        point(0, lon),
        point(lat, lon),
        point(5, 5),
        vec![0, 0, 64, 64, 32, 32],
        vec![lat, lon, lat - 64, lon, lat - 32, lon],
        vec![lat, lon, lat, lon - 64, lat, lon - 32],
        square(lat - 32, lon - 32, 32),
        square(lat - 31, lon - 31, 31),
        square(1, 1, 62),
        square(1, 1, 63),
        rectangle(0, 0, 31, 900),
        // A notch one u wide down to the middle, and the same closed up.
        vec![0, 0, 0, 32, 32, 32, 32, 17, 16, 17, 16, 16, 32, 16, 32, 0],
        vec![0, 0, 0, 32, 32, 32, 32, 16, 16, 16, 32, 16, 32, 0],
        // The same corner touches the side only.
        vec![0, 0, 0, 32, 32, 32, 64, 16, 32, 16, 64, 8, 32, 0],
        // A boundary run twice has no inside, run three times it would have.
        square(0, 0, 64).repeat(2),
        square(0, 0, 64).repeat(3),
    ])
}

/// The border of the step to a coarser level in each of the four spans, and L 14,
/// where the greatest is 31.
fn spans() -> Lines {
    let mut units = Vec::new();
    for far in [960, 961] {
        units.push(rectangle(0, 0, 32, far));
        units.push(rectangle(0, 0, far, 32));
    }
    // One cell at 992 with a spike back to 32 or 31.
    for near in [32, 31] {
        units.push(vec![0, 992, 0, 1_024, 32, 1_024, 32, 992, 16, near]);
        units.push(vec![992, 0, 1_024, 0, 1_024, 32, 992, 32, near, 16]);
    }
    units.push(rectangle(0, 0, 32, DEGREE));
    units.push(rectangle(0, 0, DEGREE, 32));
    units.push(rectangle(0, 0, 64, 1_920));
    units.push(rectangle(0, 0, 64, 1_921));
    units.extend(tails().into_iter().map(|(coordinates, _, _)| coordinates));
    others(&units)
}

/// Units in which more than one cell could be chosen.
fn choices() -> Lines {
    others(&[
        // Two cells, joined at their corners by 4 u: west wins though it lies north.
        vec![64, 0, 64, 60, 60, 64, 0, 64, 0, 128, 64, 128, 64, 68, 68, 64, 128, 64, 128, 0],
        // As far west: south wins.
        vec![0, 0, 0, 64, 64, 64, 96, 40, 128, 64, 192, 64, 192, 0, 128, 0, 96, 24, 64, 0],
        // The same two pairs joined in a point are crossed.
        vec![64, 0, 64, 64, 0, 64, 0, 128, 64, 128, 64, 64, 128, 64, 128, 0],
        vec![0, 0, 0, 64, 64, 64, 96, 32, 128, 64, 192, 64, 192, 0, 128, 0, 96, 32, 64, 0],
        // A larger cell in the east beats one in the west.
        vec![0, 0, 0, 256, 128, 256, 128, 128, 64, 128, 64, 0],
        // Level decides, not area: a cut level 18 cell beats whole level 19.
        rectangle(0, 52 * SECOND, 8 * SECOND, 12 * SECOND),
        rectangle(56 * SECOND, 56 * SECOND, 4 * SECOND, 12 * SECOND),
        // Crossed, two of them with an even count in the middle.
        vec![0, 0, 0, 320, 320, 320, 320, 0, 96, 0, 96, 224, 224, 224, 224, 0],
        vec![0, 0, 128, 128, 0, 128, 128, 0],
        vec![0, 0, 0, 128, 96, 128, 96, 32, 32, 32, 32, 96, 128, 96, 128, 0],
        // Repeated corners and corners set on edges.
        vec![0, 0, 0, 0, 0, 960, 0, 960, 32, 960, 32, 480, 32, 0, 0, 0],
        vec![32, 0, 32, 960, 0, 960, 0, 0],
        // Over a degree and over a minute.
        square(DEGREE - 3 * MINUTE, 2 * DEGREE - 5 * MINUTE, 9 * MINUTE),
        square(MINUTE - 3 * SECOND, 2 * MINUTE - 5 * SECOND, 9 * SECOND),
    ])
}

/// The listing's form at its borders, where coding decides: no coordinates and
/// numbers of ten digits.
fn words() -> Lines {
    let most = i64::from(u32::MAX);
    let mut lines: Lines = [1, 1_000_000_000, most].map(|number| line_of('B', number, &[])).into();
    lines.push(line_of('F', most, &[most]));
    lines.push(line_of('F', 0, &[0, 0, 0, 960, 32, most, 32, 0]));
    lines.push(line_of('F', 0, &[0, 0, 0, 960, 32, 1_000_000_000, 32, 0]));
    lines.push(line_of('F', 0, &[most; 2_048]));
    lines.push(line_of('B', 1, &[most; 2_049]));
    lines
}

/// Refusal 9.
fn malformed() -> Lines {
    MALFORMED.iter().map(|line| line.to_vec()).collect()
}

/// The longest lines: 12,286 coordinates, both sides of 24,576 bytes in good
/// and bad words, and far more.
fn long() -> Lines {
    let zeros = |count: usize, end: &[u8]| [b"F 0", b" 0".repeat(count).as_slice(), end].concat();
    let ends: [&[u8]; 10] =
        [b"", b" 0", b" x", b" 10", b"  0", b" 0\r", b" 0 ", b" 100", b" 0\r\r", b"\0\0\0"];
    let mut lines: Lines = ends.iter().map(|end| zeros(12_285, end)).collect();
    for (byte, length) in
        [(b'x', LINE_MAX), (b'x', LINE_MAX + 1), (b'0', LINE_MAX), (b'\0', LINE_MAX)]
    {
        lines.push(vec![byte; length]);
    }
    // Past the border a line is refused 10 whatever it holds.
    lines.push(zeros(50_000, b""));
    lines.push(vec![0xff; 100_000]);
    lines
}
