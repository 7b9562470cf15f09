//! The fixed list of questions: edges at a rectangle's sides and corners,
//! points at the latitudes of corners, cells at cuts and at the ranges' ends.

use std::io::{self, Write};

use super::borders::print_lines;
use super::broken::BAD_NUMBERS;
use super::units::{coordinates_of, filled};
use crate::program::grid::{
    corners, size, Cell, Point, Stretch, DEGREE, LAT_END, LON_END, MINUTE, STEP,
};
use crate::program::lines::LINE_MAX;

const MOST: i64 = u32::MAX as i64;

/// A rectangle with other numbers for latitude than for longitude.
const LAT: Stretch = Stretch { from: 2_064, to: 2_128 };
const LON: Stretch = Stretch { from: 1_064, to: 1_128 };

/// Everything in both ranges and past them.
const ALL: Stretch = Stretch { from: 0, to: MOST };

/// Requests of no good form, each wrong in its own way.
const MALFORMED: [&[u8]; 26] = [
    b"meets",
    b"meets ",
    b"Meets 0 0 10 10 2 4 2 4",
    b"meet 0 0 10 10 2 4 2 4",
    b"meets 0 0 10 10 2 4 2",
    b"meets 0 0 10 10 2 4 2 ",
    b"meets 0 0 10 10 2 4 2 4 ",
    b"meets 0 0 10 10 2 4 2 4 0",
    b"meets  0 0 10 10 2 4 2 4",
    b" meets 0 0 10 10 2 4 2 4",
    b"meets 0 0 10 10 2 4 2 4\r",
    b"meets 20 0 0 10 10 2 4 2 4",
    b"odd",
    b"odd ",
    b"odd 5",
    b"odd 5 ",
    b"odd 5 5 ",
    b"ODD 5 5",
    b"odd 5 5 0 0 0 10 10 10 10 0 ",
    b"odd 5 5 0 0  0 10",
    b"inside",
    b"inside 27",
    b"inside 27 0",
    b"inside 27 0 0 ",
    b"Inside 27 0 0",
    b"inside 27 0 0 0 0 0 32 32 32 32 0\0",
];

type Lines = Vec<Vec<u8>>;

/// Prints the list. Its last line has no line feed, which is a border too.
pub fn border_edges(output: &mut impl Write) -> io::Result<()> {
    let groups = [
        meets_positions(),
        meets_corners(),
        meets_odd_sides(),
        meets_large(),
        odd_positions(),
        odd_counts(),
        odd_large(),
        inside_levels(),
        inside_cuts(),
        inside_ends(),
        inside_no_cell(),
        inside_shapes(),
        malformed(),
        vec![inside(27, 0, 0, &ring(Stretch { from: 0, to: 32 }, Stretch { from: 0, to: 32 }))],
    ];
    print_lines(&groups.concat(), output)
}

fn at(lat: i64, lon: i64) -> Point {
    Point { lat, lon }
}

fn line(word: &str, parts: &[&[i64]]) -> Vec<u8> {
    let mut line = word.to_string();
    for number in parts.concat() {
        line.push_str(&format!(" {number}"));
    }
    line.into_bytes()
}

fn meets(a: Point, b: Point, lat: Stretch, lon: Stretch) -> Vec<u8> {
    line("meets", &[&coordinates_of(&[a, b]), &[lon.from, lon.to, lat.from, lat.to]])
}

fn odd(point: Point, coordinates: &[i64]) -> Vec<u8> {
    line("odd", &[&[point.lat, point.lon], coordinates])
}

fn inside(level: i64, west: i64, south: i64, coordinates: &[i64]) -> Vec<u8> {
    line("inside", &[&[level, west, south], coordinates])
}

/// A rectangle's coordinates.
fn ring(lat: Stretch, lon: Stretch) -> Vec<i64> {
    coordinates_of(&corners(lat, lon))
}

/// Before, at the start, halfway, at the end and past it.
fn positions(s: Stretch, step: i64) -> [i64; 5] {
    [s.from - step, s.from, s.halfway(), s.to, s.to + step]
}

/// The points of the positions in both directions.
fn grid(lat: Stretch, lon: Stretch, step: i64) -> Vec<Point> {
    let row = |lat: i64| positions(lon, step).map(|lon| at(lat, lon));
    positions(lat, step).map(row).concat()
}

/// Every edge between two positions, some from a point to itself. Many pass
/// through a corner of the rectangle.
fn meets_positions() -> Lines {
    let points = grid(LAT, LON, 32);
    let mut lines = Vec::new();
    for (i, &a) in points.iter().enumerate() {
        for (j, &b) in points.iter().enumerate().skip(i) {
            // From either end in turn.
            let (a, b) = if (i + j) % 2 == 0 { (a, b) } else { (b, a) };
            lines.push(meets(a, b, LAT, LON));
        }
    }
    lines
}

/// Lines through each corner from outside, then a u further in and out.
fn meets_corners() -> Lines {
    let mut lines = Vec::new();
    for corner in corners(LAT, LON) {
        // Away from the rectangle northward is away from it eastward or not.
        let same = (corner.lat == LAT.from) == (corner.lon == LON.from);
        let turn = if same { -1 } else { 1 };
        for (up, along) in [(32, 32), (1, 3), (1_000, 7)] {
            for off in [-1, 0, 1] {
                let a = at(corner.lat - up + off, corner.lon - turn * along);
                let b = at(corner.lat + up + off, corner.lon + turn * along);
                lines.push(meets(a, b, LAT, LON));
            }
        }
    }
    lines
}

/// Sides in the wrong order and sides that are one.
fn meets_odd_sides() -> Lines {
    let turned = |s: Stretch| Stretch { from: s.to, to: s.from };
    let none = |s: Stretch| Stretch { from: s.from, to: s.from };
    let rectangles = [
        (LAT, turned(LON)),
        (turned(LAT), LON),
        (turned(LAT), turned(LON)),
        (LAT, none(LON)),
        (none(LAT), LON),
        (none(LAT), none(LON)),
    ];
    let points = grid(LAT, LON, 32);
    // Through the middle four ways, along sides, from corner to corner, in it.
    let edges =
        [(2, 22), (10, 14), (0, 24), (4, 20), (5, 9), (1, 21), (6, 18), (6, 12), (7, 17), (0, 18)];
    let mut lines = Vec::new();
    for (lat, lon) in rectangles {
        lines.extend(edges.map(|(a, b)| meets(points[a], points[b], lat, lon)));
    }
    lines
}

/// Numbers whose products need more than 63 bits.
fn meets_large() -> Lines {
    let ends = [
        (at(0, 0), at(MOST, MOST)),
        (at(MOST, 0), at(0, MOST)),
        (at(0, 0), at(MOST, MOST - 1)),
        (at(0, 1), at(1, 0)),
        (at(MOST, MOST - 1), at(MOST - 1, MOST)),
        (at(0, 0), at(0, MOST)),
        (at(MOST, 0), at(MOST, MOST)),
        (at(1, 0), at(1, MOST)),
        (at(MOST, MOST), at(MOST, MOST)),
    ];
    let mut lines: Lines = ends.iter().map(|&(a, b)| meets(a, b, ALL, ALL)).collect();
    let small = |from: i64| Stretch { from, to: from + 1 };
    for x in [0, MOST / 2, MOST - 2] {
        for (a, b) in [ends[0], ends[2]] {
            lines.push(meets(a, b, small(x), small(x)));
            lines.push(meets(a, b, small(x), small(x + 1)));
            lines.push(meets(b, a, small(x + 1), small(x)));
        }
    }
    // The other diagonal passes the corners of a square in the middle.
    let (low, high) = (MOST / 2, MOST / 2 + 1);
    for (a, b) in [(at(MOST, 0), at(0, MOST)), (at(MOST - 1, 0), at(0, MOST - 1))] {
        let middle = Stretch { from: low, to: high };
        lines.push(meets(a, b, middle, middle));
        lines.push(meets(a, b, Stretch { from: high, to: MOST }, Stretch { from: low, to: MOST }));
        lines.push(meets(a, b, Stretch { from: 0, to: low }, Stretch { from: 0, to: high }));
        lines.push(meets(a, b, Stretch { from: 0, to: low }, Stretch { from: 0, to: high + 1 }));
    }
    lines
}

/// Points at every position of a square, a diamond, an L with corners twice
/// and a bow-tie.
fn odd_positions() -> Lines {
    let [south, _, middle, _, north] = positions(LAT, 0);
    let [west, _, centre, _, east] = positions(LON, 0);
    let rings = [
        ring(LAT, LON),
        vec![south, centre, middle, east, north, centre, middle, west],
        [
            [south, west, south, east, middle, east, middle, east],
            [middle, centre, middle, centre, north, centre, north, west],
        ]
        .concat(),
        vec![south, west, north, east, south, east, north, west],
    ];
    let mut lines = Vec::new();
    for ring in &rings {
        lines.extend(grid(LAT, LON, 1).iter().map(|&point| odd(point, ring)));
    }
    // Just beside the middles of a diamond's edges.
    let (low, high) = ((south + middle) / 2, (middle + north) / 2);
    let (left, right) = ((west + centre) / 2, (centre + east) / 2);
    for off in [-1, 0, 1] {
        for (lat, lon) in [(low, left), (low, right), (high, left), (high, right)] {
            lines.push(odd(at(lat, lon + off), &rings[1]));
        }
    }
    lines
}

/// Each count of numbers, rings run more than once, and edges of no length.
fn odd_counts() -> Lines {
    let point = at(LAT.halfway(), LON.halfway());
    let square = ring(LAT, LON);
    let mut lines: Lines = (0..=8).map(|count| odd(point, &square[..count])).collect();
    lines.push(odd(point, &[square.as_slice(), &[MOST]].concat()));
    lines.extend([2, 3, 4].map(|times| odd(point, &square.repeat(times))));
    let twice: Vec<i64> = square.chunks(2).flat_map(|corner| corner.repeat(2)).collect();
    lines.push(odd(point, &twice));
    lines.push(odd(at(LAT.from, LON.from), &[LAT.from, LON.from].repeat(5)));
    // There and back.
    lines.push(odd(at(2_070, 1_000), &[2_064, 1_064, 2_128, 1_128, 2_096, 1_096]));
    lines
}

/// Rings up to the greatest number.
fn odd_large() -> Lines {
    let square = ring(ALL, ALL);
    let triangle = [0, 0, MOST, MOST, 0, MOST];
    let mut lines = Vec::new();
    for lat in [0, 1, MOST - 1, MOST] {
        lines.extend([0, MOST - 1, MOST].map(|lon| odd(at(lat, lon), &square)));
    }
    for x in [0, MOST / 2, MOST - 1, MOST] {
        for off in [-1, 0, 1] {
            let lon: i64 = x + off;
            lines.push(odd(at(x, lon.clamp(0, MOST)), &triangle));
        }
    }
    lines
}

/// A boundary of just the cell.
fn cell_ring(cell: &Cell) -> Vec<i64> {
    ring(cell.lat, cell.lon)
}

fn ask(cell: &Cell, coordinates: &[i64]) -> Vec<u8> {
    inside(cell.level.into(), cell.lon.from, cell.lat.from, coordinates)
}

/// One cell of each level: exact, a u too small in each direction, as the
/// next levels, and asked a u beside its sides.
fn inside_levels() -> Lines {
    let point = at(294_250_496 + 5, 857_567_232 + 1_000);
    let mut lines = Vec::new();
    for level in 9..=27 {
        let cell = Cell::at(level, point);
        let exact = cell_ring(&cell);
        let less = |s: Stretch| Stretch { from: s.from, to: s.to - 1 };
        let (west, south) = (cell.lon.from, cell.lat.from);
        lines.push(ask(&cell, &exact));
        lines.push(ask(&cell, &ring(less(cell.lat), cell.lon)));
        lines.push(ask(&cell, &ring(cell.lat, less(cell.lon))));
        let level = i64::from(level);
        lines.push(inside(level - 1, west, south, &exact));
        lines.push(inside(level + 1, west, south, &exact));
        lines.push(inside(level, west + 1, south, &ring(ALL, ALL)));
        lines.push(inside(level, west, south - 1, &ring(ALL, ALL)));
    }
    lines
}

/// Cells cut in both directions and in each by itself: exact, a u too small,
/// and where the next would start if none were cut.
fn inside_cuts() -> Lines {
    let mut lines = Vec::new();
    for (ground, levels) in [(DEGREE, [10, 11, 12]), (MINUTE, [16, 17, 18])] {
        for level in levels {
            let (high, low) = (3 * ground - 1, 2 * ground);
            for (lat, lon) in [(high, high), (high, low), (low, high)] {
                let cell = Cell::at(level, at(lat, lon));
                let less = |s: Stretch| Stretch { from: s.from + 1, to: s.to };
                lines.push(ask(&cell, &cell_ring(&cell)));
                lines.push(ask(&cell, &ring(less(cell.lat), less(cell.lon))));
                let next = |s: Stretch| s.from + size(level);
                let (west, south) = (next(cell.lon), next(cell.lat));
                lines.push(inside(level.into(), west, south, &ring(ALL, ALL)));
            }
        }
    }
    lines
}

/// The last cells of a level in each direction, and those that would follow.
fn inside_ends() -> Lines {
    let all = ring(ALL, ALL);
    let mut lines = Vec::new();
    for level in [9, 10, 12, 15, 16, 18, 21, 27] {
        let first = Cell::at(level, at(0, 0));
        let last = Cell::at(level, at(LAT_END - 1, LON_END - 1));
        let (west, south) = (last.lon.from, last.lat.from);
        lines.push(ask(&first, &cell_ring(&first)));
        lines.push(ask(&last, &cell_ring(&last)));
        let level = i64::from(level);
        lines.push(inside(level, west, south, &all));
        lines.push(inside(level, LON_END, south, &all));
        lines.push(inside(level, west, LAT_END, &all));
        lines.push(inside(level, LON_END, LAT_END, &all));
        // 90° is a good west side.
        lines.push(inside(level, LAT_END, south, &all));
    }
    lines
}

/// Levels without cells, and sides at which no cell starts.
fn inside_no_cell() -> Lines {
    let all = ring(ALL, ALL);
    let levels = [0, 1, 7, 8, 9, 27, 28, 29, 63, 255, 256, 265, 283, 65_545, MOST];
    let mut lines: Lines = levels.iter().map(|&level| inside(level, 0, 0, &all)).collect();
    for side in [0, 1, 16, 31, STEP, 33, 48, 64, MOST - 63, MOST - 31, MOST] {
        lines.push(inside(27, side, 0, &all));
        lines.push(inside(27, 0, side, &all));
    }
    // Whole minutes of a degree, and whole seconds of a minute.
    for count in [4, 8, 28, 32, 48, 52, 56, 60, 64] {
        lines.push(inside(10, count * MINUTE, 0, &all));
        lines.push(inside(12, 0, count * MINUTE, &all));
        lines.push(inside(16, 0, count * (MINUTE / 60), &all));
        lines.push(inside(18, count * (MINUTE / 60), 0, &all));
    }
    lines
}

/// Boundaries around one cell of 128 u that touch it, meet it or leave it out.
fn inside_shapes() -> Lines {
    let cell = Cell::at(25, at(1_280, 2_560));
    let (south, north) = (cell.lat.from, cell.lat.to);
    let (west, east) = (cell.lon.from, cell.lon.to);
    let centre = cell.centre();
    let wider = |s: Stretch| Stretch { from: s.from - 64, to: s.to + 64 };
    let outer = corners(wider(cell.lat), wider(cell.lon));
    let with_tip = |side: usize, tip: Point| {
        let mut ring = outer.to_vec();
        ring.insert(side + 1, tip);
        coordinates_of(&ring)
    };
    let mut shapes = Vec::new();
    // A tip a u before each side, on it and a u past it.
    for past in [-1, 0, 1] {
        shapes.push(with_tip(0, at(south + past, centre.lon)));
        shapes.push(with_tip(1, at(centre.lat, east - past)));
        shapes.push(with_tip(2, at(north - past, centre.lon)));
        shapes.push(with_tip(3, at(centre.lat, west + past)));
        // Edges through or beside all four corners.
        let (up, along) = (128 - past, 128 - past);
        shapes.push(vec![
            centre.lat - up,
            centre.lon,
            centre.lat,
            centre.lon + along,
            centre.lat + up,
            centre.lon,
            centre.lat,
            centre.lon - along,
        ]);
        // A bow-tie, its edges through or beside two corners.
        shapes.push(vec![
            south - 64 + past,
            west,
            north + 64 - past,
            west + 4 * 128,
            south - 64 + past,
            west + 4 * 128,
            north + 64 - past,
            west,
        ]);
    }
    let (own, around) = (cell_ring(&cell), coordinates_of(&outer));
    shapes.push(around.clone());
    shapes.push(around.repeat(2));
    shapes.push(around.repeat(3));
    shapes.push(own.repeat(2));
    shapes.push(own.repeat(3));
    // The cell left out of a wider ring: an even count.
    shapes.push([around.as_slice(), &own, &own[..2], &around[..2]].concat());
    // A closed notch to the centre, and an open one a u wide.
    let mouth = at(outer[2].lat, centre.lon);
    let mut notched = outer.to_vec();
    notched.splice(3..3, [mouth, centre, mouth]);
    shapes.push(coordinates_of(&notched));
    let right = at(centre.lat, centre.lon + 1);
    notched.splice(3..6, [at(mouth.lat, right.lon), right, centre, mouth]);
    shapes.push(coordinates_of(&notched));
    // Beside the cell on each side: no edge meets it, and the count is even.
    for (up, along) in [(-128, 0), (128, 0), (0, -128), (0, 128), (128, 128)] {
        let moved = |s: Stretch, way: i64| Stretch { from: s.from + way, to: s.to + way };
        shapes.push(ring(moved(cell.lat, up), moved(cell.lon, along)));
    }
    // Its two triangles, and a triangle twice its size.
    shapes.push(vec![south, west, south, east, north, east]);
    shapes.push(vec![south, west, south, west + 256, south + 256, west]);
    shapes.push(vec![south, west, south, west + 255, south + 256, west]);
    // Too few corners, a repeated one, a number without a partner.
    shapes.extend([0, 1, 2, 4, 6].map(|count| own[..count].to_vec()));
    shapes.push([&own[..2], &own].concat());
    shapes.push([own.as_slice(), &[centre.lat]].concat());
    // Far corners.
    shapes.push(vec![0, 0, 0, MOST, MOST, MOST]);
    shapes.push(vec![0, 0, 0, MOST, MOST, 0]);
    shapes.push(vec![MOST, 0, MOST, MOST, 0, 0]);
    shapes.iter().map(|coordinates| ask(&cell, coordinates)).collect()
}

fn malformed() -> Lines {
    let mut lines: Lines = MALFORMED.iter().map(|line| line.to_vec()).collect();
    for (i, bad) in BAD_NUMBERS.iter().enumerate() {
        lines.push(match i % 3 {
            0 => [b"meets 0 0 10 10 2 4 2 ", *bad].concat(),
            1 => [b"odd ", *bad, b" 5"].concat(),
            _ => [b"inside 27 0 0 0 0 0 32 32 32 ", *bad, b" 0"].concat(),
        });
    }
    let square = ring(LAT, LON);
    let longest = odd(at(LAT.halfway(), LON.halfway()), &square);
    lines.push(filled(longest.clone(), LINE_MAX));
    lines.push(filled(longest, LINE_MAX + 1));
    lines.push(filled(inside(27, 1_088, 2_080, &square), LINE_MAX));
    lines
}
