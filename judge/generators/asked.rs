//! Random questions for the trials: edges at rectangles, points at boundaries,
//! and cells that boundaries go around, touch or meet.

use super::random::Random;
use super::shapes::{self, at, border};
use super::units::{coordinates_of, filled};
use crate::program::boundary::Extent;
use crate::program::grid::{
    corners, size, Cell, Point, Stretch, COARSEST, FINEST, LAT_END, LON_END, STEP,
};
use crate::program::grid::{DEGREE, MINUTE};
use crate::program::lines::LINE_MAX;
use crate::program::questions::Question;

/// The greatest number.
const MOST: i64 = u32::MAX as i64;

/// Corners that a boundary has at most, but for the longest lines.
const CORNERS: usize = 40;

/// How often another question is made in place of one whose answer is not the
/// wanted one.
const TRIES: u8 = 12;

pub fn meets_request(random: &mut Random) -> Vec<u8> {
    evenly(random, edge_question).line()
}

pub fn odd_request(random: &mut Random) -> Vec<u8> {
    let question = evenly(random, point_question);
    longest(random, question.line())
}

pub fn inside_request(random: &mut Random) -> Vec<u8> {
    let question = evenly(random, cell_question);
    longest(random, question.line())
}

/// A question whose answer is about as often yes as no.
fn evenly(random: &mut Random, make: fn(&mut Random) -> Question) -> Question {
    let wanted = random.one_in(2);
    let mut question = make(random);
    for _ in 0..TRIES {
        if question.yes() == wanted {
            break;
        }
        question = make(random);
    }
    question
}

/// Rarely as long as a line may be, or a byte longer.
fn longest(random: &mut Random, line: Vec<u8>) -> Vec<u8> {
    if random.one_in(2_000) {
        return filled(line, LINE_MAX + random.index(2));
    }
    line
}

fn numbered(p: Point) -> Point {
    at(p.lat.clamp(0, MOST), p.lon.clamp(0, MOST))
}

/// The point, or now and then one beside it.
fn nudged(random: &mut Random, p: Point) -> Point {
    if random.one_in(3) {
        return at(p.lat + random.between(-1, 1), p.lon + random.between(-1, 1));
    }
    p
}

/// A number of any size, often one at an end.
fn any_number(random: &mut Random) -> i64 {
    let any = random.between(0, MOST);
    random.pick(&[0, 1, LAT_END, LON_END, LON_END + 1, MOST - 1, MOST, any, any, any])
}

// Edges at rectangles.

fn edge_question(random: &mut Random) -> Question {
    let (lat, lon) = rectangle(random);
    let (a, b) = match random.below(8) {
        0..=2 => through_corner(random, lat, lon),
        3 => along_side(random, lat, lon),
        4 => (far(random), far(random)),
        _ => (spot(random, lat, lon), spot(random, lat, lon)),
    };
    let (mut a, mut b) = (numbered(nudged(random, a)), numbered(nudged(random, b)));
    if random.one_in(2) {
        (a, b) = (b, a);
    }
    if random.one_in(40) {
        b = a;
    }
    let (lat, lon) = (turned(random, lat), turned(random, lon));
    Question::Meets { a, b, lat, lon }
}

/// Rarely the sides in the wrong order, or one side for both.
fn turned(random: &mut Random, s: Stretch) -> Stretch {
    match random.below(40) {
        0..=1 => Stretch { from: s.to, to: s.from },
        2 => Stretch { from: s.from, to: s.from },
        _ => s,
    }
}

/// The two stretches of a rectangle: small, a cell, or of any numbers.
fn rectangle(random: &mut Random) -> (Stretch, Stretch) {
    let mut any = |most: i64| {
        let (p, q) = (random.between(0, most), random.between(0, most));
        Stretch { from: p.min(q), to: p.max(q) }
    };
    let (small, ranged, large) =
        ((any(9), any(9)), (any(LAT_END), any(LON_END)), (any(MOST), any(MOST)));
    let ends = (Stretch { from: 0, to: any_number(random) }, large.1);
    match random.below(8) {
        0..=2 => small,
        3..=4 => {
            let cell = any_cell(random);
            (cell.lat, cell.lon)
        }
        5 => ranged,
        6 => large,
        _ => ends,
    }
}

/// A number in, at or around a stretch.
fn near(random: &mut Random, s: Stretch) -> i64 {
    let length = s.to - s.from;
    match random.below(8) {
        0 => s.from,
        1 => s.to,
        2 => s.halfway(),
        3 => any_number(random),
        _ => random.between(s.from - length - 1, s.to + length + 1),
    }
}

fn spot(random: &mut Random, lat: Stretch, lon: Stretch) -> Point {
    at(near(random, lat), near(random, lon))
}

/// A point of any numbers, mostly at an end, so that products are large.
fn far(random: &mut Random) -> Point {
    let any = random.between(0, MOST);
    let mut number = || random.pick(&[0, 0, 1, MOST - 1, MOST, MOST, any]);
    at(number(), number())
}

/// Two ends on a line through a corner of the rectangle, mostly with the
/// corner between them.
fn through_corner(random: &mut Random, lat: Stretch, lon: Stretch) -> (Point, Point) {
    let corner = random.pick(&corners(lat, lon));
    let (up, along) = ((lat.to - lat.from).max(1), (lon.to - lon.from).max(1));
    let share = random.pick(&[1, 1, 2, 3]);
    let up = random.between(-up / share, up / share);
    let along = random.between(-along / share, along / share);
    let (back, on) = (random.between(-3, 0), random.between(-1, 3));
    let end = |steps: i64| at(corner.lat + steps * up, corner.lon + steps * along);
    (end(back), end(on))
}

/// Both ends on the line of one side.
fn along_side(random: &mut Random, lat: Stretch, lon: Stretch) -> (Point, Point) {
    let (mut a, mut b) = (spot(random, lat, lon), spot(random, lat, lon));
    if random.one_in(2) {
        a.lat = random.pick(&[lat.from, lat.to]);
        b.lat = a.lat;
    } else {
        a.lon = random.pick(&[lon.from, lon.to]);
        b.lon = a.lon;
    }
    (a, b)
}

// Points at boundaries.

fn point_question(random: &mut Random) -> Question {
    let corners = boundary(random);
    let point = point_at(random, &corners);
    let point = numbered(nudged(random, point));
    Question::Odd { point, coordinates: coordinates(random, &corners) }
}

/// The coordinates, sometimes with a last one that has no partner.
fn coordinates(random: &mut Random, corners: &[Point]) -> Vec<i64> {
    let corners: Vec<Point> = corners.iter().map(|&corner| numbered(corner)).collect();
    let mut coordinates = coordinates_of(&corners);
    if random.one_in(10) {
        coordinates.push(any_number(random));
    }
    coordinates
}

/// A boundary of 0 to 40 corners: small ones with many corners level with each
/// other, all the shapes of units, and any numbers.
fn boundary(random: &mut Random) -> Vec<Point> {
    let most = random.pick(&[6, 12, CORNERS]);
    let count = random.index(most + 1);
    let grid = random.between(1, 8);
    let mut corners: Vec<Point> = match random.below(10) {
        0..=3 => (0..count).map(|_| at(random.between(0, grid), random.between(0, grid))).collect(),
        4..=7 => shapes::any(random),
        _ => (0..count).map(|_| at(any_number(random), any_number(random))).collect(),
    };
    corners.truncate(CORNERS);
    for _ in 0..random.pick(&[0, 0, 1, 3, 9]) {
        add_corner(random, &mut corners);
    }
    corners
}

/// One corner more: a repeated one, one on an edge, one level with another.
fn add_corner(random: &mut Random, corners: &mut Vec<Point>) {
    if corners.is_empty() || corners.len() >= CORNERS {
        return;
    }
    let place = random.index(corners.len());
    let (a, b) = (corners[place], corners[(place + 1) % corners.len()]);
    let new = match random.below(3) {
        0 => a,
        1 => on_edge(random, a, b),
        _ => at(a.lat, random.pick(corners).lon),
    };
    corners.insert(place + 1, new);
}

/// A whole point on the edge, an end where there is no other.
pub fn on_edge(random: &mut Random, a: Point, b: Point) -> Point {
    let (up, along) = (b.lat - a.lat, b.lon - a.lon);
    let (mut steps, mut rest) = (up.abs(), along.abs());
    while rest > 0 {
        (steps, rest) = (rest, steps % rest);
    }
    let taken = random.between(0, steps);
    at(a.lat + up / steps.max(1) * taken, a.lon + along / steps.max(1) * taken)
}

/// A point at a corner's latitude, at a corner, on an edge, or in the extent.
fn point_at(random: &mut Random, corners: &[Point]) -> Point {
    let Some(extent) = Extent::of(corners) else {
        return at(any_number(random), any_number(random));
    };
    let place = random.index(corners.len());
    let (a, b) = (corners[place], corners[(place + 1) % corners.len()]);
    let within =
        at(random.between(extent.south, extent.north), random.between(extent.west, extent.east));
    match random.below(12) {
        0 => a,
        1..=3 => at(a.lat, within.lon),
        4 => at(a.lat, random.pick(corners).lon),
        5..=6 => on_edge(random, a, b),
        7 => at((a.lat + b.lat) / 2, (a.lon + b.lon) / 2),
        8 => at(any_number(random), any_number(random)),
        _ => within,
    }
}

// Cells and boundaries around them.

fn cell_question(random: &mut Random) -> Question {
    match random.below(12) {
        0 => no_cell(random),
        1 => {
            let (mut corners, chosen) = shapes::small(random);
            corners.truncate(CORNERS);
            let cell = chosen.unwrap_or_else(|| any_cell(random));
            let cell = if random.one_in(2) { cell } else { beside(random, &cell) };
            ask(random, &cell, &corners)
        }
        2..=3 => {
            let corners = boundary(random);
            let point = in_ranges(point_at(random, &corners));
            let level = random.between(COARSEST.into(), FINEST.into()) as u8;
            ask(random, &Cell::at(level, point), &corners)
        }
        _ => {
            let cell = any_cell(random);
            let corners = around(random, &cell);
            let cell = if random.one_in(4) { beside(random, &cell) } else { cell };
            ask(random, &cell, &corners)
        }
    }
}

fn ask(random: &mut Random, cell: &Cell, corners: &[Point]) -> Question {
    let coordinates = coordinates(random, corners);
    let (west, south) = (cell.lon.from, cell.lat.from);
    Question::Inside { level: cell.level.into(), west, south, coordinates }
}

/// The point, moved to where cells are.
fn in_ranges(p: Point) -> Point {
    at(p.lat.clamp(0, LAT_END - 1), p.lon.clamp(0, LON_END - 1))
}

/// A cell of any level, one in three cut in one or both directions.
fn any_cell(random: &mut Random) -> Cell {
    let point = in_ranges(at(border(random, LAT_END), border(random, LON_END)));
    if !random.one_in(3) {
        let level = random.between(COARSEST.into(), FINEST.into()) as u8;
        return Cell::at(level, point);
    }
    let level = random.pick(&[10, 11, 12, 16, 17, 18]);
    let ground = if level <= 15 { DEGREE } else { MINUTE };
    let last = |angle: i64| angle - angle % ground + ground - 1;
    let cut = match random.below(3) {
        0 => at(last(point.lat), point.lon),
        1 => at(point.lat, last(point.lon)),
        _ => at(last(point.lat), last(point.lon)),
    };
    Cell::at(level, cut)
}

/// A cell next to this one, around it or in it.
fn beside(random: &mut Random, cell: &Cell) -> Cell {
    let level = i64::from(cell.level) + random.pick(&[0, 0, 0, -1, 1, 2]);
    let level = level.clamp(COARSEST.into(), FINEST.into()) as u8;
    let mut number = |s: Stretch| random.pick(&[s.from - 1, s.from, s.halfway(), s.to - 1, s.to]);
    Cell::at(level, in_ranges(at(number(cell.lat), number(cell.lon))))
}

/// A boundary that goes around the cell, touches it or meets it by a little.
fn around(random: &mut Random, cell: &Cell) -> Vec<Point> {
    let most = random.pick(&[0, 0, 1, 33, size(cell.level), LAT_END]);
    let mut wider = |s: Stretch| Stretch {
        from: (s.from - random.between(0, most)).max(0),
        to: s.to + random.between(0, most),
    };
    let outer = corners(wider(cell.lat), wider(cell.lon)).to_vec();
    let mut ring = match random.below(9) {
        0 => cell.corners().to_vec(),
        1 => diamond(cell),
        2 => spikes(random, cell, outer),
        3 => spikes(random, cell, cell.corners().to_vec()),
        4 => crossed(random, cell, &outer),
        5 => {
            let inner = shapes::any(random);
            [outer, inner].concat()
        }
        _ => outer,
    };
    // One corner moved a little.
    if random.one_in(4) {
        let moved = random.index(ring.len());
        let most = random.pick(&[1, 1, 33, size(cell.level)]);
        ring[moved].lat += random.between(-most, most);
        ring[moved].lon += random.between(-most, most);
    }
    ring.truncate(CORNERS);
    for _ in 0..random.pick(&[0, 0, 0, 1, 4, 12]) {
        add_corner(random, &mut ring);
    }
    let start = random.index(ring.len());
    ring.rotate_left(start);
    if random.one_in(2) {
        ring.reverse();
    }
    ring
}

/// Edges that pass through the four corners of the cell from outside.
fn diamond(cell: &Cell) -> Vec<Point> {
    let centre = cell.centre();
    let (up, along) = (cell.lat.to - cell.lat.from, cell.lon.to - cell.lon.from);
    vec![
        at(centre.lat - up, centre.lon),
        at(centre.lat, centre.lon + along),
        at(centre.lat + up, centre.lon),
        at(centre.lat, centre.lon - along),
    ]
}

/// Spikes from the sides of a ring to the cell's sides, or a u past them.
fn spikes(random: &mut Random, cell: &Cell, mut ring: Vec<Point>) -> Vec<Point> {
    let past = random.pick(&[-1, 0, 0, 0, 1]);
    // From the last side to the first, so that the places stay good.
    for side in (0..4).rev() {
        for _ in 0..random.pick(&[0, 1, 1, 4]) {
            let lat = random.between(cell.lat.from, cell.lat.to);
            let lon = random.between(cell.lon.from, cell.lon.to);
            let tip = match side {
                0 => at(cell.lat.from + past, lon),
                1 => at(lat, cell.lon.to - past),
                2 => at(cell.lat.to - past, lon),
                _ => at(lat, cell.lon.from + past),
            };
            ring.insert(side + 1, tip);
            // Back to the start of the side: the spike is open to one side.
            if random.one_in(2) {
                let start = ring[side];
                ring.insert(side + 2, start);
            }
        }
    }
    ring
}

/// A ring run twice or three times, two rings, or a bow-tie whose edges pass
/// through two corners of the cell.
fn crossed(random: &mut Random, cell: &Cell, outer: &[Point]) -> Vec<Point> {
    let centre = cell.centre();
    let (up, along) = (cell.lat.to - cell.lat.from, cell.lon.to - cell.lon.from);
    let (west, far) = (cell.lon.from, cell.lon.from + 4 * along);
    let (south, north) = (centre.lat - up, centre.lat + up);
    match random.below(5) {
        0 => outer.repeat(2),
        1 => outer.repeat(3),
        2 => [outer, &cell.corners()].concat(),
        _ => vec![at(south, west), at(north, far), at(south, far), at(north, west)],
    }
}

/// A level without cells, or a side at which no cell of the level starts, and
/// a boundary around all that could be meant.
fn no_cell(random: &mut Random) -> Question {
    let cell = any_cell(random);
    let (mut level, mut west, mut south) = (i64::from(cell.level), cell.lon.from, cell.lat.from);
    let any_level = random.between(28, MOST);
    let off = random.pick(&[1, -1, 2, -2, 16, STEP, -STEP, size(cell.level) / 2]);
    match random.below(6) {
        0..=1 => level = random.pick(&[0, 1, 8, 8, 28, 28, 29, 32, 256 + level, MOST, any_level]),
        2 => west = (west + off).clamp(0, MOST),
        3 => south = (south + off).clamp(0, MOST),
        4 => {
            // A whole number of nominal sizes, which the cuts leave behind.
            level = random.pick(&[10, 11, 12, 16, 17, 18]);
            let side = size(level as u8);
            west = random.between(0, LON_END / side) * side;
            south = random.between(0, LAT_END / side) * side;
        }
        _ => {
            // At the ends of the ranges and past them.
            let past = random.between(0, (MOST - LON_END) / DEGREE) * DEGREE;
            let step = random.pick(&[0, 0, STEP, size(cell.level), past]);
            if random.one_in(2) {
                west = LON_END + step;
            } else {
                south = LAT_END + step;
            }
        }
    }
    let end = random.pick(&[LON_END, MOST]);
    let all = Stretch { from: 0, to: end };
    Question::Inside { level, west, south, coordinates: coordinates_of(&corners(all, all)) }
}
