//! Random units of all sorts: houses, triangles, slivers, notched and crossed
//! ones, combs, single cells and the neighbourhoods of cut cells.

use super::random::Random;
use crate::program::boundary::Extent;
use crate::program::crossed::crossed;
use crate::program::grid::{
    size, Cell, Point, DEGREE, FINEST, LAT_END, LON_END, MINUTE, SECOND, STEP,
};
use crate::program::plain::{self, Outcome};

/// Work the plain search may have with a small unit.
const WORK: u64 = 200_000;

/// A unit whose extents pass check 5 and that the plain search ends on
/// quickly, with what that search found.
pub fn small(random: &mut Random) -> (Vec<Point>, Option<Cell>) {
    loop {
        let corners = any(random);
        if Extent::of(&corners).is_some_and(|extent| extent.span() > DEGREE) {
            continue;
        }
        match plain::search(&corners, WORK) {
            Outcome::Chosen(cell) => return (corners, Some(cell)),
            Outcome::NoCell => return (corners, None),
            Outcome::GaveUp => {}
        }
    }
}

/// Such a unit that is not crossed, so that coding it has to search.
pub fn simple(random: &mut Random) -> (Vec<Point>, Option<Cell>) {
    loop {
        let (corners, cell) = small(random);
        if crossed(&corners).is_none() {
            return (corners, cell);
        }
    }
}

/// Whether the plain search ends on the unit quickly.
pub fn search_ends(corners: &[Point]) -> bool {
    plain::search(corners, WORK) != Outcome::GaveUp
}

/// A unit of any sort in the ranges of latitude and longitude.
pub fn any(random: &mut Random) -> Vec<Point> {
    let corners = match random.below(10) {
        0..=1 => cell_unit(random),
        2..=3 => cut_unit(random),
        4 => spiked(random),
        _ => placed(random),
    };
    listed(random, corners)
}

/// The corners from any of them in either direction, one perhaps repeated.
pub fn listed(random: &mut Random, mut corners: Vec<Point>) -> Vec<Point> {
    let start = random.index(corners.len());
    corners.rotate_left(start);
    if random.one_in(2) {
        corners.reverse();
    }
    if random.one_in(6) {
        let at = random.index(corners.len());
        corners.insert(at, corners[at]);
    }
    corners.into_iter().map(in_range).collect()
}

fn in_range(p: Point) -> Point {
    Point { lat: p.lat.clamp(0, LAT_END), lon: p.lon.clamp(0, LON_END) }
}

/// A place in one direction that is often a border of some cells.
pub fn border(random: &mut Random, end: i64) -> i64 {
    let degree = random.between(0, end / DEGREE - 1) * DEGREE;
    let minute = degree + random.between(0, 59) * MINUTE;
    let cut = random.pick(&[32, 48, 56, 60]);
    match random.below(8) {
        0 => 0,
        1 => end,
        2 => degree,
        3 => minute,
        4 => degree + cut * MINUTE,
        5 => minute + cut * SECOND,
        6 => random.between(0, end / STEP) * STEP,
        _ => random.between(0, end),
    }
}

/// A length to draw a unit in, about 1 to 5 cells of some level, mostly a
/// fine one.
fn reach(random: &mut Random) -> i64 {
    let level = 9 + random.below(19).max(random.below(19)) as u8;
    let cells = size(level) * random.between(1, 5);
    let length = match random.below(3) {
        0 => cells,
        1 => cells + random.between(-33, 33),
        _ => random.between(cells / 2, cells),
    };
    length.clamp(1, DEGREE)
}

/// Where a unit of this length starts so that it lies at a border.
pub fn base(random: &mut Random, length: i64, end: i64) -> i64 {
    let border = border(random, end);
    let before = match random.below(4) {
        0 => 0,
        1 => length,
        2 => random.between(0, length / STEP) * STEP,
        _ => random.between(0, length),
    };
    (border - before).clamp(0, end - length)
}

/// A shape drawn in a box, and the box set somewhere.
fn placed(random: &mut Random) -> Vec<Point> {
    let height = reach(random);
    let width = match random.below(3) {
        0 => height,
        1 => (height + random.between(-40, 40)).clamp(1, DEGREE),
        _ => reach(random),
    };
    let south = base(random, height, LAT_END);
    let west = base(random, width, LON_END);
    let shape = drawn(random, height, width);
    // Sometimes every corner is a corner of cells, so that edges touch them.
    let step = if random.one_in(4) { STEP } else { 1 };
    let set = |p: Point| at((south + p.lat) / step * step, (west + p.lon) / step * step);
    shape.into_iter().map(set).collect()
}

fn drawn(random: &mut Random, height: i64, width: i64) -> Vec<Point> {
    let shape = match random.below(13) {
        0 => rectangle(height, width),
        1 => house(random, height, width),
        2 => points(random, 3, height, width),
        3 => sliver(random, height, width),
        4 => notched(random, height, width),
        5 => angled(random, height, width),
        6 => bow_tie(height, width),
        7 => collinear(random, height, width),
        8 => {
            let teeth = random.between(2, 8);
            comb(random, teeth, height, width)
        }
        9 => {
            let count = random.index(10) + 3;
            star(random, count, height, width)
        }
        10 => stairs(random, height, width),
        11 if random.one_in(5) => {
            let count = random.index(200) + 10;
            let many = random.pick(&[points, star]);
            many(random, count, height, width)
        }
        _ => {
            let count = random.index(7) + 3;
            points(random, count, height, width)
        }
    };
    mirrored(random, shape, height, width)
}

/// The shape as it is, or turned over in either direction.
pub fn mirrored(random: &mut Random, shape: Vec<Point>, height: i64, width: i64) -> Vec<Point> {
    let (over, across) = (random.one_in(2), random.one_in(2));
    let turn = |p: Point| Point {
        lat: if over { height - p.lat } else { p.lat },
        lon: if across { width - p.lon } else { p.lon },
    };
    shape.into_iter().map(turn).collect()
}

pub fn at(lat: i64, lon: i64) -> Point {
    Point { lat, lon }
}

pub fn rectangle(height: i64, width: i64) -> Vec<Point> {
    vec![at(0, 0), at(0, width), at(height, width), at(height, 0)]
}

/// A rectangle a little turned or bent.
fn house(random: &mut Random, height: i64, width: i64) -> Vec<Point> {
    let (up, along) = (random.between(0, height / 4), random.between(0, width / 4));
    vec![at(0, along), at(up, width), at(height, width - along), at(height - up, 0)]
}

fn points(random: &mut Random, count: usize, height: i64, width: i64) -> Vec<Point> {
    let one = |_| at(random.between(0, height), random.between(0, width));
    (0..count).map(one).collect()
}

/// A thin strip from corner to corner of the box.
fn sliver(random: &mut Random, height: i64, width: i64) -> Vec<Point> {
    let thick = random.between(0, 100).min(height);
    let mut corners = vec![at(0, 0), at(height - thick, width), at(height, width)];
    if random.one_in(2) {
        corners.push(at(thick, 0));
    }
    corners
}

/// A rectangle with a notch from its north side.
fn notched(random: &mut Random, height: i64, width: i64) -> Vec<Point> {
    let left = random.between(0, width);
    let right = random.between(left, (left + 40).min(width));
    let deep = random.between(0, height);
    let mut corners = rectangle(height, width);
    let bottom = [at(deep, right), at(deep, left)];
    let mouth = [at(height, right), bottom[0], bottom[1], at(height, left)];
    corners.splice(3..3, mouth);
    corners
}

/// An L.
fn angled(random: &mut Random, height: i64, width: i64) -> Vec<Point> {
    let (up, along) = (random.between(0, height), random.between(0, width));
    vec![at(0, 0), at(0, width), at(up, width), at(up, along), at(height, along), at(height, 0)]
}

fn bow_tie(height: i64, width: i64) -> Vec<Point> {
    vec![at(0, 0), at(height, width), at(0, width), at(height, 0)]
}

/// Corners on one line, there and back.
fn collinear(random: &mut Random, height: i64, width: i64) -> Vec<Point> {
    let steps = random.between(1, 4);
    let count = random.index(4) + 3;
    let one = |_| {
        let k = random.between(0, steps);
        at(height / steps * k, width / steps * k)
    };
    (0..count).map(one).collect()
}

/// Teeth that stand on a strip.
pub fn comb(random: &mut Random, teeth: i64, height: i64, width: i64) -> Vec<Point> {
    let strip = random.between(0, height / 2);
    let pitch = width / teeth;
    let mut corners = vec![at(0, teeth * pitch), at(0, 0)];
    for tooth in 0..teeth {
        let west = tooth * pitch;
        corners.push(at(height, west + random.between(0, pitch)));
        corners.push(at(strip, west + random.between(0, pitch)));
    }
    corners
}

/// Stairs that fall from the north-west to the south-east.
fn stairs(random: &mut Random, height: i64, width: i64) -> Vec<Point> {
    let steps = random.between(2, 12);
    let (rise, tread) = (height / steps, width / steps);
    let mut corners = vec![at(0, 0)];
    for step in 0..steps {
        corners.push(at(rise * step, tread * (steps - step)));
        corners.push(at(rise * (step + 1), tread * (steps - step)));
    }
    corners.push(at(rise * steps, 0));
    corners
}

/// Random corners in order around the middle of the box.
pub fn star(random: &mut Random, count: usize, height: i64, width: i64) -> Vec<Point> {
    let mut corners = points(random, count, height, width);
    // Twice the way from a middle that no corner is level with, so that the
    // order is a whole one.
    let away = |p: &Point| at(2 * p.lat - (height | 1), 2 * p.lon - (width | 1));
    corners.sort_by(|p, q| {
        let (p, q) = (away(p), away(q));
        let turn = p.lon * q.lat - q.lon * p.lat;
        (p.lat < 0).cmp(&(q.lat < 0)).then(0.cmp(&turn))
    });
    corners
}

/// A unit of exactly one cell, or of one a little moved.
fn cell_unit(random: &mut Random) -> Vec<Point> {
    let level = random.between(9, 27) as u8;
    let point =
        at(border(random, LAT_END).min(LAT_END - 1), border(random, LON_END).min(LON_END - 1));
    around(random, &Cell::at(level, point))
}

/// A unit around a cell that is cut at 60 minutes or 60 seconds.
fn cut_unit(random: &mut Random) -> Vec<Point> {
    let level = random.pick(&[10, 11, 12, 16, 17, 18]);
    let ground = if level <= 15 { DEGREE } else { MINUTE };
    let lat = random.between(1, LAT_END / ground) * ground - 1;
    let lon = random.between(1, LON_END / ground) * ground - 1;
    // Sometimes cut in one direction only.
    let back = random.pick(&[0, 0, 0, 4, 8, 16]) * (ground / 60);
    let point = if random.one_in(2) { at(lat - back, lon) } else { at(lat, lon - back) };
    around(random, &Cell::at(level, point))
}

/// The cell's own corners, or near ones, perhaps with a notch or a spike.
fn around(random: &mut Random, cell: &Cell) -> Vec<Point> {
    let mut corners = cell.corners().to_vec();
    let most = random.pick(&[0, 0, 1, 33, size(cell.level) / 2, size(cell.level)]);
    let room = |length: i64| DEGREE - length;
    let lat_most = most.min(room(cell.lat.to - cell.lat.from));
    let lon_most = most.min(room(cell.lon.to - cell.lon.from));
    corners[2].lat += random.between(0, lat_most);
    corners[3].lat = corners[2].lat;
    corners[1].lon += random.between(0, lon_most);
    corners[2].lon = corners[1].lon;
    match random.below(4) {
        0 => {
            let moved = random.index(4);
            corners[moved].lat += random.between(-33, 33);
            corners[moved].lon += random.between(-33, 33);
        }
        1 => dent(random, &mut corners),
        _ => {}
    }
    corners
}

/// Breaks one side in its middle, inward or outward.
fn dent(random: &mut Random, corners: &mut Vec<Point>) {
    let side = random.index(corners.len());
    let (a, b) = (corners[side], corners[(side + 1) % corners.len()]);
    let middle = at((a.lat + b.lat) / 2, (a.lon + b.lon) / 2);
    let deep = random.between(-40, 40);
    let moved = if a.lat == b.lat {
        at(middle.lat + deep, middle.lon)
    } else {
        at(middle.lat, middle.lon + deep)
    };
    corners.insert(side + 1, moved);
}

/// A cell with a long spike from one side, so that a span is near 31.
fn spiked(random: &mut Random) -> Vec<Point> {
    let level = random.between(15, FINEST.into()) as u8;
    let point = at(
        random.between(0, LAT_END / DEGREE - 2) * DEGREE + random.between(0, DEGREE),
        random.between(0, LON_END / DEGREE - 2) * DEGREE + random.between(0, DEGREE),
    );
    let cell = Cell::at(level, point);
    let centre = cell.centre();
    let cells = random.pick(&[15, 29, 30, 31, 32]);
    let long = size(level) * cells + random.between(-33, 33);
    let side = random.index(4);
    let mut corners = cell.corners().to_vec();
    let tip = match side {
        0 => at(centre.lat - long, centre.lon),
        1 => at(centre.lat, centre.lon + long),
        2 => at(centre.lat + long, centre.lon),
        _ => at(centre.lat, centre.lon - long),
    };
    corners.insert(side + 1, tip);
    corners
}
