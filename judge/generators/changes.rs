//! Pairs of listing lines for the same ground: the second comes from the first
//! by a random sequence of the five changes.

use std::io::{self, Write};

use super::crossing::{small, small_crossed};
use super::random::Random;
use super::shapes;
use super::tails::tail_unit;
use super::units::{coordinates_of, good_number, line_of};
use crate::program::grid::Point;

const CORNERS_MAX: usize = 1_024;

/// Prints `count` pairs.
pub fn changes(seed: u64, count: u64, output: &mut impl Write) -> io::Result<()> {
    let mut random = Random::new(seed);
    for _ in 0..count {
        let (kind, number) = good_number(&mut random);
        let (first, second) = pair(&mut random);
        for corners in [first, second] {
            output.write_all(&line_of(kind, number, &coordinates_of(&corners)))?;
            output.write_all(b"\n")?;
        }
    }
    output.flush()
}

/// A boundary, of four one crossed and one with a long tail, and the same ground
/// after some changes.
pub fn pair(random: &mut Random) -> (Vec<Point>, Vec<Point>) {
    let mut first = match random.below(4) {
        0 => small_crossed(random),
        1 => small(random, tail_unit),
        _ => shapes::simple(random).0,
    };
    // Sometimes the first is a changed one already, so that there is more to undo.
    if random.one_in(3) {
        change_often(random, &mut first);
    }
    let mut second = first.clone();
    change_often(random, &mut second);
    (first, second)
}

/// Only the last list needs 3 corners; on the way there may be fewer.
pub fn change_often(random: &mut Random, corners: &mut Vec<Point>) {
    for _ in 0..random.between(1, 12) {
        change(random, corners);
    }
    // Rarely up to as many corners as there may be.
    let most = random.pick(&[100, 500, CORNERS_MAX - 1, CORNERS_MAX]);
    let least = if random.one_in(60) { most } else { 3 };
    while corners.len() < least {
        set_on_edge(random, corners);
        repeat_corner(random, corners);
    }
}

fn change(random: &mut Random, corners: &mut Vec<Point>) {
    match random.below(7) {
        0 => {
            let start = random.index(corners.len());
            corners.rotate_left(start);
        }
        1 => corners.reverse(),
        2 => repeat_corner(random, corners),
        3..=4 => set_on_edge(random, corners),
        _ => take_out(random, corners),
    }
}

pub fn repeat_corner(random: &mut Random, corners: &mut Vec<Point>) {
    if corners.len() < CORNERS_MAX {
        let at = random.index(corners.len());
        corners.insert(at, corners[at]);
    }
}

/// Sets a corner on an edge, where a whole point lies between its ends.
pub fn set_on_edge(random: &mut Random, corners: &mut Vec<Point>) {
    let at = random.index(corners.len());
    let (a, b) = (corners[at], corners[(at + 1) % corners.len()]);
    let (up, along) = (b.lat - a.lat, b.lon - a.lon);
    let steps = common(up.abs(), along.abs());
    if steps < 2 || corners.len() >= CORNERS_MAX {
        return;
    }
    let step = random.between(1, steps - 1);
    let set = Point { lat: a.lat + up / steps * step, lon: a.lon + along / steps * step };
    corners.insert(at + 1, set);
}

/// The greatest common divisor.
fn common(a: i64, b: i64) -> i64 {
    if b == 0 {
        a
    } else {
        common(b, a % b)
    }
}

/// Undoes a repeated corner or one set on an edge, whoever put it there.
fn take_out(random: &mut Random, corners: &mut Vec<Point>) {
    let count = corners.len();
    let spare = |&at: &usize| {
        let (before, after) = (corners[(at + count - 1) % count], corners[(at + 1) % count]);
        count > 1 && lies_on(corners[at], before, after)
    };
    let spares: Vec<usize> = (0..count).filter(spare).collect();
    if !spares.is_empty() {
        corners.remove(random.pick(&spares));
    }
}

/// Whether a point lies on the way from a to b, ends included.
fn lies_on(p: Point, a: Point, b: Point) -> bool {
    let within = |p: i64, a: i64, b: i64| a.min(b) <= p && p <= a.max(b);
    (p.lat - a.lat) * (b.lon - a.lon) == (p.lon - a.lon) * (b.lat - a.lat)
        && within(p.lat, a.lat, b.lat)
        && within(p.lon, a.lon, b.lon)
}
