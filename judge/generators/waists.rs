//! Random rings of up to 1,024 corners with a waist, at which two edges far apart
//! in the list cross, touch, or just miss each other. Without the waist a ring is
//! simple, so that nearly always the edges there are the only ones that meet.

use super::random::Random;
use super::shapes::at;
use crate::program::grid::{Point, DEGREE};

/// How the two paths of a waist lie.
#[derive(Clone, Copy)]
enum Waist {
    Crossing,
    /// A corner of the upper path lies below the lower one, on it or above it.
    Corner(i64),
    /// The same of a whole edge.
    Edge(i64),
    /// Both paths have the corner.
    Pinch,
    Apart,
}

/// A ring that is crossed at its waist.
pub fn crossed_waist(random: &mut Random) -> Vec<Point> {
    let below = random.between(-3, -1);
    let waist = random.pick(&[
        Waist::Crossing,
        Waist::Crossing,
        Waist::Crossing,
        Waist::Corner(0),
        Waist::Corner(0),
        Waist::Corner(below),
        Waist::Edge(0),
        Waist::Edge(below),
        Waist::Pinch,
    ]);
    ring(random, waist)
}

/// A ring whose paths come near each other, often within 1 u.
pub fn narrow_waist(random: &mut Random) -> Vec<Point> {
    let above = random.pick(&[1, 1, 1, 2, 33]);
    let waist = random.pick(&[Waist::Apart, Waist::Corner(above), Waist::Edge(above)]);
    ring(random, waist)
}

/// How many corners: rarely many, often as many as some blocks of edges have, or
/// one more or fewer.
fn count(random: &mut Random) -> usize {
    let block = random.pick(&[8, 16, 32, 64]) + random.between(-1, 1);
    let count = match random.below(40) {
        0 => random.pick(&[1_021, 1_022, 1_023, 1_024, 1_024]),
        1 => random.between(65, 1_024),
        2..=9 => block,
        10..=30 => random.between(33, 80),
        _ => random.between(8, 40),
    };
    count as usize
}

/// The upper path from west to east, a chain around the eastern lobe, the lower
/// path back and a chain around the western lobe.
fn ring(random: &mut Random, waist: Waist) -> Vec<Point> {
    let count = count(random);
    let body = count - 4 - inner(waist);
    let (east, start) = spread(random, body, count);
    let west = body - east;
    // A corner of a chain lies this much below or above the one before.
    let most = random.pick(&[1, 3, 40, DEGREE / 4]).min(DEGREE / 4 / (body as i64 + 2));
    let rise = random.between(1, most);
    let (east_rise, west_rise) = (rise * (east as i64 + 1), rise * (west as i64 + 1));
    let (upper, lower) = paths(random, waist, west_rise, east_rise);
    let most = 4 * (east_rise + west_rise);
    let reach = random.pick(&[1, rise, most / 4, most]).min(DEGREE / 3);
    let around = chain(random, upper[upper.len() - 1], lower[0], east, reach);
    let back = chain(random, lower[lower.len() - 1], upper[0], west, -reach);
    let mut corners = [upper, around, lower, back].concat();
    corners.rotate_right(start);
    corners
}

/// How many of the chains' corners are the eastern one's, and the place at which
/// the upper path starts: both anywhere, so that a pair of edges has any place in
/// its blocks, or both at an end.
fn spread(random: &mut Random, body: usize, count: usize) -> (usize, usize) {
    if !random.one_in(3) {
        return (random.index(body + 1), random.index(count));
    }
    let east = random.pick(&[0, 0, 1, body - 1, body]);
    let west = body - east;
    // From west + 1 the lower edge is the closing one.
    (east, random.pick(&[0, 1, west, west + 1, west + 1, west + 2, count - 2, count - 1]))
}

/// How many corners the paths have besides their ends.
fn inner(waist: Waist) -> usize {
    match waist {
        Waist::Crossing | Waist::Apart => 0,
        Waist::Corner(_) => 1,
        Waist::Edge(_) | Waist::Pinch => 2,
    }
}

/// The upper path from west to east, whose ends lie so much above the lower one's,
/// and the lower path from east to west.
fn paths(random: &mut Random, waist: Waist, west: i64, east: i64) -> (Vec<Point>, Vec<Point>) {
    // Not much thinner than high, so that the search ends soon.
    let width = random.between(3 + (west + east) / 8, (west + east).max(6));
    let (left, right) = (random.between(1, width - 1), random.between(1, width - 1));
    let (left, right) = (left.min(right), left.max(right));
    let (start, end) = (at(west, 0), at(east, width));
    let lower = vec![at(0, width), at(0, 0)];
    match waist {
        Waist::Crossing => (vec![start, at(-east, width)], lower),
        Waist::Apart => (vec![start, end], lower),
        Waist::Corner(above) => (vec![start, at(above, left), end], lower),
        Waist::Edge(above) => (vec![start, at(above, left), at(above, right), end], lower),
        Waist::Pinch => {
            let down = random.between(0, 3);
            let lower = vec![at(-down, width), at(0, left), at(-down, 0)];
            (vec![start, at(0, left), end], lower)
        }
    }
}

/// The corners between two ends of a lobe, each strictly above or below the one
/// before, and none beyond the ends toward the waist.
fn chain(random: &mut Random, from: Point, to: Point, count: usize, reach: i64) -> Vec<Point> {
    let steps = count as i64 + 1;
    let uneven = random.pick(&[0, reach.abs() / 8, reach.abs()]);
    let corner = |step: i64| {
        let near = random.between(0, uneven) * reach.signum();
        at(from.lat + (to.lat - from.lat) * step / steps, from.lon + reach - near)
    };
    (1..steps).map(corner).collect()
}
