//! Random units whose chosen cell is small beside them: long and thin ones, and
//! large ones with many corners.

use super::random::Random;
use super::shapes::{at, base, comb, listed, mirrored, star};
use crate::program::boundary::Extent;
use crate::program::crossed::crossed;
use crate::program::grid::{size, Point, DEGREE, FINEST, LAT_END, LON_END, STEP};
use crate::program::quick;

/// More sizes of the chosen cell than this go into the larger extent.
const MANY: i64 = 32;

/// A unit that passes checks 2 to 5 and 31, whose chosen cell goes more than 32 times
/// into its larger extent, or that has none and is longer than 32 of the
/// smallest cells.
pub fn far(random: &mut Random) -> Vec<Point> {
    loop {
        let corners = any(random);
        let span = Extent::of(&corners).map_or(0, |extent| extent.span());
        let fine = quick::chosen(&corners).map_or(STEP, |cell| size(cell.level));
        if MANY * fine < span && span <= DEGREE && crossed(&corners).is_none() {
            return corners;
        }
    }
}

fn any(random: &mut Random) -> Vec<Point> {
    // About so long is the unit, and about so thick a long one.
    let thick = size(random.between(12, FINEST.into()) as u8) * random.between(2, 8) / 2;
    let length = (thick * random.between(16, 128)).min(DEGREE);
    let height = length / random.between(1, 20);
    let shape = match random.below(8) {
        0..=3 => band(&winding(random, height, length), thick.min(length / 20), 0),
        4..=5 => {
            let thick = thick.min(length / 20);
            band(&stairs(random, height, length), thick, thick)
        }
        6 => {
            let teeth = random.between(20, 60);
            comb(random, teeth, height, length)
        }
        _ => {
            let most = random.pick(&[60, 60, 60, 1_000]);
            let count = random.between(30, most) as usize;
            star(random, count, length, length)
        }
    };
    let corners = placed(random, shape);
    listed(random, corners)
}

/// The shape turned in some way and set somewhere, sometimes with every corner
/// at a corner of cells.
fn placed(random: &mut Random, mut shape: Vec<Point>) -> Vec<Point> {
    if random.one_in(2) {
        shape = shape.into_iter().map(|p| at(p.lon, p.lat)).collect();
    }
    let height = shape.iter().map(|p| p.lat).max().unwrap_or(0);
    let width = shape.iter().map(|p| p.lon).max().unwrap_or(0);
    let south = base(random, height, LAT_END);
    let west = base(random, width, LON_END);
    let step = random.pick(&[1, 1, 1, STEP]);
    let set = |p: Point| at((south + p.lat) / step * step, (west + p.lon) / step * step);
    mirrored(random, shape, height, width).into_iter().map(set).collect()
}

/// A path from west to east with a random rise or fall, never steep, at each
/// of its corners.
fn winding(random: &mut Random, height: i64, width: i64) -> Vec<Point> {
    let most = random.pick(&[1, 3, 20, 60, 60, 300]);
    let steps = random.between(1, most).min(width);
    let mut lat = random.between(0, height);
    let mut path = Vec::new();
    for step in 0..=steps {
        path.push(at(lat, width * step / steps));
        let rise = width / steps;
        lat = (lat + random.between(-rise, rise)).clamp(0, height);
    }
    path
}

/// A path that goes east and north in turn.
fn stairs(random: &mut Random, height: i64, width: i64) -> Vec<Point> {
    let steps = random.between(2, 60);
    let (rise, tread) = (height / steps, width / steps);
    let step = |k: i64| [at(rise * k, tread * k), at(rise * k, tread * (k + 1))];
    (0..steps).flat_map(step).collect()
}

/// The ground from a path to the same path so much further north and west.
fn band(path: &[Point], north: i64, west: i64) -> Vec<Point> {
    let there = path.iter().map(|p| at(p.lat, p.lon + west));
    let back = path.iter().rev().map(|p| at(p.lat + north, p.lon));
    there.chain(back).collect()
}
