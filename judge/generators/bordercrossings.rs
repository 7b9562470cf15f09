//! The fixed units for refusal 31: every way to be crossed with the pair of places
//! that is the first to meet, found by hand, and every way to just miss it.

use super::shapes::at;
use crate::program::grid::{Point, DEGREE, LAT_END, LON_END};

/// The coordinates of a unit, and the places of the first pair of edges that meets.
pub type Crossing = (Vec<i64>, Option<(usize, usize)>);

/// Latitude and longitude alternate; the pair is the first that meets.
const CROSSED: [(&[i64], (usize, usize)); 30] = [
    // Bow-ties, of the first and third edge and of the second and the closing one.
    (&[0, 0, 128, 128, 0, 128, 128, 0], (0, 2)),
    (&[0, 0, 0, 128, 128, 0, 128, 128], (1, 3)),
    // A corner on an edge: the edge first, the corner first, the closing edge.
    (&[0, 0, 0, 256, 128, 256, 0, 128, 128, 0], (0, 2)),
    (&[128, 256, 0, 128, 128, 0, 0, 0, 0, 256], (0, 3)),
    (&[0, 256, 128, 256, 0, 128, 128, 0, 0, 0], (1, 4)),
    // A corner on another edge's end: a ring pinched at a corner, and the same with
    // corners repeated beside the pinch and before it.
    (&[0, 0, 0, 128, 128, 128, 128, 256, 256, 256, 256, 128, 128, 128, 128, 0], (1, 5)),
    (&[0, 0, 0, 128, 128, 128, 128, 128, 128, 256, 256, 256, 256, 128, 128, 128, 128, 0], (1, 6)),
    (
        &[0, 0, 0, 128, 0, 128, 128, 128, 128, 256, 256, 256, 256, 128, 128, 128, 128, 128, 128, 0],
        (2, 6),
    ),
    // The pinch at both ends of the list.
    (&[128, 128, 128, 256, 256, 256, 256, 128, 128, 128, 128, 0, 0, 0, 0, 128], (0, 3)),
    // A spike from a corner, from within an edge, and past a corner and back to it.
    (&[0, 0, 0, 128, 128, 128, 256, 256, 128, 128, 128, 0], (1, 3)),
    (&[0, 0, 0, 128, 128, 128, 128, 64, 256, 64, 128, 64, 128, 0], (2, 4)),
    (&[0, 0, 0, 192, 0, 128, 128, 128, 128, 0], (0, 1)),
    (&[128, 0, 0, 0, 0, 192, 0, 128, 128, 128], (1, 2)),
    // Its tip is the first corner: the closing edge and the first fold back.
    (&[0, 192, 0, 128, 128, 128, 128, 0, 0, 0], (0, 4)),
    (&[0, 192, 0, 192, 0, 128, 128, 128, 128, 0, 0, 0, 0, 192], (1, 5)),
    // Its tip is the last corner.
    (&[0, 128, 128, 128, 128, 0, 0, 0, 0, 192], (0, 3)),
    // Walls without ground: straight, bent, and from the corner of a square.
    (&[0, 0, 0, 128, 0, 256, 0, 128], (0, 2)),
    (&[0, 0, 0, 128, 128, 256, 256, 256, 128, 256, 0, 128], (0, 4)),
    (&[0, 0, 0, 128, 128, 128, 256, 128, 256, 256, 256, 128, 128, 128, 128, 0], (1, 5)),
    // An edge along another: it comes first, its neighbour comes first, the same edge twice.
    (&[0, 192, 0, 64, 128, 64, 128, 0, 0, 0, 0, 256, 128, 256, 128, 192], (0, 4)),
    (&[0, 0, 0, 256, 128, 256, 128, 192, 0, 192, 0, 64, 128, 64, 128, 0], (0, 3)),
    (&[0, 0, 0, 64, 64, 64, 64, 0, 0, 0, 0, 64, 64, 64, 64, 0], (0, 3)),
    // A courtyard reached by a wall, and one that a side closes.
    (
        &[0, 0, 0, 320, 320, 320, 320, 0, 96, 0, 96, 96, 224, 96, 224, 224, 96, 224, 96, 96, 96, 0],
        (3, 9),
    ),
    (&[0, 0, 0, 320, 320, 320, 320, 0, 96, 0, 96, 224, 224, 224, 224, 0], (3, 6)),
    // All corners on one line, three and five.
    (&[0, 0, 0, 64, 0, 128], (0, 2)),
    (&[64, 64, 128, 128, 0, 0, 32, 32, 96, 96], (0, 1)),
    // A, B, A with repeated corners.
    (&[0, 0, 64, 64, 0, 0], (0, 1)),
    (&[0, 0, 0, 0, 64, 64], (1, 2)),
    (&[0, 0, 64, 64, 64, 64], (0, 2)),
    (&[0, 0, 0, 0, 0, 0, 64, 0, 64, 0, 0, 0], (2, 4)),
];

const MISSED: [&[i64]; 17] = [
    // Three corners, and three within 1 u of a line.
    &[0, 0, 0, 128, 128, 0],
    &[0, 0, 0, 0, 0, 128, 0, 128, 128, 0, 128, 0],
    &[0, 0, 0, 4_096, 1, 2_048],
    // All corners equal: no edges.
    &[64, 64, 64, 64, 64, 64, 64, 64],
    // A corner and an edge 1 u beside an edge, a spike 1 u wide, a wall 1 u thick.
    &[0, 0, 0, 256, 128, 256, 1, 128, 128, 0],
    &[0, 0, 0, 256, 128, 256, 128, 192, 1, 192, 1, 64, 128, 64, 128, 0],
    &[0, 0, 0, 128, 128, 128, 128, 65, 256, 64, 128, 64, 128, 0],
    &[0, 0, 0, 256, 1, 256, 1, 1, 128, 1, 128, 0],
    // Two squares with 1 u between the corners at which they would be joined.
    &[0, 0, 0, 128, 128, 128, 128, 256, 256, 256, 256, 128, 129, 127, 128, 0],
    // A courtyard reached by a slit 1 u wide.
    &[0, 0, 0, 320, 320, 320, 320, 0, 97, 0, 97, 96, 224, 96, 224, 224, 96, 224, 96, 0],
    // Edges that go straight on, at every corner of the list's start and end too.
    &[0, 64, 0, 128, 64, 128, 128, 128, 128, 64, 128, 0, 64, 0, 0, 0],
    &[0, 0, 0, 64, 0, 128, 128, 128, 128, 128, 128, 32, 128, 0, 128, 0],
    &[0, 32, 0, 64, 0, 64, 0, 96, 0, 128, 128, 128, 0, 0],
    // Edges on one line that have no point in common.
    &[0, 0, 0, 64, 64, 64, 64, 128, 0, 128, 0, 192, 128, 192, 128, 0],
    // Overlapping extents: side by side, and one that would meet the other if it
    // were longer.
    &[0, 0, 256, 256, 256, 320, 0, 64],
    &[0, 0, 128, 128, 40, 80, 0, 128],
    // As far apart as two edges of one line that an edge of 1 u lies between.
    &[0, 0, 0, 64, 1, 64, 1, 65, 0, 65, 0, 128, 128, 128, 128, 0],
];

/// All of them: the small ones, those at the ends of the ranges, and those with
/// the pair at the borders of blocks of edges.
pub fn crossings() -> Vec<Crossing> {
    let small = CROSSED.iter().map(|(unit, pair)| (unit.to_vec(), Some(*pair)));
    let missed = MISSED.iter().map(|unit| (unit.to_vec(), None));
    small.chain(missed).chain(at_ends()).chain(at_blocks()).collect()
}

/// Units with extents of 1° that end at 90° and 180°: a corner near, on and past
/// the middle of an edge, which is level or slanting.
fn at_ends() -> Vec<Crossing> {
    let (south, west) = (LAT_END - DEGREE, LON_END - DEGREE);
    let (north, east) = (LAT_END, LON_END);
    let half = DEGREE / 2;
    let level =
        |up: i64| vec![south, west, south, east, north, east, south + up, west + half, north, west];
    let slanting =
        |up: i64| vec![south, west, north, east, north, west, south + half + up, west + half];
    vec![
        (vec![south, west, north, east, south, east, north, west], Some((0, 2))),
        (level(1), None),
        (level(0), Some((0, 2))),
        (slanting(1), None),
        (slanting(0), Some((0, 2))),
        (slanting(-1), Some((0, 2))),
    ]
}

/// The number of corners, and the pair of edges that is to meet: at the ends of
/// blocks of 4, 8, 16 and 64 edges and of the list, near each other and far apart.
const BLOCKS: [(usize, usize, usize); 33] = [
    (5, 0, 3),
    (5, 1, 4),
    (5, 2, 4),
    (8, 0, 6),
    (8, 1, 7),
    (8, 5, 7),
    (8, 3, 5),
    (9, 3, 8),
    (9, 1, 8),
    (9, 6, 8),
    (16, 0, 14),
    (16, 1, 15),
    (16, 7, 9),
    (16, 13, 15),
    (17, 0, 15),
    (17, 1, 16),
    (17, 14, 16),
    (33, 15, 17),
    (33, 15, 31),
    (33, 16, 32),
    (33, 0, 16),
    (65, 0, 63),
    (65, 1, 64),
    (65, 62, 64),
    (65, 63, 2),
    (130, 63, 65),
    (130, 63, 127),
    (130, 64, 128),
    (130, 0, 128),
    (130, 127, 129),
    (1_024, 1_021, 1_023),
    (1_024, 0, 1_022),
    (1_024, 1, 1_023),
];

fn at_blocks() -> Vec<Crossing> {
    let crossed = BLOCKS.iter().map(|&(count, one, other)| {
        (waist(count, one, other), Some((one.min(other), one.max(other))))
    });
    let missed = [16, 65, 1_024].map(|count| (narrow_waist(count), None));
    crossed.chain(missed).collect()
}

/// A ring of so many corners in which just these two edges cross.
fn waist(count: usize, one: usize, other: usize) -> Vec<i64> {
    let east = (other + count - one) % count - 2;
    let west = count - 4 - east;
    let upper = [at(height(west), 800), at(-height(east), 864)];
    ring(&upper, east, west, one)
}

/// A ring of so many corners in which a corner lies 1 u from an edge far from it.
fn narrow_waist(count: usize) -> Vec<i64> {
    let east = count / 2 - 2;
    let west = count - 5 - east;
    let upper = [at(height(west), 800), at(1, 832), at(height(east), 864)];
    ring(&upper, east, west, 1)
}

/// How high a lobe is with so many corners between its ends.
fn height(corners: usize) -> i64 {
    32 * (corners as i64 + 1)
}

/// The upper path from lobe to lobe, so many corners around the eastern lobe, the
/// lower edge back and so many around the western one. The path starts at a place.
fn ring(upper: &[Point], east: usize, west: usize, place: usize) -> Vec<i64> {
    let (start, end) = (upper[0].lat, upper[upper.len() - 1].lat);
    let lobe = |corners: usize, lat: i64| {
        (1..=corners).map(move |k| lat / (corners as i64 + 1) * k as i64)
    };
    let mut corners = upper.to_vec();
    corners.extend(lobe(east, end).rev().map(|lat| at(lat, 1_600)));
    corners.extend([at(0, 864), at(0, 800)]);
    corners.extend(lobe(west, start).map(|lat| at(lat, 0)));
    corners.rotate_right(place);
    corners.iter().flat_map(|p| [p.lat - end.min(0), p.lon]).collect()
}
