//! Whether a boundary is simple: no two edges have a point in common but neighbours their corner. It
//! tries every pair of edges, in whole numbers.

use std::cmp::Ordering;

use crate::plan::Corner;

pub fn is_simple(corners: &[Corner]) -> bool {
    let count = corners.len();
    let edge = |at: usize| (corners[at], corners[(at + 1) % count]);
    (0..count).all(|first| {
        turns_on(edge(first), edge((first + 1) % count))
            && (first + 2..count)
                .filter(|&second| (second + 1) % count != first)
                .all(|second| !touch(edge(first), edge(second)))
    })
}

/// Twice the area of the triangle: 0 for three corners on a line. Extents are below 2^23.
fn area(a: Corner, b: Corner, c: Corner) -> i64 {
    (b.lon - a.lon) * (c.lat - a.lat) - (b.lat - a.lat) * (c.lon - a.lon)
}

/// The second edge starts where the first ends and does not go back over it.
fn turns_on((a, b): (Corner, Corner), (_, c): (Corner, Corner)) -> bool {
    let onward = (b.lat - a.lat) * (c.lat - b.lat) + (b.lon - a.lon) * (c.lon - b.lon);
    a != b && b != c && (area(a, b, c) != 0 || onward > 0)
}

fn touch((a, b): (Corner, Corner), (c, d): (Corner, Corner)) -> bool {
    let apart = |a: i64, b: i64, c: i64, d: i64| a.max(b) < c.min(d) || c.max(d) < a.min(b);
    if apart(a.lat, b.lat, c.lat, d.lat) || apart(a.lon, b.lon, c.lon, d.lon) {
        return false;
    }
    // Each edge has the other's ends on both sides of its line, or one of them on it.
    parted(area(a, b, c), area(a, b, d)) && parted(area(c, d, a), area(c, d, b))
}

fn parted(one: i64, other: i64) -> bool {
    one.cmp(&0) != other.cmp(&0) || one.cmp(&0) == Ordering::Equal
}
