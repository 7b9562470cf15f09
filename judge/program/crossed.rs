//! Crossed boundaries, word for word as request 1 of document 02 has them: every
//! pair of edges is asked whether it shares a point other than the corner at
//! which one follows the other. Products are of 128 bits.

use super::boundary::{side, Edge};
use super::grid::Point;

/// An edge and the place of the corner where it starts, in the caller's list.
struct Placed {
    place: usize,
    edge: Edge,
}

/// The place that refusal 31 names, where the first edge of the first pair starts;
/// none where the boundary is not crossed.
pub fn crossed(corners: &[Point]) -> Option<usize> {
    first_pair(corners).map(|(first, _)| first)
}

/// The places of the first pair that meets, by first edge, then second.
pub fn first_pair(corners: &[Point]) -> Option<(usize, usize)> {
    let edges = placed_edges(corners);
    for first in 0..edges.len() {
        for second in first + 1..edges.len() {
            if pair_meets(&edges, first, second) {
                return Some((edges[first].place, edges[second].place));
            }
        }
    }
    None
}

/// The last corner joined to the first; edges of no length are dropped.
fn placed_edges(corners: &[Point]) -> Vec<Placed> {
    let next = corners.iter().cycle().skip(1);
    let all = corners.iter().zip(next).enumerate();
    let placed = all.map(|(place, (&a, &b))| Placed { place, edge: Edge { a, b } });
    placed.filter(|placed| placed.edge.a != placed.edge.b).collect()
}

/// Whether two edges share a point other than the corner at which one follows
/// the other. Of two edges each follows the other.
fn pair_meets(edges: &[Placed], first: usize, second: usize) -> bool {
    let follows = |one: usize, other: usize| (other + 1) % edges.len() == one;
    let (e, f) = (&edges[first].edge, &edges[second].edge);
    match (follows(second, first), follows(first, second)) {
        (false, false) => share_a_point(e, f),
        (second_follows, first_follows) => {
            (second_follows && folds_back(e, f)) || (first_follows && folds_back(f, e))
        }
    }
}

/// For edges of which neither follows the other: their extents overlap in both
/// directions, and neither has both ends strictly on one side of the other's
/// line.
fn share_a_point(e: &Edge, f: &Edge) -> bool {
    overlap([e.a.lat, e.b.lat], [f.a.lat, f.b.lat])
        && overlap([e.a.lon, e.b.lon], [f.a.lon, f.b.lon])
        && !strictly_on_one_side(e, f)
        && !strictly_on_one_side(f, e)
}

/// Whether two stretches, their ends in any order, have a point in common, ends
/// included.
fn overlap(one: [i64; 2], other: [i64; 2]) -> bool {
    let least = |ends: [i64; 2]| ends[0].min(ends[1]);
    let greatest = |ends: [i64; 2]| ends[0].max(ends[1]);
    least(one) <= greatest(other) && least(other) <= greatest(one)
}

/// Whether the first edge has both ends strictly on one side of the other's
/// line.
fn strictly_on_one_side(edge: &Edge, line: &Edge) -> bool {
    let (a, b) = (side(line, edge.a), side(line, edge.b));
    (a > 0 && b > 0) || (a < 0 && b < 0)
}

/// For an edge AB and the edge BC that follows it: A, B and C lie on one line
/// with A and C on the same side of B.
fn folds_back(before: &Edge, after: &Edge) -> bool {
    let (a, b, c) = (before.a, before.b, after.b);
    let way = |to: Point| [(to.lat - b.lat).signum(), (to.lon - b.lon).signum()];
    side(before, c) == 0 && way(a) == way(c)
}
