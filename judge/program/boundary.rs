//! A unit's boundary: its edges and extents, and the rules Meeting, Odd count
//! and Inside, word for word as the document has them. They hold for all
//! numbers up to 4,294,967,295, also past the ranges: products are of 128 bits.

use super::grid::{corners, Cell, Point, Stretch};

#[derive(Clone, Copy, Debug)]
pub struct Edge {
    pub a: Point,
    pub b: Point,
}

/// Least and greatest latitude and longitude.
#[derive(Clone, Copy, Debug)]
pub struct Extent {
    pub south: i64,
    pub north: i64,
    pub west: i64,
    pub east: i64,
}

impl Extent {
    /// None for no corners at all.
    pub fn of(corners: &[Point]) -> Option<Extent> {
        Some(Extent {
            south: corners.iter().map(|c| c.lat).min()?,
            north: corners.iter().map(|c| c.lat).max()?,
            west: corners.iter().map(|c| c.lon).min()?,
            east: corners.iter().map(|c| c.lon).max()?,
        })
    }

    /// The larger of the two extents.
    pub fn span(&self) -> i64 {
        (self.north - self.south).max(self.east - self.west)
    }
}

/// The edges of a boundary, the last corner joined to the first; edges of no
/// length are left out.
pub fn edges(corners: &[Point]) -> Vec<Edge> {
    let next = corners.iter().cycle().skip(1);
    let pairs = corners.iter().zip(next);
    pairs.filter(|(a, b)| a != b).map(|(&a, &b)| Edge { a, b }).collect()
}

fn product(a: i64, b: i64) -> i128 {
    i128::from(a) * i128::from(b)
}

/// Above 0 on one side of the edge's line, below 0 on the other, 0 on it.
pub fn side(edge: &Edge, p: Point) -> i128 {
    product(edge.b.lon - edge.a.lon, p.lat - edge.a.lat)
        - product(edge.b.lat - edge.a.lat, p.lon - edge.a.lon)
}

/// Meeting: the edge does not miss the cell's open inside.
pub fn meets(edge: &Edge, cell: &Cell) -> bool {
    meets_rectangle(edge, cell.lat, cell.lon)
}

/// Meeting with the sides of any rectangle in place of a cell's, also sides in
/// the wrong order.
pub fn meets_rectangle(edge: &Edge, lat: Stretch, lon: Stretch) -> bool {
    let (a, b) = (edge.a, edge.b);
    let misses_beside = (a.lon <= lon.from && b.lon <= lon.from)
        || (a.lon >= lon.to && b.lon >= lon.to)
        || (a.lat <= lat.from && b.lat <= lat.from)
        || (a.lat >= lat.to && b.lat >= lat.to);
    if misses_beside {
        return false;
    }
    let sides = corners(lat, lon).map(|corner| side(edge, corner));
    // The line itself counts for either side.
    !(sides.iter().all(|&s| s >= 0) || sides.iter().all(|&s| s <= 0))
}

/// Whether Odd count counts the edge: exactly one end at or below the point's
/// latitude, and the crossing strictly east of the point.
pub fn counts(edge: &Edge, p: Point) -> bool {
    let (low, high) = match (edge.a.lat <= p.lat, edge.b.lat <= p.lat) {
        (true, false) => (edge.a, edge.b),
        (false, true) => (edge.b, edge.a),
        _ => return false,
    };
    // Both sides of "crossing east of p" times high.lat - low.lat, above 0.
    product(high.lon - low.lon, p.lat - low.lat) > product(p.lon - low.lon, high.lat - low.lat)
}

/// Odd count.
pub fn point_inside(edges: &[Edge], p: Point) -> bool {
    edges.iter().filter(|edge| counts(edge, p)).count() % 2 == 1
}

/// Inside: no edge meets the cell and its centre is inside.
pub fn cell_inside(edges: &[Edge], cell: &Cell) -> bool {
    !edges.iter().any(|edge| meets(edge, cell)) && point_inside(edges, cell.centre())
}
