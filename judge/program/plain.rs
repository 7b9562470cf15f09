//! The brute-force search for the chosen cell: every cell of every level over
//! the unit's extent, coarsest level first, west to east, south to north.

use super::boundary::{cell_inside, edges, Extent};
use super::grid::{stretches, Cell, Point, COARSEST, FINEST, LAT_END, LON_END};

#[derive(Debug, PartialEq, Eq)]
pub enum Outcome {
    Chosen(Cell),
    NoCell,
    /// More work than the limit allows.
    GaveUp,
}

/// Gives up once the tests of one cell against one edge pass the limit.
pub fn search(corners: &[Point], limit: u64) -> Outcome {
    let Some(extent) = Extent::of(corners) else {
        return Outcome::NoCell;
    };
    let edges = edges(corners);
    let mut left = limit;
    for level in COARSEST..=FINEST {
        let columns = stretches(level, extent.west, extent.east, LON_END);
        for lon in columns {
            for lat in stretches(level, extent.south, extent.north, LAT_END) {
                if left < edges.len() as u64 {
                    return Outcome::GaveUp;
                }
                left -= edges.len() as u64;
                let cell = Cell { level, lat, lon };
                if cell_inside(&edges, &cell) {
                    return Outcome::Chosen(cell);
                }
            }
        }
    }
    Outcome::NoCell
}

/// The chosen cell, however long it takes.
pub fn chosen(corners: &[Point]) -> Option<Cell> {
    match search(corners, u64::MAX) {
        Outcome::Chosen(cell) => Some(cell),
        _ => None,
    }
}
