//! The fixed units with a long tail, for request 2 of document 02: at the border of
//! the step to a coarser level in each of the four spans, with the scale that the
//! code is to have, by hand.

use super::shapes::at;
use super::tails::{View, Way, WAYS};
use super::units::coordinates_of;
use crate::program::grid::{size, Cell, DEGREE, FINEST, LAT_END, LON_END, MINUTE};

/// The coordinates of a unit, L, and whether the code's scale is one coarser.
pub type Tailed = (Vec<i64>, u8, bool);

/// 39°54'37" and a little more: a spot in either direction at which no cell starts.
const SOMEWHERE: i64 = 294_250_501;

/// All of them: every L that can take the step, and 14, which never does.
pub fn tails() -> Vec<Tailed> {
    let levels = 15..=FINEST;
    levels.flat_map(|level| [at_border(level), at_ends(level)].concat()).chain(coarsest()).collect()
}

fn tailed(cell: &Cell, way: Way, tip: i64, level: u8) -> Tailed {
    let corners = View::of(cell, way, false).spiked(tip);
    (coordinates_of(&corners), level, tip > 30 * size(level))
}

/// A cell of level L with a spike whose tip lies 30 sizes from the reference, and
/// 1 u more: somewhere, where cells are cut, and at the range's ends.
fn at_border(level: u8) -> Vec<Tailed> {
    let ground = if level <= 15 { DEGREE } else { MINUTE };
    let somewhere = at(SOMEWHERE, 2 * SOMEWHERE);
    let cut = at(60 * ground - 1, 120 * ground - 1);
    let mut units = Vec::new();
    for way in WAYS {
        let behind = match way {
            Way::East | Way::North => at(0, 0),
            Way::West | Way::South => at(LAT_END - 1, LON_END - 1),
        };
        for spot in [somewhere, cut, behind] {
            let cell = Cell::at(level, spot);
            units.extend([0, 1].map(|more| tailed(&cell, way, 30 * size(level) + more, level)));
        }
    }
    units
}

/// The two cells at the spot from which the range ends 30 sizes of L ahead, each
/// with a spike whose tip lies at that end.
fn at_ends(level: u8) -> Vec<Tailed> {
    let mut units = Vec::new();
    for way in WAYS {
        let border = way.before_end(30 * size(level));
        for spot in [border - 1, border] {
            let cell = way.cell((level + 1).min(FINEST), spot, SOMEWHERE);
            units.push(tailed(&cell, way, View::of(&cell, way, false).room(), level));
        }
    }
    units
}

/// L 14 with an extent of 1°, where the greatest span is 31.
fn coarsest() -> Vec<Tailed> {
    let one = |way: Way| {
        let cell = Cell::at(14, at(SOMEWHERE, 2 * SOMEWHERE));
        tailed(&cell, way, DEGREE + View::of(&cell, way, false).along.from, 14)
    };
    WAYS.map(one).to_vec()
}
