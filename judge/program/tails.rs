//! How many units of requests take the step to a coarser level that request 2 of
//! document 02 gives to long tails.

use std::io::{self, BufRead, Write};

use super::boundary::Extent;
use super::code::{letter_value, LENGTH};
use super::grid::Point;
use super::lines::{Line, Lines};
use super::trials::{request_of, Request};
use super::unit::{code, scale, Road, Unit};

/// The scales that codes have.
const LEVELS: std::ops::RangeInclusive<u8> = 14..=27;

/// Counts the units of `plain` and `quick` requests that coding accepts, by the L of
/// document 01, and those among them whose code has a coarser scale.
pub fn tails(input: impl BufRead, output: &mut impl Write) -> io::Result<()> {
    let mut lines = Lines::new(input);
    let mut counts = [[0u64; 2]; 28];
    while let Some(line) = lines.next()? {
        let Line::Whole(bytes) = line else { continue };
        let Some(Request::Code { unit, .. }) = request_of(bytes) else { continue };
        if let Some((level, coarser)) = levels(&unit) {
            counts[usize::from(level)][usize::from(coarser)] += 1;
        }
    }
    for level in LEVELS {
        show(&format!("L {level}"), &counts[usize::from(level)], output)?;
    }
    let all = |coarser: usize| counts.iter().map(|both| both[coarser]).sum();
    show("all", &[all(0), all(1)], output)?;
    output.flush()
}

/// L and whether the code's own scale is coarser; none for a refused unit. Both
/// roads accept the same units, so the quick one answers for either.
pub fn levels(unit: &Unit) -> Option<(u8, bool)> {
    let mut room = [0; LENGTH];
    code(unit, &mut room, Road::Quick).ok()?;
    let corners: Vec<Point> =
        unit.coordinates.chunks(2).map(|c| Point { lat: c[0].into(), lon: c[1].into() }).collect();
    let level = scale(Extent::of(&corners)?.span());
    Some((level, letter_value(room[11])? < level.into()))
}

fn show(name: &str, [same, coarser]: &[u64; 2], output: &mut impl Write) -> io::Result<()> {
    writeln!(output, "{name}: {} units, {coarser} of them a level coarser", same + coarser)
}
