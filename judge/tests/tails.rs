//! The judge's tests of long tails: the fixed units by hand, what the step to a
//! coarser level leaves, and what the generators make.

use std::collections::BTreeSet;

use super::selftest::coded;
use crate::generators::bordertails;
use crate::generators::random::Random;
use crate::generators::requests::{kinds_of, requests};
use crate::generators::shapes::simple;
use crate::generators::tails::{tail_unit, Way};
use crate::generators::units::line_of;
use crate::program::boundary::Extent;
use crate::program::code::{self, Fields, LENGTH};
use crate::program::grid::{size, Cell, Point, Stretch, DEGREE, LAT_END, LON_END, MINUTE};
use crate::program::quick;
use crate::program::tails::tails;
use crate::program::trials::trials;
use crate::program::unit::scale;

/// What coding made of a unit.
struct Coded {
    extent: Extent,
    cell: Cell,
    fields: Fields,
}

impl Coded {
    /// None for a unit that is refused.
    fn of(corners: &[Point]) -> Option<Coded> {
        let mut room = [0; LENGTH];
        coded(corners, &mut room).ok()?;
        let (fields, _) = code::read(&room).ok()?;
        Some(Coded { extent: Extent::of(corners)?, cell: quick::chosen(corners)?, fields })
    }

    /// The L of document 01.
    fn level(&self) -> u8 {
        scale(self.extent.span())
    }

    fn coarser(&self) -> bool {
        self.fields.scale < self.level().into()
    }

    fn spans(&self) -> [i64; 4] {
        [self.fields.east, self.fields.west, self.fields.south, self.fields.north]
    }

    /// How far the extremes lie from the reference, east, west, south and north.
    fn distances(&self) -> [i64; 4] {
        let (reference, extent) = (self.cell.reference(), &self.extent);
        [
            extent.east - reference.lon,
            reference.lon - extent.west,
            reference.lat - extent.south,
            extent.north - reference.lat,
        ]
    }

    /// The ways in which the extreme is more than 30 cells of L away, so that the
    /// span would be above 31.
    fn beyond(&self) -> Vec<Way> {
        let far = 30 * size(self.level());
        let ways = [Way::East, Way::West, Way::South, Way::North].into_iter().zip(self.distances());
        ways.filter(|&(_, distance)| distance > far).map(|(way, _)| way).collect()
    }

    /// What the document and the rulings say of every code.
    fn good(&self) -> bool {
        let (f, spans) = (&self.fields, self.spans());
        let level = i64::from(self.level());
        let coarser = !self.beyond().is_empty();
        let most = if coarser { 19 } else { 31 };
        f.scale == level - i64::from(coarser)
            && (14..=27).contains(&f.scale)
            && f.east.min(f.north) >= 2
            && spans.iter().all(|span| (1..=most).contains(span))
            && spans.iter().zip(self.distances()).all(|(&span, distance)| {
                // As many whole cells as reach the extreme, and none that need not be.
                let cells = size(f.scale as u8) * (span - 1);
                (distance..distance + size(f.scale as u8)).contains(&cells)
            })
    }
}

/// The fixed units have L and the step as by hand, the same by both roads. Every L
/// from 15 to 27 is at the border in each way, 30 cells and 1 u more; at L 14 the
/// greatest span is 31.
pub fn fixed_good() -> bool {
    let mut borders = BTreeSet::new();
    let good = bordertails::tails().iter().all(|(coordinates, level, coarser)| {
        let corners: Vec<Point> =
            coordinates.chunks_exact(2).map(|c| Point { lat: c[0], lon: c[1] }).collect();
        let line = String::from_utf8_lossy(&line_of('F', 0, coordinates)).into_owned();
        let by = |road: &str| answer(&format!("{road} 20 {line}"));
        let Some(unit) = Coded::of(&corners) else {
            return false;
        };
        let past = unit.distances().map(|distance| distance - 30 * size(*level));
        borders.extend((0..4).map(|way| (*level, way, past[way])));
        let greatest = unit.spans().into_iter().max();
        let as_by_hand = (unit.level(), unit.coarser()) == (*level, *coarser);
        by("plain") == by("quick")
            && unit.good()
            && as_by_hand
            && (*level > 14 || greatest == Some(31))
    });
    good && borders.iter().filter(|met| met.2 == 0 && met.0 > 14).count() == 13 * 4
        && borders.iter().filter(|met| met.2 == 1).count() == 13 * 4
}

/// What the trials answer to a request.
fn answer(request: &str) -> String {
    let mut answer = Vec::new();
    // Writing into a Vec does not fail.
    let _ = trials(request.as_bytes(), &mut answer);
    String::from_utf8_lossy(&answer).trim_end().to_string()
}

/// What holds of all codes holds of random units with a tail, which nearly all have
/// one, and of small units.
pub fn spans_good() -> bool {
    let mut random = Random::new(15);
    let tailed: Vec<Option<Coded>> =
        (0..5_000).map(|_| Coded::of(&tail_unit(&mut random))).collect();
    let small = (0..2_000).filter_map(|_| Coded::of(&simple(&mut random).0));
    tailed.iter().flatten().count() > 4_950
        && tailed.iter().flatten().all(Coded::good)
        && small.into_iter().all(|unit| unit.good())
}

/// Of random units with a tail every L from 15 to 27 takes the step in each way:
/// somewhere, beside cuts, and with the tip or the wide place at the range's ends.
/// All Ls that can have a cut cell chosen have one.
pub fn sorts_good() -> bool {
    let mut random = Random::new(16);
    let mut sorts = BTreeSet::new();
    for _ in 0..20_000 {
        let Some(unit) = Coded::of(&tail_unit(&mut random)) else { continue };
        for way in unit.beyond() {
            let mut met = |sort: &'static str, yes: bool| {
                sorts.extend(yes.then_some((sort, unit.level(), way)));
            };
            met("somewhere", true);
            met("cut", within(&unit.cell) && is_cut(&unit.cell));
            met("beside a cut", within(&unit.cell) && beside_cut(&unit.cell));
            met("tip at an end", at_end(&unit.extent, way));
            met("wide place at an end", at_end(&unit.extent, opposite(way)));
        }
    }
    let count = |sort: &str| sorts.iter().filter(|met| met.0 == sort).count();
    count("somewhere") == 13 * 4
        && count("beside a cut") == 13 * 4
        && count("wide place at an end") == 13 * 4
        // At L 27 a tip at 0 is 31 cells away, and with the wide place 32 are too many.
        && count("tip at an end") == 13 * 4 - 2
        // A cut cell is at least 4 seconds wide, which at L 21 only leaves east and north.
        && count("cut") == 6 * 4 + 2
}

fn opposite(way: Way) -> Way {
    match way {
        Way::East => Way::West,
        Way::West => Way::East,
        Way::South => Way::North,
        Way::North => Way::South,
    }
}

/// Whether the unit reaches the end of its range in a way.
fn at_end(extent: &Extent, way: Way) -> bool {
    match way {
        Way::East => extent.east == LON_END,
        Way::West => extent.west == 0,
        Way::South => extent.south == 0,
        Way::North => extent.north == LAT_END,
    }
}

/// Whether the cell lies at no end of the ranges.
fn within(cell: &Cell) -> bool {
    let inside = |stretch: Stretch, end: i64| 0 < stretch.from && stretch.to < end;
    inside(cell.lat, LAT_END) && inside(cell.lon, LON_END)
}

/// Whether the cell is smaller than its level's nominal size.
fn is_cut(cell: &Cell) -> bool {
    [cell.lat, cell.lon].iter().any(|stretch| stretch.to - stretch.from < size(cell.level))
}

/// Whether a side of the cell lies where cells of its level start afresh.
fn beside_cut(cell: &Cell) -> bool {
    let ground = if cell.level <= 15 { DEGREE } else { MINUTE };
    [cell.lat, cell.lon].iter().any(|s| s.from % ground == 0 || s.to % ground == 0)
}

/// The requests for tails are answered with a code, rarely 7, and never 8; half are
/// asked of each road, about half of each road's take the step, and the quick road
/// answers for the plain one too.
pub fn share_good() -> bool {
    let Some(share) = kinds_of("tail-units") else {
        return false;
    };
    let (mut lines, mut answers) = (Vec::new(), Vec::new());
    // Writing into a Vec does not fail.
    let _ = requests(17, 4_000, &share, &mut lines);
    let _ = trials(lines.as_slice(), &mut answers);
    let answers = String::from_utf8_lossy(&answers).into_owned();
    let accepted = answers.lines().filter(|answer| answer.starts_with("0 0 ")).count();
    let lines = String::from_utf8_lossy(&lines).into_owned();
    let mut by_quick = Vec::new();
    let _ = trials(lines.replace("plain", "quick").as_bytes(), &mut by_quick);
    let halves = ["plain", "quick"].iter().all(|road| {
        let asked: Vec<&str> = lines.lines().filter(|line| line.starts_with(road)).collect();
        let (units, coarser) = counted(&asked.join("\n"));
        (1_800..2_200).contains(&units) && (2 * units / 5..3 * units / 5).contains(&coarser)
    });
    halves
        && answers.as_bytes() == by_quick
        && accepted > 3_960
        && answers.lines().all(|answer| answer.starts_with("0 0 ") || answer.starts_with("7 0 "))
}

/// The last line of `judge tails`: the units, and those with a coarser scale.
fn counted(lines: &str) -> (usize, usize) {
    let mut said = Vec::new();
    // Writing into a Vec does not fail.
    let _ = tails(lines.as_bytes(), &mut said);
    let said = String::from_utf8_lossy(&said).into_owned();
    let last = said.lines().last().unwrap_or("");
    let mut numbers = last.split(' ').filter_map(|word| word.parse().ok());
    (numbers.next().unwrap_or(0), numbers.next().unwrap_or(0))
}
