//! Coding a unit from its corners: the checks 1 to 5, 31, 6 and 7 in this order,
//! scale, spans, and the code written into the room. 8 is no refusal any more: by
//! request 2 of document 02 a long tail makes the scale coarser.

use super::boundary::Extent;
use super::code::{parts_of, refused, spell, Fields, Refusal, LENGTH, NUMBER_MAX};
use super::crossed::crossed;
use super::grid::{size, Cell, Point, COARSEST, DEGREE, FINEST, LAT_END, LON_END};
use super::{plain, quick};

#[derive(Clone, Copy, Debug, PartialEq, Eq)]
pub enum Road {
    Plain,
    Quick,
}

#[derive(Clone, Copy, Debug, PartialEq, Eq)]
pub enum Kind {
    Building,
    Other,
}

#[derive(Clone, Debug)]
pub struct Unit {
    pub kind: Kind,
    pub number: u32,
    /// Latitude and longitude alternate.
    pub coordinates: Vec<u32>,
}

/// Codes the unit into the room: bytes 0 to 19 on acceptance, no others.
pub fn code(unit: &Unit, room: &mut [u8], road: Road) -> Result<(), Refusal> {
    if room.len() < LENGTH {
        return Err(refused(1));
    }
    let corners = corners_of(&unit.coordinates)?;
    let extent = Extent::of(&corners).ok_or(refused(3))?;
    // The larger extent is above a degree when either is.
    if extent.span() > DEGREE {
        return Err(refused(5));
    }
    if let Some(place) = crossed(&corners) {
        return Err(Refusal { number: 31, place });
    }
    check_number(unit)?;
    let cell = match road {
        Road::Plain => plain::chosen(&corners),
        Road::Quick => quick::chosen(&corners),
    };
    let cell = cell.ok_or(refused(7))?;
    let fields = fields_of(&cell, &extent, unit.number);
    room[..LENGTH].copy_from_slice(&spell(&parts_of(&fields)));
    Ok(())
}

/// Checks 2 to 4.
fn corners_of(coordinates: &[u32]) -> Result<Vec<Point>, Refusal> {
    if coordinates.len() % 2 == 1 {
        return Err(refused(2));
    }
    if !(3..=1_024).contains(&(coordinates.len() / 2)) {
        return Err(refused(3));
    }
    let points = coordinates.chunks(2).map(|c| Point { lat: c[0].into(), lon: c[1].into() });
    let corners: Vec<Point> = points.collect();
    let above = |corner: &Point| corner.lat > LAT_END || corner.lon > LON_END;
    match corners.iter().position(above) {
        Some(place) => Err(Refusal { number: 4, place }),
        None => Ok(corners),
    }
}

fn check_number(unit: &Unit) -> Result<(), Refusal> {
    let number = i64::from(unit.number);
    let good = match unit.kind {
        Kind::Building => (1..=NUMBER_MAX).contains(&number),
        Kind::Other => number == 0,
    };
    if good {
        Ok(())
    } else {
        Err(refused(6))
    }
}

/// L: the finest level whose nominal size times 32 is greater than the span.
pub fn scale(span: i64) -> u8 {
    // A span of up to a degree always has one, 14 or finer.
    (COARSEST..=FINEST).rev().find(|&level| size(level) * 32 > span).unwrap_or(COARSEST)
}

/// The fields of a code for the chosen cell: at L, or where one of the four spans
/// would be above 31, at one level coarser with all four worked out afresh.
fn fields_of(cell: &Cell, extent: &Extent, number: u32) -> Fields {
    let level = scale(extent.span());
    let fields = fields_at(level, cell, extent, number);
    let spans = [fields.east, fields.west, fields.south, fields.north];
    if spans.iter().any(|&span| span > 31) {
        return fields_at(level - 1, cell, extent, number);
    }
    fields
}

/// The fields with the spans counted in cells of a level, whatever comes out.
fn fields_at(level: u8, cell: &Cell, extent: &Extent, number: u32) -> Fields {
    let reference = cell.reference();
    let side = size(level);
    let span = |a: i64, b: i64| ((a - b).abs() + side - 1) / side + 1;
    Fields {
        lat: reference.lat,
        lon: reference.lon,
        scale: level.into(),
        east: span(extent.east, reference.lon),
        west: span(extent.west, reference.lon),
        south: span(extent.south, reference.lat),
        north: span(extent.north, reference.lat),
        number: number.into(),
    }
}
