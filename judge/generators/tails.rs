//! Random units with a long tail, for request 2 of document 02: flags, keys and
//! spoons whose wide place lies at one end, so that a span at L is above 31, or
//! just is not.

use super::random::Random;
use super::shapes::{at, listed};
use crate::program::boundary::Extent;
use crate::program::crossed::crossed;
use crate::program::grid::{
    size, Cell, Point, Stretch, DEGREE, FINEST, LAT_END, LON_END, MINUTE, STEP,
};
use crate::program::unit::scale;

/// Where a tail points.
#[derive(Clone, Copy, Debug, PartialEq, Eq, PartialOrd, Ord)]
pub enum Way {
    East,
    West,
    South,
    North,
}

pub const WAYS: [Way; 4] = [Way::East, Way::West, Way::South, Way::North];

impl Way {
    fn east_west(self) -> bool {
        matches!(self, Way::East | Way::West)
    }

    /// Towards 90° or 180°.
    fn up(self) -> bool {
        matches!(self, Way::East | Way::North)
    }

    /// The end of the range in the tail's direction and in the other.
    fn ends(self) -> (i64, i64) {
        if self.east_west() {
            (LON_END, LAT_END)
        } else {
            (LAT_END, LON_END)
        }
    }

    /// The spot from which the range ends so far ahead.
    pub fn before_end(self, ahead: i64) -> i64 {
        if self.up() {
            self.ends().0 - ahead
        } else {
            ahead
        }
    }

    /// The cell of a level at a spot along the tail and one across it.
    pub fn cell(self, level: u8, along: i64, across: i64) -> Cell {
        Cell::at(level, if self.east_west() { at(across, along) } else { at(along, across) })
    }
}

/// A cell as its reference sees it when the tail lies ahead, as if it pointed
/// east. The spans count from the reference, so that mirrored cells differ.
pub struct View {
    reference: Point,
    way: Way,
    /// Whether left and right have changed places.
    over: bool,
    pub along: Stretch,
    pub across: Stretch,
}

/// A stretch as distances from a spot, ahead of it or behind.
fn seen(stretch: Stretch, from: i64, ahead: bool) -> Stretch {
    if ahead {
        Stretch { from: stretch.from - from, to: stretch.to - from }
    } else {
        Stretch { from: from - stretch.to, to: from - stretch.from }
    }
}

impl View {
    pub fn of(cell: &Cell, way: Way, over: bool) -> View {
        let reference = cell.reference();
        let lat = |ahead: bool| seen(cell.lat, reference.lat, ahead);
        let lon = |ahead: bool| seen(cell.lon, reference.lon, ahead);
        let (along, across) =
            if way.east_west() { (lon(way.up()), lat(!over)) } else { (lat(way.up()), lon(!over)) };
        View { reference, way, over, along, across }
    }

    /// The point on the ground of one that is seen.
    pub fn set(&self, seen: Point) -> Point {
        let ahead = if self.way.up() { seen.lon } else { -seen.lon };
        let aside = if self.over { -seen.lat } else { seen.lat };
        let (up, along) = if self.way.east_west() { (aside, ahead) } else { (ahead, aside) };
        at(self.reference.lat + up, self.reference.lon + along)
    }

    /// How far ahead of the reference the range ends.
    pub fn room(&self) -> i64 {
        let spot = if self.way.east_west() { self.reference.lon } else { self.reference.lat };
        if self.way.up() {
            self.way.ends().0 - spot
        } else {
            spot
        }
    }

    /// The cell with a spike whose tip lies so far ahead of the reference.
    pub fn spiked(&self, tip: i64) -> Vec<Point> {
        let (near, end) = (self.along.from, self.along.to);
        let (south, north) = (self.across.from, self.across.to);
        let shape = [at(south, near), at(south, end), at((south + north) / 2, tip), at(north, end)];
        shape.into_iter().chain([at(north, near)]).map(|p| self.set(p)).collect()
    }
}

/// The measures of a unit as its view sees them.
struct Tail {
    /// The cell that is to be chosen.
    cell: (Stretch, Stretch),
    /// How far the wide place may go beyond it: behind, and on the other sides.
    behind: i64,
    beside: i64,
    /// The sides of the tail where it leaves the wide place.
    low: i64,
    high: i64,
    tip: i64,
}

type Shape = fn(&mut Random, &Tail) -> Vec<Point>;

/// A unit that passes checks 2 to 5 and 31. Every L from 15 to 27 and every way are
/// as frequent; half of the units have the tip more than 30 sizes of L from the
/// reference.
pub fn tail_unit(random: &mut Random) -> Vec<Point> {
    let level = random.between(15, FINEST.into()) as u8;
    let way = random.pick(&WAYS);
    let beyond = random.one_in(2);
    loop {
        if let Some(corners) = drawn(random, level, way, beyond) {
            return listed(random, corners);
        }
    }
}

/// None where the measures do not go together.
fn drawn(random: &mut Random, level: u8, way: Way, beyond: bool) -> Option<Vec<Point>> {
    let cell = wide_cell(random, level, way);
    let view = View::of(&cell, way, random.one_in(2));
    let tail = measured(random, level, &view, beyond)?;
    let shape = random.pick(&[flag as Shape, key, spoon]);
    let corners: Vec<Point> = shape(random, &tail).into_iter().map(|p| view.set(p)).collect();
    good(&corners, level).then_some(corners)
}

/// Whether the corners lie in the ranges, L is the level, and nothing is crossed.
fn good(corners: &[Point], level: u8) -> bool {
    let ranges =
        corners.iter().all(|p| (0..=LAT_END).contains(&p.lat) && (0..=LON_END).contains(&p.lon));
    let span = Extent::of(corners).map_or(0, |extent| extent.span());
    ranges && span <= DEGREE && scale(span) == level && crossed(corners).is_none()
}

/// The cell for the wide place, about as large as one of level L: anywhere, at a
/// cut, at an end of the range, or so that the tip comes to lie at one.
fn wide_cell(random: &mut Random, level: u8, way: Way) -> Cell {
    let finer = random.between(-3, 3) + i64::from(level);
    let (along_end, across_end) = way.ends();
    let along = match random.below(5) {
        0 => way.before_end(random.between(29 * size(level), 32 * size(level))),
        // The other end of the range lies behind the wide place.
        1 => (along_end - way.before_end(0)).min(along_end - 1),
        2..=3 => cut(random, along_end),
        _ => random.between(0, along_end - 1),
    };
    let across = match random.below(4) {
        0 => random.pick(&[0, across_end - 1]),
        1..=2 => cut(random, across_end),
        _ => random.between(0, across_end - 1),
    };
    way.cell(finer.min(FINEST.into()) as u8, along, across)
}

/// A spot just before or after a border of the ground that is cut.
fn cut(random: &mut Random, end: i64) -> i64 {
    let ground = random.pick(&[DEGREE, MINUTE, MINUTE]);
    let border = random.pick(&[32, 48, 56, 60, 60]) * (ground / 60);
    let start = random.between(0, end / ground - 1) * ground;
    (start + border - random.pick(&[0, 1])).min(end - 1)
}

/// Measures for a view of a wide place, the tip beyond 30 sizes of L or not.
fn measured(random: &mut Random, level: u8, view: &View, beyond: bool) -> Option<Tail> {
    let (along, across) = (view.along, view.across);
    // With nothing behind the cell the tip may lie so far ahead that L stays L.
    let most = 32 * size(level) - 1 + along.from;
    let tip = tip(random, size(level), most, view.room(), beyond)?;
    let (width, height) = (along.to - along.from, across.to - across.from);
    let spare = random.between(0, most - tip);
    let behind = random.pick(&[0, 0, spare, most - tip]);
    let any = random.between(0, width.min(height) / 2);
    // Where cells in the tail would come first, it is thinner than the cell.
    let thick = thickness(random, if view.way.up() { height } else { height - 1 });
    let low = across.from + random.between(0, height - thick);
    Some(Tail {
        cell: (along, across),
        behind,
        beside: random.pick(&[0, 0, 1, any]),
        low,
        high: low + thick,
        tip,
    })
}

/// How far ahead the tip lies: at 30 sizes of L or near there, at the most, or at
/// the end of the range where that is near.
fn tip(random: &mut Random, s: i64, most: i64, room: i64, beyond: bool) -> Option<i64> {
    let border = 30 * s;
    let few = random.between(2, 33);
    let tip = if beyond {
        let any = random.between(1, 2 * s);
        border + random.pick(&[1, 1, few, any, 2 * s])
    } else {
        let any = random.between(0, s);
        border - random.pick(&[0, 0, 1, few, any])
    };
    let at_end = room <= most && !random.one_in(4);
    let tip = if at_end { room } else { tip.min(most).min(room) };
    (tip > border - 2 * s && (tip > border) == beyond).then_some(tip)
}

/// How thick a tail is, at most so much.
fn thickness(random: &mut Random, most: i64) -> i64 {
    let any = random.between(1, most);
    random.pick(&[1, STEP.min(most), most / 8, any, most]).max(1)
}

impl Tail {
    /// The sides of a wide place with corners of its own: near, end, south, north.
    fn plot(&self) -> (i64, i64, i64, i64) {
        let (along, across) = self.cell;
        // No further behind than that no other cell goes in.
        let near = along.from - self.behind.min((along.to - along.from) / 2);
        let end = along.to + self.beside;
        (near, end, across.from - self.beside, across.to + self.beside)
    }
}

/// A plot with a long thin strip, whose end may be askew.
fn flag(random: &mut Random, tail: &Tail) -> Vec<Point> {
    let (near, end, south, north) = tail.plot();
    let askew = random.pick(&[0, 0, 1, tail.tip / 8]);
    vec![
        at(south, near),
        at(south, end),
        at(tail.low, end),
        at(tail.low, tail.tip),
        at(tail.high, tail.tip - askew),
        at(tail.high, end),
        at(north, end),
        at(north, near),
    ]
}

/// A bow whose outer corners are cut off, and a thin blade with teeth.
fn key(random: &mut Random, tail: &Tail) -> Vec<Point> {
    let (near, end, south, north) = tail.plot();
    // The cell's own corners stay, perhaps just so.
    let height = tail.cell.1.to - tail.cell.1.from;
    let off = random.between(0, tail.beside + tail.cell.0.from - near).min(height / 2);
    let mut corners = vec![
        at(south + off, near),
        at(south, near + off),
        at(south, end),
        at(tail.low, end),
        at(tail.low, tail.tip),
    ];
    corners.extend(teeth(random, tail, end));
    corners.extend([
        at(tail.high, end),
        at(north, end),
        at(north, near + off),
        at(north - off, near),
    ]);
    corners
}

/// The upper side of a blade from its tip: teeth too thin for a cell such as the
/// chosen one.
fn teeth(random: &mut Random, tail: &Tail, end: i64) -> Vec<Point> {
    let (along, across) = tail.cell;
    let count = random.between(1, 5);
    let pitch = (tail.tip - end) / 2 / count;
    let thin = random.between(1, ((along.to - along.from) / 4).min(pitch - 1));
    let tooth = |k: i64| {
        let far = tail.tip - k * pitch;
        let high = tail.high + random.between(1, across.to - across.from);
        [at(tail.high, far), at(high, far), at(high, far - thin), at(tail.high, far - thin)]
    };
    (0..count).flat_map(tooth).collect()
}

/// A bowl that is pointed behind and a tapering handle, straight or not.
fn spoon(random: &mut Random, tail: &Tail) -> Vec<Point> {
    let along = tail.cell.0;
    let (_, end, south, north) = tail.plot();
    let (lower, upper) = handle(random, tail, end);
    let mut corners = vec![
        at((south + north) / 2, along.from - tail.behind),
        at(south, along.from),
        at(south, along.to),
    ];
    corners.extend(lower);
    corners.extend(upper.into_iter().rev());
    corners.extend([at(north, along.to), at(north, along.from)]);
    corners
}

/// The handle's two sides from the bowl to the tip.
fn handle(random: &mut Random, tail: &Tail, end: i64) -> (Vec<Point>, Vec<Point>) {
    let steps = random.between(1, 4);
    let height = tail.cell.1.to - tail.cell.1.from;
    // A crooked one is thinner: its parts may lie in other rows of cells.
    let drift = random.pick(&[0, 0, height / 2, 3 * height]);
    let high = if drift > 0 { tail.high.min(tail.low + height / 3 + 1) } else { tail.high };
    let middle = (tail.low + high) / 2;
    let way = |k: i64| end + (tail.tip - end) * k / steps;
    let mut aside = |k: i64| if k == 0 { 0 } else { random.between(0, drift) };
    let asides: Vec<i64> = (0..=steps).map(|k| aside(k)).collect();
    let side = |from: i64| {
        let one = |(k, aside): (i64, &i64)| {
            at(middle + (from - middle) * (steps - k) / steps + aside, way(k))
        };
        (0..).zip(&asides).map(one).collect()
    };
    (side(tail.low), side(high))
}
