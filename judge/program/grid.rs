//! Angles in u and the grid: the levels 9 to 27, their nominal sizes, and
//! where the cells of a level lie in one direction and on the ground.

pub const SECOND: i64 = 2_048;
pub const MINUTE: i64 = 122_880;
pub const DEGREE: i64 = 7_372_800;

/// 90°, the greatest latitude.
pub const LAT_END: i64 = 663_552_000;
/// 180°, the greatest longitude.
pub const LON_END: i64 = 1_327_104_000;

pub const COARSEST: u8 = 9;
pub const FINEST: u8 = 27;

/// The side of a level 27 cell, and the step of every reference.
pub const STEP: i64 = 32;

const SIZES: [i64; 19] = [
    7_372_800, // level 9
    3_932_160, 1_966_080, 983_040, 491_520, 245_760, 122_880, // 10 to 15
    65_536, 32_768, 16_384, 8_192, 4_096, 2_048, // 16 to 21
    1_024, 512, 256, 128, 64, 32, // 22 to 27
];

/// Nominal size of a cell of a level from 9 to 27.
pub fn size(level: u8) -> i64 {
    SIZES[(level - COARSEST) as usize]
}

/// The ground of a cell in one direction.
#[derive(Clone, Copy, Debug, PartialEq, Eq)]
pub struct Stretch {
    pub from: i64,
    pub to: i64,
}

impl Stretch {
    /// Sides are multiples of 32, so halfway is a whole number of u.
    pub fn halfway(&self) -> i64 {
        self.from + (self.to - self.from) / 2
    }
}

/// The stretch of a level's cell that has `at` in it or at its start.
pub fn stretch_at(level: u8, at: i64) -> Stretch {
    // Cells start afresh at each degree up to level 15, then at each minute.
    let ground = if level <= 15 { DEGREE } else { MINUTE };
    let afresh = at - at % ground;
    let from = at - (at - afresh) % size(level);
    let to = (from + size(level)).min(afresh + ground);
    Stretch { from, to }
}

/// The stretches of a level from the one that holds `least` to the last that
/// starts at or before `greatest`; none starts at `end` (90° or 180°).
pub fn stretches(level: u8, least: i64, greatest: i64, end: i64) -> impl Iterator<Item = Stretch> {
    let listed = move |s: &Stretch| s.from < end && s.from <= greatest;
    let first = Some(stretch_at(level, least)).filter(listed);
    std::iter::successors(first, move |s| Some(stretch_at(level, s.to)).filter(listed))
}

/// A latitude and a longitude in u.
#[derive(Clone, Copy, Debug, PartialEq, Eq)]
pub struct Point {
    pub lat: i64,
    pub lon: i64,
}

#[derive(Clone, Copy, Debug, PartialEq, Eq)]
pub struct Cell {
    pub level: u8,
    pub lat: Stretch,
    pub lon: Stretch,
}

impl Cell {
    /// The cell of a level that has the point in it or on its south or west side.
    pub fn at(level: u8, point: Point) -> Cell {
        Cell { level, lat: stretch_at(level, point.lat), lon: stretch_at(level, point.lon) }
    }

    /// The cell that has this west and this south side, if there is one: the
    /// level is 9 to 27, cells of it start there, and it ends in the ranges.
    pub fn with_sides(level: i64, west: i64, south: i64) -> Option<Cell> {
        let level = u8::try_from(level).ok()?;
        if !(COARSEST..=FINEST).contains(&level) {
            return None;
        }
        let cell = Cell::at(level, Point { lat: south, lon: west });
        let starts = cell.lat.from == south && cell.lon.from == west;
        let ends = cell.lat.to <= LAT_END && cell.lon.to <= LON_END;
        Some(cell).filter(|_| starts && ends)
    }

    pub fn centre(&self) -> Point {
        Point { lat: self.lat.halfway(), lon: self.lon.halfway() }
    }

    /// South-west corner of the location cell.
    pub fn reference(&self) -> Point {
        if self.level == FINEST {
            return Point { lat: self.lat.from, lon: self.lon.from };
        }
        let centre = self.centre();
        Point { lat: centre.lat - STEP, lon: centre.lon - STEP }
    }

    /// As of any rectangle.
    pub fn corners(&self) -> [Point; 4] {
        corners(self.lat, self.lon)
    }
}

/// South-west, south-east, north-east, north-west.
pub fn corners(lat: Stretch, lon: Stretch) -> [Point; 4] {
    let (south, north) = (lat.from, lat.to);
    let (west, east) = (lon.from, lon.to);
    [
        Point { lat: south, lon: west },
        Point { lat: south, lon: east },
        Point { lat: north, lon: east },
        Point { lat: north, lon: west },
    ]
}
