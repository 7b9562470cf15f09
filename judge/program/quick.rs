//! The quick search for the chosen cell: level by level down a tree of
//! quarters, with only the edges that still matter in each part.

use super::boundary::{counts, edges, meets, Edge, Extent};
use super::grid::{size, Cell, Point, Stretch, COARSEST, DEGREE, FINEST, LAT_END, LON_END};

pub fn chosen(corners: &[Point]) -> Option<Cell> {
    let extent = Extent::of(corners)?;
    let columns = degrees(extent.west, extent.east, LON_END);
    let rows = degrees(extent.south, extent.north, LAT_END);
    let all = edges(corners);
    (COARSEST..=FINEST).find_map(|level| {
        let mut search = Search { level, kept: all.clone(), best: None };
        for &lon in &columns {
            for &lat in &rows {
                let part = Cell { level: COARSEST, lat, lon };
                search.look(&part, 0, all.len(), false);
            }
        }
        search.best
    })
}

/// The whole degrees from the one that holds `least` to `greatest`.
fn degrees(least: i64, greatest: i64, end: i64) -> Vec<Stretch> {
    let mut from = least - least % DEGREE;
    let mut found = Vec::new();
    while from <= greatest && from < end {
        found.push(Stretch { from, to: from + DEGREE });
        from += DEGREE;
    }
    found
}

/// The one or two stretches of the next level in a stretch; cut ground splits
/// unevenly or not at all.
fn halves(stretch: Stretch, next: u8) -> (Stretch, Option<Stretch>) {
    let middle = stretch.from + size(next);
    if middle >= stretch.to {
        return (stretch, None);
    }
    let first = Stretch { from: stretch.from, to: middle };
    (first, Some(Stretch { from: middle, to: stretch.to }))
}

/// How an edge acts on the points of a part.
enum Role {
    Meets,
    /// Counts for some points of the part and not for others.
    Varies,
    CountsForAll,
    CountsForNone,
}

fn role(edge: &Edge, part: &Cell) -> Role {
    if meets(edge, part) {
        return Role::Meets;
    }
    let (a, b) = (edge.a, edge.b);
    let (low, high) = (a.lat.min(b.lat), a.lat.max(b.lat));
    let beside = high <= part.lat.from || low >= part.lat.to;
    if beside || (a.lon <= part.lon.from && b.lon <= part.lon.from) {
        return Role::CountsForNone;
    }
    if low > part.lat.from || high < part.lat.to {
        return Role::Varies;
    }
    // It passes the part from south to north without meeting it, so the whole
    // part lies on the side on which the centre lies.
    if counts(edge, part.centre()) {
        Role::CountsForAll
    } else {
        Role::CountsForNone
    }
}

struct Search {
    /// The level whose cells are wanted now; no cell of a coarser one is inside.
    level: u8,
    /// A stack: for each part on the way down, the edges that matter in it.
    kept: Vec<Edge>,
    best: Option<Cell>,
}

impl Search {
    /// Looks for a better cell in a part. `kept[from..to]` are the edges that
    /// matter in the ground around it; `odd` is the count of all the others.
    fn look(&mut self, part: &Cell, from: usize, to: usize, odd: bool) {
        if !self.may_better(part) {
            return;
        }
        if part.level == self.level {
            if self.inside(part, from, to, odd) {
                self.best = Some(*part);
            }
            return;
        }
        let (met, odd) = self.keep(part, from, to, odd);
        let end = self.kept.len();
        // A part that no edge meets is outside: inside, it would have been
        // chosen when its own level was searched.
        if met {
            self.look_in_quarters(part, to, end, odd);
        }
        self.kept.truncate(to);
    }

    /// No cell of the part lies further west, or as far west and further south,
    /// than the part itself.
    fn may_better(&self, part: &Cell) -> bool {
        let order = |cell: &Cell| (cell.lon.from, cell.lat.from);
        self.best.as_ref().is_none_or(|best| order(part) < order(best))
    }

    fn inside(&self, cell: &Cell, from: usize, to: usize, odd: bool) -> bool {
        let around = &self.kept[from..to];
        if around.iter().any(|edge| meets(edge, cell)) {
            return false;
        }
        let centre = cell.centre();
        around.iter().filter(|edge| counts(edge, centre)).count() % 2 == usize::from(!odd)
    }

    /// Puts the edges that matter in the part on the stack. Answers whether one
    /// meets the part and whether the edges left out make an odd count.
    fn keep(&mut self, part: &Cell, from: usize, to: usize, odd: bool) -> (bool, bool) {
        let (mut met, mut odd) = (false, odd);
        for i in from..to {
            let edge = self.kept[i];
            match role(&edge, part) {
                Role::Meets => {
                    met = true;
                    self.kept.push(edge);
                }
                Role::Varies => self.kept.push(edge),
                Role::CountsForAll => odd = !odd,
                Role::CountsForNone => {}
            }
        }
        (met, odd)
    }

    fn look_in_quarters(&mut self, part: &Cell, from: usize, to: usize, odd: bool) {
        let level = part.level + 1;
        let (south, north) = halves(part.lat, level);
        let (west, east) = halves(part.lon, level);
        for lon in [Some(west), east].into_iter().flatten() {
            for lat in [Some(south), north].into_iter().flatten() {
                self.look(&Cell { level, lat, lon }, from, to, odd);
            }
        }
    }
}
