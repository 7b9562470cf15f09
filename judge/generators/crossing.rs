//! Random units for refusal 31: boundaries crossed in every way that request 1 of
//! document 02 names, and others that just miss it.

use super::asked::on_edge;
use super::changes::{repeat_corner, set_on_edge};
use super::random::Random;
use super::shapes::{any, at, base, comb, mirrored, rectangle, search_ends, star};
use super::waists::{crossed_waist, narrow_waist};
use crate::program::boundary::Extent;
use crate::program::crossed::crossed;
use crate::program::grid::{size, Point, DEGREE, LAT_END, LON_END};

pub type Maker = fn(&mut Random) -> Vec<Point>;

/// Boundaries that are nearly always crossed.
pub const CROSSED: [Maker; 11] = [
    crossed_waist, bow_tie, touched, spiked, walled, deep_notch, closed_keyhole, pinched,
    on_one_line, there_and_back, run_twice,
];

/// Boundaries that are nearly always simple, or without edges.
pub const MISSED: [Maker; 9] = [
    narrow_waist, three_corners, thin_spike, shallow_notch, open_keyhole, unpinched, whole_degree,
    straight_on, point,
];

/// Boundaries of either sort.
const MIXED: [Maker; 3] = [grid, tangled, any];

/// A unit that passes checks 2 to 5 and is crossed.
pub fn crossed_unit(random: &mut Random) -> Vec<Point> {
    drawn(random, &CROSSED, true)
}

/// A unit that passes checks 2 to 5 and is not crossed.
pub fn missed_unit(random: &mut Random) -> Vec<Point> {
    drawn(random, &MISSED, false)
}

/// A crossed unit on which the plain search would end quickly, were it asked.
pub fn small_crossed(random: &mut Random) -> Vec<Point> {
    small(random, crossed_unit)
}

/// A unit of the maker on which the plain search ends quickly.
pub fn small(random: &mut Random, maker: Maker) -> Vec<Point> {
    loop {
        let corners = maker(random);
        if search_ends(&corners) {
            return corners;
        }
    }
}

/// The first of the makers, the waists, is asked more often than the others.
fn drawn(random: &mut Random, makers: &[Maker], wanted: bool) -> Vec<Point> {
    loop {
        let maker = match random.below(10) {
            0..=2 => makers[0],
            3..=4 => random.pick(&MIXED),
            _ => random.pick(makers),
        };
        let shape = maker(random);
        let small = Extent::of(&shape).is_some_and(|extent| extent.span() <= DEGREE);
        let corners = if small { set_down(random, shape) } else { continue };
        if crossed(&corners).is_some() == wanted {
            return corners;
        }
    }
}

/// The shape turned and set somewhere, sometimes with corners repeated or set on
/// edges. The list starts where it did, or anywhere.
fn set_down(random: &mut Random, shape: Vec<Point>) -> Vec<Point> {
    let Some(extent) = Extent::of(&shape) else {
        return shape;
    };
    let (height, width) = (extent.north - extent.south, extent.east - extent.west);
    let from_zero = |p: Point| at(p.lat - extent.south, p.lon - extent.west);
    let shape: Vec<Point> = shape.into_iter().map(from_zero).collect();
    let shape = mirrored(random, shape, height, width);
    let crosswise = random.one_in(2);
    let (height, width) = if crosswise { (width, height) } else { (height, width) };
    let (south, west) = (base(random, height, LAT_END), base(random, width, LON_END));
    let set = |p: Point| {
        let (up, along) = if crosswise { (p.lon, p.lat) } else { (p.lat, p.lon) };
        at(south + up, west + along)
    };
    let mut corners: Vec<Point> = shape.into_iter().map(set).collect();
    for _ in 0..random.pick(&[0, 0, 0, 0, 1, 2, 5, 12]) {
        let change = random.pick(&[repeat_corner, set_on_edge]);
        change(random, &mut corners);
    }
    if random.one_in(3) {
        let start = random.index(corners.len());
        corners.rotate_left(start);
    }
    corners
}

/// The side of a box to draw in: a few u, some cells, or up to a degree.
fn length(random: &mut Random) -> i64 {
    let level = random.between(12, 27) as u8;
    match random.below(5) {
        0 => random.between(2, 12),
        1 => DEGREE,
        2 => random.between(13, DEGREE),
        _ => size(level) * random.between(1, 5),
    }
}

/// The height and width of a box, neither much larger than the other, so that the
/// search ends soon.
fn sides(random: &mut Random) -> (i64, i64) {
    let height = length(random);
    let less = random.between(height / 2, height).max(2);
    (height, random.pick(&[height, less, (2 * height).min(DEGREE)]))
}

/// A ring that is nearly always simple.
fn plain_ring(random: &mut Random) -> Vec<Point> {
    let (height, width) = sides(random);
    let count = random.index(9) + 4;
    match random.below(3) {
        0 => rectangle(height, width),
        1 => comb(random, 3, height, width),
        _ => star(random, count, height, width),
    }
}

/// A point at the latitude of one corner and the longitude of another.
fn near(random: &mut Random, corners: &[Point]) -> Point {
    at(random.pick(corners).lat, random.pick(corners).lon)
}

/// Two walls from south to north that change places.
fn bow_tie(random: &mut Random) -> Vec<Point> {
    let (height, width) = sides(random);
    let mut ends = || {
        let (one, other) = (random.between(0, width), random.between(0, width));
        (one.min(other), one.max(other))
    };
    let ((first, third), (fourth, second)) = (ends(), ends());
    vec![at(0, first), at(height, second), at(0, third), at(height, fourth)]
}

/// A ring one of whose corners is moved onto an edge that does not end in it.
fn touched(random: &mut Random) -> Vec<Point> {
    let mut corners = plain_ring(random);
    let count = corners.len();
    corners.rotate_left(random.index(count));
    let edge = random.between(1, count as i64 - 2) as usize;
    corners[0] = on_edge(random, corners[edge], corners[edge + 1]);
    corners
}

/// A ring that goes out and back again: at a corner, within an edge, or past a
/// corner and back to it.
fn spiked(random: &mut Random) -> Vec<Point> {
    let mut corners = plain_ring(random);
    let start = random.index(corners.len() - 1);
    let (a, b) = (corners[start], corners[start + 1]);
    let tip = near(random, &corners);
    let foot = if random.one_in(2) { a } else { on_edge(random, a, b) };
    let spike = match random.below(3) {
        0 => vec![at(2 * b.lat - a.lat, 2 * b.lon - a.lon)],
        _ => vec![foot, tip, foot],
    };
    corners.splice(start + 1..start + 1, spike);
    corners
}

/// A path there and the same path back, by itself or from a corner of a ring.
fn walled(random: &mut Random) -> Vec<Point> {
    let mut corners = plain_ring(random);
    let count = random.between(1, 6);
    let mut path: Vec<Point> = (0..count).map(|_| near(random, &corners)).collect();
    let back: Vec<Point> = path.iter().rev().skip(1).copied().collect();
    path.extend(back);
    if random.one_in(4) {
        path.extend([path[0], path[0]]);
        return path;
    }
    let start = random.index(corners.len());
    path.insert(0, corners[start]);
    path.push(corners[start]);
    corners.splice(start..start + 1, path);
    corners
}

/// A rectangle with a notch down to so much above its south side.
fn notched(random: &mut Random, above: i64) -> Vec<Point> {
    let (height, width) = sides(random);
    let (height, width) = (height.max(4), width.max(4));
    let mut two = || {
        let (one, other) = (random.between(1, width - 1), random.between(1, width - 1));
        (one.min(other), one.max(other))
    };
    let ((left, right), (west, east)) = (two(), two());
    let mut corners = rectangle(height, width);
    let notch = [at(height, east), at(above, right), at(above, left), at(height, west)];
    corners.splice(3..3, notch);
    corners
}

/// The notch's bottom, an edge or a corner, lies on the south side or below.
fn deep_notch(random: &mut Random) -> Vec<Point> {
    let above = random.pick(&[0, 0, 0, -1]);
    notched(random, above)
}

fn shallow_notch(random: &mut Random) -> Vec<Point> {
    let above = random.pick(&[1, 1, 2]);
    notched(random, above)
}

/// A rectangle around a courtyard that is reached by a slit of some width.
fn keyhole(random: &mut Random, slit: i64) -> Vec<Point> {
    let (height, width) = sides(random);
    let (height, width) = (height.max(8), width.max(8));
    let (south, north) = (random.between(1, height / 3), height - random.between(1, height / 3));
    let (west, east) = (random.between(1, width / 3), width - random.between(1, width / 3));
    let mut corners = rectangle(height, width);
    // From the last corner's side along a parallel into the courtyard and back.
    let inner = [at(south, west), at(south, east), at(north, east), at(north, west)];
    corners.extend([at(south + slit, 0), at(south + slit, west)]);
    corners.extend(inner.iter().rev());
    corners.push(at(south, 0));
    corners
}

fn closed_keyhole(random: &mut Random) -> Vec<Point> {
    keyhole(random, 0)
}

fn open_keyhole(random: &mut Random) -> Vec<Point> {
    keyhole(random, 1)
}

/// Corners in order around a corner of their box, which is not among them.
fn fan(random: &mut Random, height: i64, width: i64) -> Vec<Point> {
    let count = random.index(6) + 2;
    let one = |_| at(random.between(1, height), random.between(1, width));
    let mut corners: Vec<Point> = (0..count).map(one).collect();
    corners.sort_by(|p, q| (p.lat * q.lon).cmp(&(q.lat * p.lon)));
    corners
}

/// Two lobes, north-east and south-west of two corners.
fn lobes(random: &mut Random, first: Point, second: Point) -> Vec<Point> {
    let (height, width) = sides(random);
    let (height, width) = (height.min(DEGREE / 2), width.min(DEGREE / 2));
    let east = fan(random, height, width);
    let west = fan(random, height, width).into_iter().map(|p| at(-p.lat, -p.lon));
    let mut corners = vec![first];
    corners.extend(east);
    corners.push(second);
    corners.extend(west);
    corners
}

/// Two lobes that have a corner in common, often repeated beside itself.
fn pinched(random: &mut Random) -> Vec<Point> {
    let mut corners = lobes(random, at(0, 0), at(0, 0));
    for _ in 0..random.below(4) {
        let pinch: Vec<usize> = (0..corners.len()).filter(|&k| corners[k] == at(0, 0)).collect();
        corners.insert(random.pick(&pinch), at(0, 0));
    }
    corners
}

/// Two lobes with 1 u between the corners where they would have one in common: the
/// way around goes by the north of it first.
fn unpinched(random: &mut Random) -> Vec<Point> {
    let second = random.pick(&[at(1, 0), at(0, -1), at(1, -1)]);
    lobes(random, at(0, 0), second)
}

/// Corners on one line in any order.
fn on_one_line(random: &mut Random) -> Vec<Point> {
    let steps = random.between(1, 8);
    let (up, along) = (length(random) / steps, length(random) / steps);
    let (up, along) = random.pick(&[(up, along), (up, along), (0, along), (up, 0)]);
    let count = random.index(10) + 3;
    let one = |_| {
        let step = random.between(0, steps);
        at(up * step, along * step)
    };
    (0..count).map(one).collect()
}

/// Two corners, each some times: A, B, A and the like.
fn there_and_back(random: &mut Random) -> Vec<Point> {
    let (a, b) = (at(0, 0), at(length(random), length(random)));
    let mut corners = vec![a; random.index(3) + 1];
    corners.extend(vec![b; random.index(3) + 1]);
    corners.extend(vec![a; random.index(3)]);
    // A, B needs a third to be a list of 3.
    if corners.len() < 3 {
        corners.push(b);
    }
    corners
}

fn run_twice(random: &mut Random) -> Vec<Point> {
    let times = random.index(2) + 2;
    plain_ring(random).repeat(times)
}

/// Three corners, often within 1 u of one line and then seldom long: the search
/// goes all along it.
fn three_corners(random: &mut Random) -> Vec<Point> {
    let (height, width) = sides(random);
    let part = random.between(0, 4);
    let thin = height < 20_000 || random.one_in(20);
    let off = if thin { random.pick(&[at(0, 1), at(1, 0)]) } else { at(0, height) };
    let third = at(height / 4 * part + off.lat, width / 4 * part + off.lon);
    vec![at(0, 0), at(height / 4 * 4, width / 4 * 4), third]
}

/// A rectangle with a spike outward whose foot is 1 u wide, or 2.
fn thin_spike(random: &mut Random) -> Vec<Point> {
    let (height, width) = sides(random);
    let width = width.max(4);
    let foot = random.between(0, width - 2);
    let wide = random.between(1, 2);
    let tip = at(2 * height, random.between(0, width));
    let mut corners = rectangle(height, width);
    corners.splice(3..3, [at(height, foot + wide), tip, at(height, foot)]);
    corners
}

/// A rectangle with an extent of exactly 1°, and a dent.
fn whole_degree(random: &mut Random) -> Vec<Point> {
    let less = random.between(DEGREE / 8, DEGREE);
    let mut corners = rectangle(DEGREE, random.pick(&[DEGREE, less]));
    let width = corners[1].lon;
    corners.insert(3, at(DEGREE - random.between(1, DEGREE - 1), random.between(1, width - 1)));
    corners
}

/// A ring with so many corners on its edges that most of them go straight on.
fn straight_on(random: &mut Random) -> Vec<Point> {
    let mut corners = plain_ring(random);
    let most = random.pick(&[8, 17, 33, 40, 65, 65, 65, 200]);
    for _ in 0..random.between(1, most) {
        set_on_edge(random, &mut corners);
        if random.one_in(4) {
            repeat_corner(random, &mut corners);
        }
    }
    corners
}

/// All corners equal: there are no edges.
fn point(random: &mut Random) -> Vec<Point> {
    vec![at(0, 0); random.index(20) + 3]
}

/// Corners of a small grid, which often lie on each other's edges.
fn grid(random: &mut Random) -> Vec<Point> {
    let side = random.between(2, 6);
    let count = random.index(7) + 3;
    let step = random.pick(&[1, 1, 32, 1_000, DEGREE / side]);
    let one = |_| at(random.between(0, side) * step, random.between(0, side) * step);
    (0..count).map(one).collect()
}

/// A ring in which some corners have changed places, or moved to others' places
/// or edges.
fn tangled(random: &mut Random) -> Vec<Point> {
    let mut corners = if random.one_in(2) { narrow_waist(random) } else { plain_ring(random) };
    for _ in 0..random.between(1, 3) {
        let (one, other) = (random.index(corners.len()), random.index(corners.len()));
        let next = (other + 1) % corners.len();
        match random.below(3) {
            0 => corners.swap(one, other),
            1 => corners[one] = corners[other],
            _ => corners[one] = on_edge(random, corners[other], corners[next]),
        }
    }
    corners
}
