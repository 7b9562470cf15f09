//! A plan: a unit drawn on flat ground around 0 before it has a place on the globe. It is turned and
//! stretched as a whole, which keeps a boundary simple, and rounded to whole u only when it is placed.
//! Only sums, products and quotients of doubles are used, so the plan is the same on every machine.

use crate::random::Random;

/// A corner on the globe, in u.
#[derive(Clone, Copy, Debug, PartialEq, Eq)]
pub struct Corner {
    pub lat: i64,
    pub lon: i64,
}

/// A metre of latitude in u: a degree of 7,372,800 u is 111,320 m.
const METRE: f64 = 7_372_800.0 / 111_320.0;

/// Where the units lie, in degrees: the land that the standard is for.
const SOUTH: i64 = 18;
const NORTH: i64 = 52;
const WEST: i64 = 74;
const EAST: i64 = 133;

/// A point of a plan; north comes first, as latitude does.
#[derive(Clone, Copy)]
pub struct Spot {
    pub north: f64,
    pub east: f64,
}

/// At least 0 and below 1.
pub fn share(random: &mut Random) -> f64 {
    const STEPS: u64 = 1 << 53;
    random.below(STEPS) as f64 / STEPS as f64
}

pub fn between(least: f64, greatest: f64, random: &mut Random) -> f64 {
    least + (greatest - least) * share(random)
}

/// The point at a part of a whole turn on the circle of radius 1, counted from east to north.
pub fn on_circle(turn: f64) -> Spot {
    // Taylor's series, good to the last digits for an eighth of the half turn around 0; the angle is
    // halved three times and doubled again.
    let angle = (turn - turn.floor() - 0.5) * std::f64::consts::TAU / 8.0;
    let square = angle * angle;
    let (mut cosine, mut sine) = (1.0, 1.0);
    for k in (1..=10).rev() {
        let k = f64::from(2 * k);
        cosine = 1.0 - cosine * square / (k * (k - 1.0));
        sine = 1.0 - sine * square / (k * (k + 1.0));
    }
    let mut spot = Spot { north: sine * angle, east: cosine };
    for _ in 0..3 {
        let (north, east) = (spot.north, spot.east);
        spot = Spot { north: 2.0 * north * east, east: east * east - north * north };
    }
    // The half turn that was taken off above.
    Spot { north: -spot.north, east: -spot.east }
}

/// The plan turned by a part of a whole turn.
pub fn turned(plan: &[Spot], turn: f64) -> Vec<Spot> {
    let by = on_circle(turn);
    let one = |spot: &Spot| Spot {
        north: spot.north * by.east + spot.east * by.north,
        east: spot.east * by.east - spot.north * by.north,
    };
    plan.iter().map(one).collect()
}

/// The plan with other measures in the two directions.
pub fn stretched(plan: &[Spot], north: f64, east: f64) -> Vec<Spot> {
    plan.iter().map(|spot| Spot { north: spot.north * north, east: spot.east * east }).collect()
}

/// The plan at a size at which its larger extent is `extent`.
pub fn sized(plan: &[Spot], extent: f64) -> Vec<Spot> {
    let length = |along: fn(&Spot) -> f64| {
        let all = || plan.iter().map(along);
        all().fold(f64::MIN, f64::max) - all().fold(f64::MAX, f64::min)
    };
    let scale = extent / length(|spot| spot.north).max(length(|spot| spot.east));
    stretched(plan, scale, scale)
}

/// Somewhere on the land, a degree or more from its sides.
pub fn place(random: &mut Random) -> Corner {
    let degree = crate::DEGREE;
    Corner {
        lat: random.between((SOUTH + 1) * degree, (NORTH - 1) * degree),
        lon: random.between((WEST + 1) * degree, (EAST - 1) * degree),
    }
}

/// A plan in metres, somewhere on the land: a metre of longitude is more u than one of latitude.
pub fn placed_metres(plan: &[Spot], random: &mut Random) -> Vec<Corner> {
    let place = place(random);
    let narrowing = on_circle(place.lat as f64 / (360.0 * crate::DEGREE as f64)).east;
    at(&stretched(plan, METRE, METRE / narrowing), place)
}

/// A plan in u, somewhere on the land.
pub fn placed_u(plan: &[Spot], random: &mut Random) -> Vec<Corner> {
    at(plan, place(random))
}

fn at(plan: &[Spot], place: Corner) -> Vec<Corner> {
    let whole = |length: f64| (length + 0.5).floor() as i64;
    let one = |spot: &Spot| Corner {
        lat: place.lat + whole(spot.north),
        lon: place.lon + whole(spot.east),
    };
    plan.iter().map(one).collect()
}
