//! The units of a day: houses, fields and coast strips, and the compact units whose corners and
//! extent are asked for.

use crate::plan::{
    between, on_circle, placed_metres, placed_u, share, sized, stretched, turned, Corner, Spot,
};
use crate::random::Random;

/// Of every hundred units 90 houses, 9 fields and 1 coast strip.
pub fn of_a_day(place: u64, random: &mut Random) -> Vec<Corner> {
    match place % 100 {
        0..90 => house(random),
        90..99 => field(random),
        _ => coast(random),
    }
}

/// A rectangle with sides of 8 to 40 m and 4 to 12 corners: each of the four corners of the rectangle
/// stays, or is cut off (one corner more), or is notched (two more).
pub fn house(random: &mut Random) -> Vec<Corner> {
    let more = cuts(random);
    let (length, width) = (between(8.0, 40.0, random), between(8.0, 40.0, random));
    let mut plan = Vec::new();
    // The four corners from the south-west around, each with the sides in which it lies.
    let corners = [(-0.5, -0.5), (-0.5, 0.5), (0.5, 0.5), (0.5, -0.5)];
    for (at, (north, east)) in corners.into_iter().enumerate() {
        // Two notches of one side leave a tenth of it at the least.
        let in_north = north * (1.0 - 2.0 * between(0.1, 0.45, random));
        let in_east = east * (1.0 - 2.0 * between(0.1, 0.45, random));
        let mut part = match more[at] {
            0 => vec![(north, east)],
            1 => vec![(in_north, east), (north, in_east)],
            _ => vec![(in_north, east), (in_north, in_east), (north, in_east)],
        };
        // Around the rectangle the next side is in turn one of latitude and one of longitude.
        if at % 2 == 1 {
            part.reverse();
        }
        plan.extend(part.into_iter().map(|(north, east)| Spot { north, east }));
    }
    let plan = stretched(&plan, width, length);
    placed_metres(&turned(&plan, share(random)), random)
}

/// How many corners each corner of a house has besides itself: 0 to 2, and 0 to 8 in all.
fn cuts(random: &mut Random) -> [u8; 4] {
    let mut more = [0; 4];
    let mut left = random.below(9);
    while left > 0 {
        let at = random.index(4);
        if more[at] < 2 {
            more[at] += 1;
            left -= 1;
        }
    }
    more
}

/// 20 to 200 corners, 100 m to 3 km across, small ones more often than large ones, and up to three
/// times as long as wide.
pub fn field(random: &mut Random) -> Vec<Corner> {
    let size = 100.0 + 2_900.0 * share(random) * share(random);
    let count = random.between(20, 200);
    let long = between(1.0, 3.0, random);
    let plan = turned(&stretched(&ring(count, random), 1.0, long), share(random));
    placed_metres(&sized(&plan, size), random)
}

/// A compact unit of about 1 km with this many corners.
pub fn with_corners(count: i64, random: &mut Random) -> Vec<Corner> {
    placed_metres(&sized(&ring(count, random), 1_000.0), random)
}

/// A compact unit of 100 corners whose larger extent is this.
pub fn with_extent(extent: i64, random: &mut Random) -> Vec<Corner> {
    // Rounding may add a u at each end.
    placed_u(&sized(&ring(100, random), (extent - 2) as f64), random)
}

/// A ring around 0 with bays and capes: each corner is seen from the centre, one after the other.
fn ring(count: i64, random: &mut Random) -> Vec<Spot> {
    let waves = [(2.0, 0.2), (3.0, 0.12), (5.0, 0.08)].map(|wave| (wave, share(random)));
    let step = 1.0 / count as f64;
    let mut plan = Vec::new();
    for place in 0..count {
        let turn = (place as f64 + between(-0.3, 0.3, random)) * step;
        let bays =
            waves.iter().map(|&((k, height), start)| height * on_circle(k * turn + start).east);
        // Roughness is in proportion to the edges, so that more corners do not make more capes.
        let radius = 1.0 + bays.sum::<f64>() + between(-1.0, 1.0, random) * step;
        let spot = on_circle(turn);
        plan.push(Spot { north: radius * spot.north, east: radius * spot.east });
    }
    plan
}

/// 300 to 1,024 corners along a coast of 0.1° to 1°, a fortieth to a four hundredth of that wide.
pub fn coast(random: &mut Random) -> Vec<Corner> {
    let count = random.between(300, 1_024);
    let size = between(0.1, 1.0, random) * (crate::DEGREE - 2) as f64;
    let plan = turned(&strip(count, random), share(random));
    placed_u(&sized(&plan, size), random)
}

/// A strip along a line that runs from west to east: the land's side, and back along the sea's side
/// with a corner above each, so that the two never meet.
fn strip(count: i64, random: &mut Random) -> Vec<Spot> {
    let pairs = count / 2;
    let width = 1.0 / between(40.0, 400.0, random);
    let waves: Vec<f64> = (0..24).map(|_| share(random)).collect();
    let mut land = Vec::new();
    let mut sea = Vec::new();
    for place in 0..pairs {
        let east = (place as f64 + between(-0.3, 0.3, random)) / (pairs - 1) as f64;
        let wave = |(k, start): (usize, &f64)| {
            let k = (k + 1) as f64;
            0.06 / k * on_circle(k * east + start).east
        };
        let north = waves.iter().enumerate().map(wave).sum::<f64>();
        land.push(Spot { north, east });
        sea.push(Spot { north: north + width * between(0.5, 1.5, random), east });
    }
    if count % 2 == 1 {
        // The odd corner is a cape at the east end.
        let (south, north) = (land[land.len() - 1], sea[sea.len() - 1]);
        let middle = (south.north + north.north) / 2.0;
        land.push(Spot { north: middle, east: south.east.max(north.east) + width });
    }
    land.extend(sea.into_iter().rev());
    land
}
