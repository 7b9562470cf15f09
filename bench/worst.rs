//! The worst cases: long and narrow units in which every part of the ground along the boundary has to
//! be looked at down to the finest level, and no cell is inside. All are made of whole numbers.

use crate::plan::{place, Corner};
use crate::random::Random;

/// Fewer u than a cell of the finest level has.
const NARROW: i64 = 31;

/// The plan somewhere on the land, its side changed from east to west for one unit in two.
fn placed(plan: Vec<Corner>, extent: i64, random: &mut Random) -> Vec<Corner> {
    let place = place(random);
    let mirrored = random.one_in(2);
    let lon = |lon: i64| if mirrored { extent - lon } else { lon };
    plan.iter().map(|c| Corner { lat: place.lat + c.lat, lon: place.lon + lon(c.lon) }).collect()
}

/// A diagonal from corner to corner of a square of this extent, 8 to 31 u wide from west to east.
pub fn sliver(extent: i64, random: &mut Random) -> Vec<Corner> {
    let width = random.between(8, NARROW);
    let plan = vec![
        Corner { lat: 0, lon: 0 },
        Corner { lat: 0, lon: width },
        Corner { lat: extent, lon: extent },
        Corner { lat: extent, lon: extent - width },
    ];
    placed(plan, extent, random)
}

/// A spine along the south side and 256 teeth that go up to the north side: 1,024 corners. All teeth
/// lean by the same length, up to half the extent, and are 8 to 31 u wide from west to east.
pub fn comb(extent: i64, random: &mut Random) -> Vec<Corner> {
    const TEETH: i64 = 256;
    let (width, spine) = (random.between(8, NARROW), random.between(8, NARROW));
    let lean = random.between(0, extent / 2);
    let mut plan = vec![Corner { lat: 0, lon: 0 }];
    for tooth in (0..TEETH).rev() {
        let west = (extent - lean - width) * tooth / (TEETH - 1);
        let tip = west + lean;
        // The outermost teeth stand on the ends of the spine and start at its south side.
        if tooth == TEETH - 1 {
            plan.push(Corner { lat: 0, lon: west + width });
        } else {
            plan.push(Corner { lat: spine, lon: west + width });
        }
        plan.push(Corner { lat: extent, lon: tip + width });
        plan.push(Corner { lat: extent, lon: tip });
        if tooth > 0 {
            plan.push(Corner { lat: spine, lon: west });
        }
    }
    placed(plan, extent, random)
}

/// A band that goes up and down 511 times between the south and the north side: 1,024 corners.
pub fn zigzag(extent: i64, random: &mut Random) -> Vec<Corner> {
    const LEGS: i64 = 511;
    // From west to east a leg is as wide as the band is high, divided by the legs' slope: at most
    // 15 u; and a peak is nowhere wider than two legs.
    let highest = 15 * LEGS * extent / (extent + 15 * LEGS);
    let height = random.between(highest / 3, highest);
    let at = |turn: i64, up: i64| Corner {
        lat: up + turn % 2 * (extent - height),
        lon: extent * turn / LEGS,
    };
    let south = (0..=LEGS).map(|turn| at(turn, 0));
    let north = (0..=LEGS).rev().map(|turn| at(turn, height));
    placed(south.chain(north).collect(), extent, random)
}
