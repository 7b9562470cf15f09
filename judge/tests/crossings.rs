//! The judge's tests of crossed boundaries: the fixed units by hand, a second way
//! to decide by shared points as fractions, demand 3's changes, and what the
//! generators make.

use std::collections::BTreeSet;

use crate::generators::bordercrossings::crossings;
use crate::generators::changes::change_often;
use crate::generators::crossing::{crossed_unit, missed_unit, CROSSED, MISSED};
use crate::generators::random::Random;
use crate::generators::requests::{kinds_of, requests};
use crate::generators::units::line_of;
use crate::generators::waists::crossed_waist;
use crate::program::boundary::{edges, Edge};
use crate::program::crossed::{crossed, first_pair};
use crate::program::grid::Point;
use crate::program::trials::trials;

/// The fixed units meet first where they do by hand, and both roads refuse just
/// those that meet, with the first place.
pub fn fixed_good() -> bool {
    crossings().iter().all(|(coordinates, pair)| {
        let corners: Vec<Point> =
            coordinates.chunks_exact(2).map(|c| Point { lat: c[0], lon: c[1] }).collect();
        let line = String::from_utf8_lossy(&line_of('B', 1, coordinates)).into_owned();
        let answered = ["plain", "quick"].iter().all(|road| {
            let answer = answer(&format!("{road} 20 {line}"));
            match pair {
                Some((first, _)) => answer == format!("31 {first} ...................."),
                None => ["0 0 ", "7 0 "].iter().any(|good| answer.starts_with(good)),
            }
        });
        answered && first_pair(&corners) == *pair && shares_first(&corners) == *pair
    })
}

/// What the trials answer to a request.
fn answer(request: &str) -> String {
    let mut answer = Vec::new();
    // Writing into a Vec does not fail.
    let _ = trials(request.as_bytes(), &mut answer);
    String::from_utf8_lossy(&answer).trim_end().to_string()
}

/// A crossed unit that another check refuses too has the refusal that comes first.
pub fn order_good() -> bool {
    let cases = [
        ("20 F 0 0 0 64 64 0 64 64 0", "31 0 ...................."),
        ("19 F 0 0 0 64 64 0 64 64 0", "1 0 ..................."),
        ("20 F 0 0 0 64 64 0 64 64 0 0", "2 0 ...................."),
        ("20 F 0 0 0 64 64", "3 0 ...................."),
        ("20 F 0 0 0 64 64 0 64 64 1327104001", "4 3 ...................."),
        ("20 F 0 0 0 7372800 7372800 0 7372800 7372800 0", "31 0 ...................."),
        ("20 F 0 0 0 7372801 64 0 64 7372801 0", "5 0 ...................."),
        ("20 B 0 0 0 7372801 64 0 64 7372801 0", "5 0 ...................."),
        ("20 B 0 0 0 64 64 0 64 64 0", "31 0 ...................."),
        ("20 F 1 0 0 0 0 64 64", "31 1 ...................."),
        ("20 F 1 0 0 0 64 64 64", "6 0 ...................."),
        ("20 F 1 64 64 64 64 64 64", "6 0 ...................."),
        ("20 F 0 64 64 64 64 64 64", "7 0 ...................."),
    ];
    let roads = ["plain", "quick"];
    roads
        .iter()
        .all(|road| cases.iter().all(|(unit, said)| answer(&format!("{road} {unit}")) == *said))
}

/// The rule in whole numbers finds the pair that shared points find, on many small
/// grids and on some that are as large as numbers may be.
pub fn fractions_good() -> bool {
    let mut random = Random::new(10);
    (0..150_000).all(|_| {
        let side = random.between(1, 5);
        let step = random.pick(&[1, 1, 858_993_459]);
        let count = random.index(7) + 3;
        let mut number = || random.between(0, side) * step;
        let corners: Vec<Point> =
            (0..count).map(|_| Point { lat: number(), lon: number() }).collect();
        first_pair(&corners) == shares_first(&corners)
    })
}

/// The places of the first pair of edges that share a point other than the corner
/// at which one follows the other.
fn shares_first(corners: &[Point]) -> Option<(usize, usize)> {
    let all = edges(corners);
    let next = |k: usize| corners[(k + 1) % corners.len()];
    let places: Vec<usize> = (0..corners.len()).filter(|&k| corners[k] != next(k)).collect();
    let pairs = (0..all.len()).flat_map(|i| (i + 1..all.len()).map(move |j| (i, j)));
    let follows = |one: usize, other: usize| one == (other + 1) % all.len();
    let mut meeting = pairs.filter(|&(i, j)| match shared(&all[i], &all[j]) {
        Shared::Nothing => false,
        Shared::More => true,
        // The fraction of the way along each edge at which the point lies.
        Shared::Point(along_i, along_j) => {
            let at_end = |(part, whole): Fraction| part == whole;
            let at_start = |(part, _): Fraction| part == 0;
            let joint = (follows(j, i) && at_end(along_i) && at_start(along_j))
                || (follows(i, j) && at_end(along_j) && at_start(along_i));
            !joint
        }
    });
    meeting.next().map(|(i, j)| (places[i], places[j]))
}

/// Part and whole; the whole is above 0.
type Fraction = (i128, i128);

enum Shared {
    Nothing,
    Point(Fraction, Fraction),
    /// A stretch of some length.
    More,
}

/// What two edges share, by solving for the ways along them.
fn shared(e: &Edge, f: &Edge) -> Shared {
    let (along_e, along_f, between) = (way(e.a, e.b), way(f.a, f.b), way(e.a, f.a));
    let turn = turn(along_e, along_f);
    if turn == 0 {
        return shared_on_line(e, f);
    }
    let fraction = |part: i128| (part * turn.signum(), turn.abs());
    let (on_e, on_f) =
        (fraction(self::turn(between, along_f)), fraction(self::turn(between, along_e)));
    let within = |(part, whole): Fraction| 0 <= part && part <= whole;
    if within(on_e) && within(on_f) {
        Shared::Point(on_e, on_f)
    } else {
        Shared::Nothing
    }
}

/// What two edges of one direction share: where the ends of one lie along the other.
fn shared_on_line(e: &Edge, f: &Edge) -> Shared {
    let along = way(e.a, e.b);
    if turn(along, way(e.a, f.a)) != 0 {
        return Shared::Nothing;
    }
    let whole = dot(along, along);
    let (from, to) = (dot(along, way(e.a, f.a)), dot(along, way(e.a, f.b)));
    let (least, greatest) = (from.min(to).max(0), from.max(to).min(whole));
    if least > greatest {
        return Shared::Nothing;
    }
    if least < greatest {
        return Shared::More;
    }
    // One point, an end of both.
    let on_f = if least == from { 0 } else { 1 };
    Shared::Point((least, whole), (on_f, 1))
}

fn way(from: Point, to: Point) -> (i128, i128) {
    (i128::from(to.lat - from.lat), i128::from(to.lon - from.lon))
}

fn turn(one: (i128, i128), other: (i128, i128)) -> i128 {
    one.0 * other.1 - one.1 * other.0
}

fn dot(one: (i128, i128), other: (i128, i128)) -> i128 {
    one.0 * other.0 + one.1 * other.1
}

/// None of demand 3's changes makes or cures a crossing.
pub fn changes_good() -> bool {
    let mut random = Random::new(11);
    (0..4_000).all(|round| {
        let wanted = round % 2 == 0;
        let mut corners = if wanted { crossed_unit(&mut random) } else { missed_unit(&mut random) };
        change_often(&mut random, &mut corners);
        crossed(&corners).is_some() == wanted
    })
}

/// Each way to be crossed nearly always is, and each way to miss it nearly always
/// does.
pub fn makers_good() -> bool {
    let mut random = Random::new(12);
    let mut share = |maker: fn(&mut Random) -> Vec<Point>| {
        (0..100).filter(|_| crossed(&maker(&mut random)).is_some()).count()
    };
    CROSSED.iter().all(|&maker| share(maker) >= 80)
        && MISSED.iter().all(|&maker| share(maker) <= 20)
}

/// The pairs that meet first at a waist lie at all places of blocks of 16 edges, at the list's
/// start and end, and near each other and far apart in long lists.
pub fn places_good() -> bool {
    let mut random = Random::new(13);
    let (mut blocks, mut sorts) = (BTreeSet::new(), BTreeSet::new());
    for _ in 0..8_000 {
        let corners = crossed_waist(&mut random);
        let Some((first, second)) = first_pair(&corners) else {
            return false;
        };
        let count = corners.len();
        blocks.insert((first % 16, second % 16));
        sorts.extend((first == 0).then_some("first edge"));
        sorts.extend((second + 1 == count).then_some("closing edge"));
        sorts.extend((first + 3 == count).then_some("the last pair"));
        sorts.extend((count > 1_000 && second + 1 == count).then_some("closing edge of many"));
        sorts.extend((count > 64 && first + 3 == count).then_some("the last pair of many"));
        sorts.extend((count > 1_000 && second - first > 500).then_some("far apart"));
        sorts.extend((count == 1_024).then_some("1,024"));
    }
    blocks.len() == 256 && sorts.len() == 7
}

/// Of the requests for refusal 31 about half are refused by it, half of each road's;
/// the others pass it.
pub fn share_good() -> bool {
    let Some(share) = kinds_of("crossed-units") else {
        return false;
    };
    let (mut lines, mut answers) = (Vec::new(), Vec::new());
    // Writing into a Vec does not fail.
    let _ = requests(14, 2_000, &share, &mut lines);
    let _ = trials(lines.as_slice(), &mut answers);
    let (lines, answers) = (String::from_utf8_lossy(&lines), String::from_utf8_lossy(&answers));
    let both = || lines.lines().zip(answers.lines());
    ["plain", "quick"].iter().all(|road| {
        let count = |number: &str| {
            both().filter(|(l, a)| l.starts_with(road) && a.starts_with(number)).count()
        };
        (400..600).contains(&count("31 ")) && (900..1_100).contains(&count("")) && count("6 ") > 10
    }) && answers.lines().all(|a| ["0 ", "31 ", "6 ", "7 "].iter().any(|n| a.starts_with(n)))
}
