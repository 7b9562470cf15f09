//! The judge's tests of itself: both searches agree, reading gives back what
//! writing wrote, and what the document says of all codes and grounds.

use std::collections::BTreeSet;
use std::io::{self, Write};

use super::cases::cases;
use super::{accounts, crossings, journal, tails, totals};
use crate::generators::borderedges::border_edges;
use crate::generators::borders::borders;
use crate::generators::borderunits::{border_roads, border_units};
use crate::generators::changes::pair;
use crate::generators::random::Random;
use crate::generators::requests::{good_fields, kinds_of, requests};
use crate::generators::shapes;
use crate::generators::tails::tail_unit;
use crate::generators::units::coordinates_of;
use crate::program::boundary::{cell_inside, counts, edges, meets, Edge, Extent};
use crate::program::code::{self, letter_value, LENGTH, LETTERS};
use crate::program::grid::{
    size, stretches, Cell, Point, Stretch, COARSEST, DEGREE, FINEST, MINUTE, STEP,
};
use crate::program::grid::{LAT_END, LON_END};
use crate::program::lines::listing;
use crate::program::questions::Question;
use crate::program::quick;
use crate::program::trials::trials;
use crate::program::unit::{self, Kind, Road, Unit};

/// Codes random small units by brute force and by the quick search; whether
/// they agree on all.
pub fn agree(seed: u64, count: u64, output: &mut impl Write) -> io::Result<bool> {
    let mut random = Random::new(seed);
    for _ in 0..count {
        let (corners, plain) = shapes::small(&mut random);
        let quick = quick::chosen(&corners);
        if plain != quick {
            writeln!(output, "corners {:?}", coordinates_of(&corners))?;
            writeln!(output, "plain {plain:?}\nquick {quick:?}")?;
            return Ok(false);
        }
    }
    writeln!(output, "{count} agree")?;
    Ok(true)
}

/// The tests by name.
const TESTS: [(&str, fn() -> bool); 56] = [
    ("letters", letters_good),
    ("grid", grid_good),
    ("meeting", meeting_good),
    ("reading what writing wrote", round_trip_good),
    ("rectangles around units", rectangles_good),
    ("changes of the same ground", changes_good),
    ("borders of reading and writing", borders_good),
    ("borders of coding by both roads", roads_good),
    ("borders of the listing", listing_good),
    ("odd counts to the east and to the west", odd_good),
    ("sides where cells start", sides_good),
    ("inside and the plain search", inside_good),
    ("borders of edges", edges_good),
    ("answers of random questions", questions_good),
    ("random units that reach the search", units_good),
    ("crossed boundaries by hand", crossings::fixed_good),
    ("31 between 5 and 6", crossings::order_good),
    ("crossed boundaries by shared points", crossings::fractions_good),
    ("changes of crossed ground", crossings::changes_good),
    ("ways to be crossed and to miss it", crossings::makers_good),
    ("places of the edges that meet", crossings::places_good),
    ("random units for refusal 31", crossings::share_good),
    ("long tails by hand", tails::fixed_good),
    ("spans after a step and without one", tails::spans_good),
    ("ways to have a long tail", tails::sorts_good),
    ("random units with long tails", tails::share_good),
    ("answers of an account", accounts::answers_good),
    ("lowest and cleared places", accounts::places_good),
    ("accounts that are refused 40", accounts::handed_in_good),
    ("41, 42 and old in order", accounts::order_good),
    ("full accounts", accounts::full_good),
    ("active codes over a history", accounts::history_good),
    ("fixed and random messages", accounts::requests_good),
    ("fixed and random message lines", accounts::lines_good),
    ("one total for each count", totals::counts_good),
    ("what counts in a total", totals::places_good),
    ("totals that are asked for", totals::asked_good),
    ("totals that are handed back", totals::handed_back_good),
    ("lines that ask for the total", totals::lines_good),
    ("totals over a history", totals::history_good),
    ("random accounts with wrong totals", totals::requests_good),
    ("fixed accounts with wrong totals", totals::borders_good),
    ("the bytes of records", journal::bytes_good),
    ("records written and read back", journal::round_trip_good),
    ("records read and written again", journal::accepted_good),
    ("41, 42 and 51 in order", journal::writing_order_good),
    ("52, 53 and 54 in order", journal::reading_order_good),
    ("counts and stop of replay", journal::stops_good),
    ("replay of a full account", journal::full_good),
    ("the longest page", journal::longest_good),
    ("lines that are recorded", journal::lines_good),
    ("pages that are asked for", journal::asked_good),
    ("replay beside the account", journal::history_good),
    ("random pages", journal::requests_good),
    ("fixed pages", journal::borders_good),
    ("codes of random pages that are refused", journal::codes_good),
];

/// Runs every test; whether all are good.
pub fn selftest(output: &mut impl Write) -> io::Result<bool> {
    let mut good = cases(output)?;
    good &= agree(1, 2_000, output)?;
    for (name, test) in TESTS {
        let passed = test();
        writeln!(output, "{name} {}", if passed { "ok" } else { "FAILS" })?;
        good &= passed;
    }
    Ok(good)
}

/// Thirty-two letters in rising order, without I, O, S and Z, each found back.
fn letters_good() -> bool {
    LETTERS.windows(2).all(|two| two[0] < two[1])
        && (0..32).all(|value| letter_value(LETTERS[value]) == Some(value as u64))
        && (0..=255u8).filter(|&byte| letter_value(byte).is_some()).count() == 32
        && b"IOSZ".iter().all(|&byte| letter_value(byte).is_none())
        && LETTERS[23] == b'P'
}

/// In a degree each level's stretches follow each other without a gap, halve
/// at whole u, and only the six levels have cut ones.
fn grid_good() -> bool {
    (9..=FINEST).all(|level| {
        let ground = if level <= 15 { DEGREE } else { MINUTE };
        let all: Vec<Stretch> = stretches(level, 0, ground - 1, ground).collect();
        let joined = all.windows(2).all(|two| two[0].to == two[1].from);
        let whole =
            all.first().map(|s| s.from) == Some(0) && all.last().map(|s| s.to) == Some(ground);
        let halfway = all.iter().all(|s| {
            let step = if level == FINEST { STEP / 2 } else { STEP };
            (s.to - s.from) % 2 == 0 && (s.halfway() - s.from) % step == 0
        });
        let cut = all.iter().any(|s| s.to - s.from < size(level));
        joined && whole && halfway && cut == [10, 11, 12, 16, 17, 18].contains(&level)
    })
}

/// Meeting agrees with cutting the edge down to its part in the open cell.
fn meeting_good() -> bool {
    let mut random = Random::new(2);
    (0..200_000).all(|_| {
        // By 390,451,572 the largest are just below 4,294,967,295.
        let scale = random.pick(&[1, 1_000_003, 390_451_572]);
        let mut number = |least: i64, most: i64| random.between(least, most) * scale;
        let mut spot = || Point { lat: number(0, 9), lon: number(0, 9) };
        let (a, b) = (spot(), spot());
        let mut stretch = || {
            let from = number(1, 7);
            Stretch { from, to: from + number(1, 4) }
        };
        let cell = Cell { level: FINEST, lat: stretch(), lon: stretch() };
        let asked = Question::Meets { a, b, lat: cell.lat, lon: cell.lon }.yes();
        let rule = a != b && meets(&Edge { a, b }, &cell);
        asked == rule && (a == b || rule == part_inside(a, b, &cell))
    })
}

/// Whether some point a + t (b - a), t from 0 to 1, lies strictly in the cell;
/// bounds of t are kept as fractions with a denominator above 0.
fn part_inside(a: Point, b: Point, cell: &Cell) -> bool {
    let (mut low, mut high) = (Vec::new(), Vec::new());
    let lat = (a.lat, b.lat - a.lat, cell.lat);
    let lon = (a.lon, b.lon - a.lon, cell.lon);
    for (start, way, stretch) in [lat, lon] {
        let (near, far) = (stretch.from - start, stretch.to - start);
        match way.signum() {
            0 if near >= 0 || far <= 0 => return false,
            0 => {}
            1 => {
                low.push((near, way));
                high.push((far, way));
            }
            _ => {
                low.push((-far, -way));
                high.push((-near, -way));
            }
        }
    }
    let product = |a: i64, b: i64| i128::from(a) * i128::from(b);
    let less = |p: &(i64, i64), q: &(i64, i64)| product(p.0, q.1) < product(q.0, p.1);
    // The ends 0 and 1 belong to the edge, the cell's sides not to its inside.
    low.iter().all(|p| less(p, &(1, 1)) && high.iter().all(|q| less(p, q)))
        && high.iter().all(|q| less(&(0, 1), q))
}

fn round_trip_good() -> bool {
    let mut random = Random::new(3);
    (0..20_000).all(|_| {
        let fields = good_fields(&mut random);
        let mut room = [0; LENGTH];
        let written = code::write(&fields, &mut room);
        written.is_ok() && code::read(&room).is_ok_and(|(read, _)| read == fields)
    })
}

pub fn coded(corners: &[Point], room: &mut [u8]) -> Result<(), code::Refusal> {
    let coordinates = coordinates_of(corners).into_iter().map(|c| c as u32).collect();
    unit::code(&Unit { kind: Kind::Other, number: 0, coordinates }, room, Road::Quick)
}

/// Each side read back lies at or beyond the unit's extreme, by less than the size
/// of the code's own scale, also after a step to a coarser one.
fn rectangles_good() -> bool {
    let mut random = Random::new(4);
    (0..6_000).all(|round| {
        let small = round % 2 == 0;
        let corners = if small { shapes::simple(&mut random).0 } else { tail_unit(&mut random) };
        let mut room = [0; LENGTH];
        if coded(&corners, &mut room).is_err() {
            return true;
        }
        match (code::read(&room), Extent::of(&corners)) {
            (Ok((fields, r)), Some(extent)) => {
                let near = 0..size(fields.scale as u8);
                near.contains(&(extent.west - r.west))
                    && near.contains(&(r.east - extent.east))
                    && near.contains(&(extent.south - r.south))
                    && near.contains(&(r.north - extent.north))
            }
            _ => false,
        }
    })
}

/// The same ground has the same code, or a refusal with the same number; the place
/// of a 31 may differ.
fn changes_good() -> bool {
    let mut random = Random::new(5);
    (0..3_000).all(|_| {
        let (first, second) = pair(&mut random);
        let (mut one, mut two) = ([0; LENGTH], [0; LENGTH]);
        let number = |refusal: code::Refusal| refusal.number;
        let first = coded(&first, &mut one).map_err(number);
        first == coded(&second, &mut two).map_err(number) && one == two
    })
}

/// What the trials answer to a fixed list.
fn answers(list: impl FnOnce(&mut Vec<u8>) -> io::Result<()>) -> String {
    let (mut requests, mut answers) = (Vec::new(), Vec::new());
    // Writing into a Vec does not fail.
    let _ = list(&mut requests).and_then(|()| trials(requests.as_slice(), &mut answers));
    String::from_utf8_lossy(&answers).into_owned()
}

/// Whether the answers have just the wanted numbers.
fn meet(answers: &str, wanted: &str) -> bool {
    let met: BTreeSet<&str> = answers.lines().filter_map(|line| line.split(' ').next()).collect();
    met == wanted.split(' ').collect()
}

/// The fixed requests meet every number of reading and writing, and `?`.
fn borders_good() -> bool {
    meet(&answers(borders), "? 0 11 12 13 14 15 16 17 18 21 22 23 24 25")
}

/// The fixed units meet every number of coding, the same by both roads.
fn roads_good() -> bool {
    let answers = answers(border_roads);
    let all: Vec<&str> = answers.lines().collect();
    meet(&answers, "0 1 2 3 31 4 5 6 7") && all.chunks(2).all(|two| two[0] == two[two.len() - 1])
}

/// The fixed lines meet every number of the listing several times, 8 never, and
/// each reply has its line's number.
fn listing_good() -> bool {
    let (mut lines, mut replies) = (Vec::new(), Vec::new());
    // Writing into a Vec does not fail.
    let _ = border_units(&mut lines).and_then(|()| listing(lines.as_slice(), &mut replies));
    let replies = String::from_utf8_lossy(&replies).into_owned();
    let numbered = replies.lines().zip(1..).all(|(reply, n)| reply.starts_with(&format!("{n} ")));
    let refused = |number: u8| replies.matches(&format!(" refused {number} ")).count();
    let codes = replies.lines().filter(|reply| !reply.contains("refused")).count();
    numbered
        && codes > 100
        && (2..=10).all(|number| if number == 8 { refused(8) == 0 } else { refused(number) >= 5 })
        && refused(9) > 70
        && refused(31) > 50
}

/// A boundary is closed, so an even count of edges crosses a latitude: those
/// east of a point are odd in number when the others are.
fn odd_good() -> bool {
    let mut random = Random::new(6);
    (0..50_000).all(|_| {
        let most = random.pick(&[5, 100, u32::MAX.into()]);
        let mut number = || random.between(0, most);
        let point = Point { lat: number(), lon: number() };
        let coordinates: Vec<i64> = (0..number() % 20).map(|_| number()).collect();
        let all: Vec<Point> =
            coordinates.chunks_exact(2).map(|c| Point { lat: c[0], lon: c[1] }).collect();
        let crossing = |edge: &Edge| (edge.a.lat <= point.lat) != (edge.b.lat <= point.lat);
        let elsewhere = |edge: &&Edge| crossing(edge) && !counts(edge, point);
        let west = edges(&all).iter().filter(elsewhere).count();
        Question::Odd { point, coordinates }.yes() == (west % 2 == 1)
    })
}

/// With a boundary around everything, just the cells that follow each other
/// without a gap from 0 are inside, in each direction.
fn sides_good() -> bool {
    let most = i64::from(u32::MAX);
    let coordinates = vec![0, 0, 0, most, most, most, most, 0];
    let asked = |level: u8, west: i64, south: i64| {
        let coordinates = coordinates.clone();
        Question::Inside { level: level.into(), west, south, coordinates }.yes()
    };
    (COARSEST..=FINEST).all(|level| {
        let starts = |end: i64| {
            let first = end - DEGREE;
            let all: BTreeSet<i64> = stretches(level, first, end, end).map(|s| s.from).collect();
            // Half seconds of the last degree and of one past it, and half
            // steps of more than a minute.
            let coarse = (0..2 * 7_200).map(move |k| first + k * (MINUTE / 120));
            let fine = (0..8_000).map(move |k| first + k * (STEP / 2));
            coarse.chain(fine).map(move |side| (side, all.contains(&side)))
        };
        starts(LON_END).all(|(west, good)| asked(level, west, 0) == good)
            && starts(LAT_END).all(|(south, good)| asked(level, 0, south) == good)
    })
}

/// The question asks for what the plain search tests in its cells, and says
/// yes of the cell that search chooses and of none before it.
fn inside_good() -> bool {
    let mut random = Random::new(7);
    (0..300).all(|_| {
        let (corners, chosen) = shapes::small(&mut random);
        let (Some(extent), all) = (Extent::of(&corners), edges(&corners)) else {
            return false;
        };
        let cells = (COARSEST..=FINEST).flat_map(|level| {
            stretches(level, extent.west, extent.east, LON_END).flat_map(move |lon| {
                stretches(level, extent.south, extent.north, LAT_END).map(move |lat| Cell {
                    level,
                    lat,
                    lon,
                })
            })
        });
        let asked = |cell: &Cell| {
            let (level, west, south) = (cell.level.into(), cell.lon.from, cell.lat.from);
            let coordinates = coordinates_of(&corners);
            Question::Inside { level, west, south, coordinates }.yes()
        };
        let mut first = None;
        let same = cells.take(2_000).all(|cell| {
            let yes = asked(&cell);
            if yes && first.is_none() {
                first = Some(cell);
            }
            yes == cell_inside(&all, &cell)
        });
        same && chosen.is_none_or(|cell| asked(&cell)) && (first.is_none() || first == chosen)
    })
}

/// The fixed questions are answered both ways, and the malformed ones not.
fn edges_good() -> bool {
    meet(&answers(border_edges), "? 0 1")
}

/// Each kind of random questions is answered yes about as often as no.
fn questions_good() -> bool {
    ["meets", "odd", "inside"].iter().all(|kind| {
        let Some(share) = kinds_of(kind) else {
            return false;
        };
        let (mut lines, mut answers) = (Vec::new(), Vec::new());
        // Writing into a Vec does not fail.
        let _ = requests(8, 5_000, &share, &mut lines);
        let _ = trials(lines.as_slice(), &mut answers);
        let count = |byte: u8| answers.iter().filter(|&&b| b == byte).count();
        // A few lines are too long.
        (2_000..3_000).contains(&count(b'1'))
            && (2_000..3_000).contains(&count(b'0'))
            && count(b'?') < 20
            && answers.len() == 10_000
    })
}

/// The units that are made to reach the search do, and meet each answer that
/// can then be given.
fn units_good() -> bool {
    ["plain-units", "quick-units"].iter().all(|kind| {
        let answered = answers(|output| match kinds_of(kind) {
            Some(share) => requests(9, 2_000, &share, output),
            None => Ok(()),
        });
        answered.lines().count() == 2_000 && meet(&answered, "0 7")
    })
}
