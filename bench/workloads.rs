//! Prints units for measuring, one a line in the listing's grammar:
//!   workloads KIND SEED COUNT
//! The same words give the same lines on every machine. The kinds are those of `unit_of`.

mod plan;
#[allow(dead_code)] // the judge uses more of it
#[path = "../judge/generators/random.rs"]
mod random;
mod shapes;
mod simple;
mod worst;

use std::io::{self, Write};

use plan::Corner;
use random::Random;

const USAGE: &str = "usage: workloads KIND SEED COUNT
KIND: houses fields coasts day corners:N extent:U slivers combs zigzags,
      or shorter worst cases, slivers:U combs:U zigzags:U";

/// A degree in u, the largest extent that is coded.
pub const DEGREE: i64 = 7_372_800;

/// A unit of the kind, or none for a word that is no kind. `place` is the unit's place in the list.
fn unit_of(kind: &str, place: u64, random: &mut Random) -> Option<Vec<Corner>> {
    let (name, size) = match kind.split_once(':') {
        Some((name, size)) => (name, Some(size.parse().ok()?)),
        None => (kind, None),
    };
    Some(match (name, size) {
        ("houses", None) => shapes::house(random),
        ("fields", None) => shapes::field(random),
        ("coasts", None) => shapes::coast(random),
        ("day", None) => shapes::of_a_day(place, random),
        ("corners", Some(count @ 3..=1_024)) => shapes::with_corners(count, random),
        ("extent", Some(extent @ 1_024..=DEGREE)) => shapes::with_extent(extent, random),
        ("slivers", extent) => worst::sliver(long(extent)?, random),
        ("combs", extent) => worst::comb(long(extent)?, random),
        ("zigzags", extent) => worst::zigzag(long(extent)?, random),
        _ => return None,
    })
}

/// The extent of a worst case: a degree where none is asked for, and not so short that it would be
/// no worst case any more.
fn long(extent: Option<i64>) -> Option<i64> {
    Some(extent.unwrap_or(DEGREE)).filter(|extent| (65_536..=DEGREE).contains(extent))
}

/// A unit whose edges do not cross or touch. Rounding to whole u can make two of a small unit touch,
/// so a unit is drawn until one is simple.
fn simple_unit_of(kind: &str, place: u64, random: &mut Random) -> Option<Vec<Corner>> {
    loop {
        let corners = unit_of(kind, place, random)?;
        if simple::is_simple(&corners) {
            return Some(corners);
        }
    }
}

fn print_unit(corners: &[Corner], output: &mut impl Write) -> io::Result<()> {
    write!(output, "F 0")?;
    for corner in corners {
        write!(output, " {} {}", corner.lat, corner.lon)?;
    }
    writeln!(output)
}

/// Prints the units, or answers false for words that say none.
fn print_units(words: &[String], output: &mut impl Write) -> io::Result<bool> {
    let [kind, seed, count] = words else { return Ok(false) };
    let (Ok(seed), Ok(count)) = (seed.parse(), count.parse()) else { return Ok(false) };
    let mut random = Random::new(seed);
    for place in 0..count {
        let Some(corners) = simple_unit_of(kind, place, &mut random) else { return Ok(false) };
        print_unit(&corners, output)?;
    }
    output.flush().map(|()| true)
}

fn main() {
    let words: Vec<String> = std::env::args().skip(1).collect();
    let mut output = io::BufWriter::new(io::stdout().lock());
    match print_units(&words, &mut output) {
        Ok(true) => {}
        Ok(false) => {
            eprintln!("{USAGE}");
            std::process::exit(2);
        }
        Err(error) => {
            eprintln!("workloads: {error}");
            std::process::exit(2);
        }
    }
}
