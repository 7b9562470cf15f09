//! The document's cases 1 to 12 and its listing example, run in the judge; case 5
//! as request 2 of document 02 has it.

use std::io::{self, Write};

use crate::program::code::{self, Parts, LENGTH};
use crate::program::grid::{Cell, Point, DEGREE, SECOND};
use crate::program::lines::{self, unit_of, words};
use crate::program::trials;
use crate::program::unit::{self, scale, Road};

pub const LISTING_INPUT: &str =
    "F 0 0 0 0 960 32 960 32 0\nF 0 0 0 0 961 32 961 32 0\n\nB 0 0 0 0 960 32 960 32 0\n";
const LISTING_OUTPUT: &str =
    "1 00000000001UY1120000\n2 00000000001TH1120000\n3 refused 9 0\n4 refused 6 0\n";

/// A case's number, what the judge says and what the document says.
type Case = (u8, String, String);

/// Prints each case with `ok` or with what differs; whether all are ok.
pub fn cases(output: &mut impl Write) -> io::Result<bool> {
    let mut all = [coding_cases(), grid_cases(), reading_cases(), number_cases()].concat();
    all.sort_by_key(|case| case.0);
    let mut good = true;
    for (number, got, wanted) in all {
        if got == wanted {
            writeln!(output, "case {number} ok: {wanted}")?;
        } else {
            writeln!(output, "case {number} differs: {got}, document: {wanted}")?;
            good = false;
        }
    }
    let mut listed = Vec::new();
    lines::listing(LISTING_INPUT.as_bytes(), &mut listed)?;
    let listing_good = listed == LISTING_OUTPUT.as_bytes();
    writeln!(output, "listing example {}", if listing_good { "ok" } else { "differs" })?;
    Ok(good && listing_good)
}

/// What coding answers by both roads: the code, or `refused` with the number.
fn coded(line: &str) -> String {
    let by = |road: Road| {
        let mut room = [0; LENGTH];
        match unit_of(words(line.as_bytes())).map(|unit| unit::code(&unit, &mut room, road)) {
            Some(Ok(())) => String::from_utf8_lossy(&room).into_owned(),
            Some(Err(refusal)) => format!("refused {}", refusal.number),
            None => "no unit".to_string(),
        }
    };
    let (plain, quick) = (by(Road::Plain), by(Road::Quick));
    if plain == quick {
        plain
    } else {
        format!("plain {plain}, quick {quick}")
    }
}

/// A square's corners as the rest of a listing line.
fn square(south: i64, west: i64, side: i64) -> String {
    let (north, east) = (south + side, west + side);
    format!("{south} {west} {south} {east} {north} {east} {north} {west}")
}

fn case(number: u8, got: String, wanted: &str) -> Case {
    (number, got, wanted.to_string())
}

fn coding_cases() -> Vec<Case> {
    let one = format!("B 1 {}", square(294_250_496, 857_567_232, 2_048));
    let place = (39 * DEGREE + 3_277 * SECOND, 116 * DEGREE + 1_134 * SECOND);
    let three = format!("F 0 {}", square(48 * SECOND, 48 * SECOND, 12 * SECOND));
    vec![
        case(1, coded(&one), "0W7ARCTDHYYRA99A0001"),
        case(1, format!("{place:?}"), "(294250496, 857567232)"),
        case(3, coded(&three), "000000XCYYYNEDDE0000"),
        case(4, coded("F 0 0 0 0 960 32 960 32 0"), "00000000001UY1120000"),
        case(5, coded("F 0 0 0 0 961 32 961 32 0"), "00000000001TH1120000"),
        case(6, coded("F 0 0 0 0 32 32 0"), "refused 7"),
    ]
}

fn grid_cases() -> Vec<Case> {
    let cut = Cell::at(17, Point { lat: 59 * SECOND, lon: 59 * SECOND });
    let centre = cut.centre();
    let seconds = format!("{} {}", centre.lat / SECOND, centre.lon / SECOND);
    vec![
        case(3, format!("{} {}", cut.lat.from / SECOND, cut.lon.to / SECOND), "48 60"),
        case(3, seconds, "54 54"),
        case(7, scale(1_023).to_string(), "27"),
        case(7, scale(1_024).to_string(), "26"),
    ]
}

/// What the trials answer to a text to be read.
fn read(text: &str) -> String {
    let mut answer = Vec::new();
    // Writing into a Vec does not fail.
    let _ = trials::trials(format!("read {text}").as_bytes(), &mut answer);
    String::from_utf8_lossy(&answer).trim_end().to_string()
}

/// The location letters of annex B's digits, each a pair of bits.
fn letters_of_digits(digits: &str) -> String {
    let bits =
        |shift: u8| digits.bytes().fold(0, |bits, digit| bits << 1 | u64::from(digit >> shift & 1));
    let (lat_bits, lon_bits) = (bits(1), bits(0));
    let parts = Parts { lat_bits, lon_bits, closing: 1, scale: 0, spans: [0; 4], number: 0 };
    String::from_utf8_lossy(&code::spell(&parts)[..11]).into_owned()
}

fn reading_cases() -> Vec<Case> {
    const REFUSED: &str = "0 0 0 0 0 0 0 0 0 0 0 0";
    let two = "0 0 294251488 857568224 25 10 9 9 10 1 857567200 857569376 294250464 294252640";
    vec![
        case(2, read("0W7ARCTDHYYRA99A0001"), two),
        case(8, letters_of_digits("201002010020100201002010020"), "GGGGGGGGGGH"),
        case(9, read("GGGGGGGGGGHUY1120000"), &format!("14 0 {REFUSED}")),
        case(9, read("GGGGGGGGGGGUY1120000"), &format!("13 0 {REFUSED}")),
        case(10, read("00000000001UY112000O"), &format!("12 19 {REFUSED}")),
    ]
}

fn number_cases() -> Vec<Case> {
    let unit = square(0, 0, 32);
    let wide = coded(&format!("F 0 {}", square(0, 0, 7_372_800)));
    let passes = wide.len() == LENGTH && !wide.starts_with("refused");
    let last = coded(&format!("B 1048575 {unit}"));
    vec![
        case(11, passes.to_string(), "true"),
        case(11, coded(&format!("F 0 {}", square(0, 0, 7_372_801))), "refused 5"),
        case(12, coded(&format!("B 0 {unit}")), "refused 6"),
        case(12, coded(&format!("F 1 {unit}")), "refused 6"),
        case(12, last.chars().skip(16).collect(), "YYYY"),
    ]
}
