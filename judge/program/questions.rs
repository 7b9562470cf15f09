//! The questions of the trials that have yes or no for an answer: whether an
//! edge meets a rectangle, a point has an odd count, a cell is inside.

use super::boundary::{cell_inside, edges, meets_rectangle, point_inside, Edge};
use super::grid::{Cell, Point, Stretch};

/// Numbers are 0 to 4,294,967,295. Coordinates are latitude and longitude
/// alternating; a last one without a partner makes no corner.
#[derive(Clone, Debug)]
pub enum Question {
    Meets { a: Point, b: Point, lat: Stretch, lon: Stretch },
    Odd { point: Point, coordinates: Vec<i64> },
    Inside { level: i64, west: i64, south: i64, coordinates: Vec<i64> },
}

impl Question {
    /// The question of a request's first word and the numbers after it.
    pub fn of(word: &[u8], numbers: &[i64]) -> Option<Question> {
        match (word, numbers) {
            (b"meets", &[a_lat, a_lon, b_lat, b_lon, west, east, south, north]) => {
                Some(Question::Meets {
                    a: Point { lat: a_lat, lon: a_lon },
                    b: Point { lat: b_lat, lon: b_lon },
                    lat: Stretch { from: south, to: north },
                    lon: Stretch { from: west, to: east },
                })
            }
            (b"odd", &[lat, lon, ref coordinates @ ..]) => {
                Some(Question::Odd { point: Point { lat, lon }, coordinates: coordinates.to_vec() })
            }
            (b"inside", &[level, west, south, ref coordinates @ ..]) => {
                Some(Question::Inside { level, west, south, coordinates: coordinates.to_vec() })
            }
            _ => None,
        }
    }

    /// The request that asks it.
    pub fn line(&self) -> Vec<u8> {
        let (word, numbers, coordinates): (&str, Vec<i64>, &[i64]) = match self {
            Question::Meets { a, b, lat, lon } => {
                let ends = [a.lat, a.lon, b.lat, b.lon];
                let sides = [lon.from, lon.to, lat.from, lat.to];
                ("meets", [ends, sides].concat(), &[])
            }
            Question::Odd { point, coordinates } => {
                ("odd", vec![point.lat, point.lon], coordinates)
            }
            Question::Inside { level, west, south, coordinates } => {
                ("inside", vec![*level, *west, *south], coordinates)
            }
        };
        let mut line = word.to_string();
        for number in numbers.iter().chain(coordinates) {
            line.push_str(&format!(" {number}"));
        }
        line.into_bytes()
    }

    /// The answer.
    pub fn yes(&self) -> bool {
        match self {
            // An edge of no length never meets.
            Question::Meets { a, b, lat, lon } => {
                a != b && meets_rectangle(&Edge { a: *a, b: *b }, *lat, *lon)
            }
            Question::Odd { point, coordinates } => {
                point_inside(&edges(&corners_of(coordinates)), *point)
            }
            Question::Inside { level, west, south, coordinates } => {
                Cell::with_sides(*level, *west, *south)
                    .is_some_and(|cell| cell_inside(&edges(&corners_of(coordinates)), &cell))
            }
        }
    }
}

fn corners_of(coordinates: &[i64]) -> Vec<Point> {
    coordinates.chunks_exact(2).map(|c| Point { lat: c[0], lon: c[1] }).collect()
}
