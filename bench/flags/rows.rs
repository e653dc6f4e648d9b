//! Questions about the flags of a frame: who answers them, and the rows of their table.

use std::hint::black_box;

use crate::data::Draws;
use crate::plain;
use crate::ramp_board::{count_flags, nearest_flag, Refusal};
use crate::timing::{take_turns, Ratio};

/// A row and a column.
pub type Place = (usize, usize);
pub type Nearest = Result<Option<Place>, Refusal>;
pub type Count = Result<usize, Refusal>;

/// A program: the flag nearest to a place, and the flags in a box, of words with their width and height.
#[derive(Clone, Copy)]
pub struct Program {
    pub name: &'static str,
    pub nearest: fn(&[u16], usize, usize, Place) -> Nearest,
    pub count: fn(&[u16], usize, usize, Place, Place) -> Count,
}

const OURS: Program = Program {
    name: "ours",
    nearest: |words, width, height, place| nearest_flag(words, width, height, place.0, place.1),
    count: count_flags,
};

pub const PROGRAMS: [Program; 2] = [OURS, plain::PROGRAM];

pub const FLAGS: [u16; 10] = [
    32_753, 32_754, 32_755, 32_756, 32_757, 32_758, 32_759, 32_760, 32_761, 32_767,
];

pub const SIDE: usize = 1024;

/// The end of the longest part of a row that the search asks at once, from column 0.
const FAR: usize = 959;

/// How many places a timed call asks for, so that no single one decides.
const PLACES: usize = 64;

/// How long each row may take, in seconds.
const SECONDS: f64 = 1.0;

#[derive(Clone, Copy, PartialEq)]
pub enum Row {
    /// With so many flags in 10,000 words.
    Nearest(u32),
    /// With one flag in each row, where the search takes long to find it.
    NearestFar,
    CountWhole,
    CountBox,
}

pub const ROWS: [Row; 7] = [
    Row::Nearest(1_000),
    Row::Nearest(100),
    Row::Nearest(1),
    Row::Nearest(0),
    Row::NearestFar,
    Row::CountWhole,
    Row::CountBox,
];

/// What one timed call asks for.
pub enum Asked {
    Nearest(Vec<Place>),
    Count(Place, Place),
}

impl Row {
    pub fn name(self) -> String {
        match self {
            Row::Nearest(0) => "nearest, flags none".to_string(),
            Row::Nearest(parts) => format!("nearest, flags {} %", f64::from(parts) / 100.0),
            Row::NearestFar => "nearest, one flag in each row, far from the place".to_string(),
            Row::CountWhole => "count, whole frame".to_string(),
            Row::CountBox => "count, a box".to_string(),
        }
    }

    pub fn is_count(self) -> bool {
        matches!(self, Row::CountWhole | Row::CountBox)
    }

    pub fn words(self) -> Vec<u16> {
        match self {
            Row::Nearest(parts) => words(parts),
            Row::NearestFar => {
                let mut far = words(0);
                for line in far.chunks_mut(SIDE) {
                    line[FAR] = FLAGS[0];
                }
                far
            }
            _ => words(100),
        }
    }

    pub fn asked(self) -> Asked {
        match self {
            Row::Nearest(_) => {
                let mut draws = Draws::new(64);
                let mut at = || draws.below(SIDE as u32) as usize;
                Asked::Nearest((0..PLACES).map(|_| (at(), at())).collect())
            }
            Row::NearestFar => Asked::Nearest(vec![(SIDE / 2, 0)]),
            Row::CountWhole => Asked::Count((0, 0), (SIDE - 1, SIDE - 1)),
            Row::CountBox => {
                let (first, last) = (SIDE / 4, SIDE / 4 + SIDE / 2 - 1);
                Asked::Count((first, first), (last, last))
            }
        }
    }
}

/// The words of a frame, so many of 10,000 flags and the others ordinary.
fn words(parts: u32) -> Vec<u16> {
    let mut draws = Draws::new(u64::from(parts) + 1);
    let mut word = || {
        if draws.below(10_000) < parts {
            FLAGS[draws.below(10) as usize]
        } else {
            draws.below(32_752) as u16
        }
    };
    (0..SIDE * SIDE).map(|_| word()).collect()
}

fn call(program: &Program, words: &[u16], asked: &Asked) {
    match asked {
        Asked::Nearest(places) => {
            for &place in places {
                let found = (program.nearest)(black_box(words), SIDE, SIDE, place);
                black_box(found.unwrap());
            }
        }
        &Asked::Count(first, last) => {
            let flags = (program.count)(black_box(words), SIDE, SIDE, first, last);
            black_box(flags.unwrap());
        }
    }
}

/// What was measured of a row: ours to the straightforward program.
pub struct Cell {
    pub row: Row,
    pub ratio: Ratio,
}

pub fn measure(mut seen: impl FnMut(&Cell)) -> Vec<Cell> {
    let mut cells = vec![];
    for row in ROWS {
        let (words, asked) = (row.words(), row.asked());
        let mut ours = || call(&PROGRAMS[0], &words, &asked);
        let mut plain = || call(&PROGRAMS[1], &words, &asked);
        let t = take_turns(&mut [&mut ours, &mut plain], SECONDS);
        let cell = Cell {
            row,
            ratio: t.ratio(0, 1),
        };
        seen(&cell);
        cells.push(cell);
    }
    cells
}
