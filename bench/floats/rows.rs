//! The programs, and the rows of the table.

use crate::calls::{Calls, Row};
use crate::job::{Job, Program};
use crate::timing::{take_turns, Times};
use crate::{best, entries, ours, ours_in_whole_numbers, plain};

const PROGRAMS: [Program<f64>; 3] = [ours::PROGRAM, plain::program(), best::program()];

/// Those and the proved whole numbers, as floats.
pub const AGREEING: [Program<f64>; 4] = [
    PROGRAMS[0],
    PROGRAMS[1],
    PROGRAMS[2],
    entries::IN_WHOLE_NUMBERS,
];

pub const ROWS: [Row; 4] = [
    Row::FeedWhole,
    Row::FeedSamples,
    Row::FeedRows,
    Row::ReadOut,
];

/// How long each row may take, in seconds.
const SECONDS: f64 = 1.0;

/// The times of each program, and of ours in whole numbers, in turns.
pub fn times(row: Row, job: &Job, readings: &[u16]) -> Times {
    let mut calls = PROGRAMS
        .each_ref()
        .map(|program| Calls::new(row, program, job, readings));
    let mut whole_numbers = Calls::new(row, &ours_in_whole_numbers::PROGRAM, job, readings);
    let [a, b, c] = &mut calls;
    take_turns(&mut [a, b, c, &mut whole_numbers], SECONDS)
}
