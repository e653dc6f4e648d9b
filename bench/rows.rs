//! The programs, and the rows of the table.

use crate::calls::{Calls, Row};
use crate::job::{Job, Program};
use crate::timing::{take_turns, Times};
use crate::{best, blocks, limit, ours, plain};

pub const PROGRAMS: [Program<i32>; 4] = [
    ours::PROGRAM,
    plain::program(),
    best::program(),
    blocks::PROGRAM,
];

pub const ROWS: [Row; 5] = [
    Row::FeedWhole,
    Row::FeedSamples,
    Row::FeedRows,
    Row::ReadOut,
    Row::WholeJob,
];

/// How long each row may take, in seconds.
const SECONDS: f64 = 1.0;

fn call_limit(row: Row, readings: &[u16], sums: &mut [i32], words: &mut [u16]) {
    match row {
        Row::ReadOut => limit::read_out(sums, words),
        Row::WholeJob => limit::frame(readings, sums, words),
        _ => limit::feed(readings, sums),
    }
}

/// The times of each program and of the limit, in turns.
pub fn times(row: Row, job: &Job, readings: &[u16]) -> Times {
    let (mut sums, mut words) = (vec![0; job.sides.pixels()], vec![0; job.sides.words()]);
    let mut limit = || call_limit(row, readings, &mut sums, &mut words);
    let mut calls = PROGRAMS
        .each_ref()
        .map(|program| Calls::new(row, program, job, readings));
    let [a, b, c, d] = &mut calls;
    take_turns(&mut [a, b, c, d, &mut limit], SECONDS)
}
