//! What is timed: the calls of a program, on which ramps, and what was measured of them.

use std::hint::black_box;

use crate::agree::Entry;
use crate::data::{self, Kind, KINDS};
use crate::job::{Board, Job, Program};
use crate::timing::{Ratio, Timed, Times};

#[derive(Clone, Copy, PartialEq)]
pub enum Row {
    FeedWhole,
    FeedSamples,
    FeedRows,
    ReadOut,
    WholeJob,
}

impl Row {
    pub fn name(self) -> &'static str {
        match self {
            Row::FeedWhole => "Feed, whole ramp",
            Row::FeedSamples => "Feed, per sample",
            Row::FeedRows => "Feed, per row",
            Row::ReadOut => "Read out",
            Row::WholeJob => "whole job",
        }
    }

    /// Whether binning matters: Feed does not look at it.
    pub fn binnings(self) -> &'static [bool] {
        match self {
            Row::ReadOut | Row::WholeJob => &[false, true],
            _ => &[false],
        }
    }

    /// How many readings a Feed brings.
    fn part(self, job: &Job, readings: usize) -> usize {
        match self {
            Row::FeedSamples => job.sides.pixels(),
            Row::FeedRows => job.sides.width,
            _ => readings,
        }
    }
}

/// The calls of one program: the board that each of them begins with, and the buffers.
pub struct Calls<'a, E> {
    row: Row,
    program: &'a Program<E>,
    job: &'a Job,
    readings: &'a [u16],
    begun: Box<dyn Board<E>>,
    ready: Vec<Box<dyn Board<E>>>,
    sums: Vec<E>,
    words: Vec<u16>,
}

impl<'a, E: Entry> Calls<'a, E> {
    /// A Feed begins with a ramp that has had no readings, a Read out with one that has had them all.
    pub fn new(
        row: Row,
        program: &'a Program<E>,
        job: &'a Job,
        readings: &'a [u16],
    ) -> Calls<'a, E> {
        // No call is inlined: the compiler can't tell whose board it is.
        let program = black_box(program);
        let mut begun = program.begin(job);
        let mut full = begun.copy();
        let mut sums = vec![E::UNWRITTEN; job.sides.pixels()];
        full.feed(readings, &mut sums).unwrap();
        if row == Row::ReadOut {
            begun = full;
        }
        Calls {
            row,
            program,
            job,
            readings,
            begun,
            ready: vec![],
            sums,
            words: vec![0; job.sides.words()],
        }
    }
}

impl<E: Entry> Timed for Calls<'_, E> {
    /// A board for each call, since a call leaves its board elsewhere.
    fn ready(&mut self, calls: usize) {
        self.ready.clear();
        self.ready.extend((0..calls).map(|_| self.begun.copy()));
    }

    fn call(&mut self, number: usize) {
        let board = &mut self.ready[number];
        let (job, readings) = (black_box(self.job), black_box(self.readings));
        let (sums, words) = (&mut self.sums, &mut self.words);
        match self.row {
            Row::ReadOut => board.read_out(black_box(sums), words).unwrap(),
            Row::WholeJob => self.program.frame.unwrap()(job, readings, sums, words).unwrap(),
            _ => {
                for some in readings.chunks(self.row.part(job, readings.len())) {
                    board.feed(some, sums).unwrap();
                }
            }
        }
    }
}

/// What was measured of a row on one kind of ramps.
pub struct Cell {
    pub row: Row,
    pub binned: bool,
    pub kind: Kind,
    pub side: usize,
    /// Ours to each other program, in their order.
    pub ratios: Vec<Ratio>,
    /// Our least time for each pixel.
    pub cost: f64,
}

/// The cells of some rows, from the times of each, of which the first are ours.
pub fn measure(
    rows: &[Row],
    sides: &[usize],
    times: impl Fn(Row, &Job, &[u16]) -> Times,
    seen: impl Fn(&Cell),
) -> Vec<Cell> {
    let mut cells = vec![];
    for &row in rows {
        for &binned in row.binnings() {
            for kind in KINDS {
                for &side in sides {
                    let job = data::job(side, binned);
                    let readings = data::readings(kind, job.sides.pixels(), side as u64);
                    let t = times(row, &job, &readings);
                    let cell = Cell {
                        row,
                        binned,
                        kind,
                        side,
                        ratios: t.ratios(),
                        cost: t.least(0) / job.sides.pixels() as f64,
                    };
                    seen(&cell);
                    cells.push(cell);
                }
            }
        }
    }
    cells
}
