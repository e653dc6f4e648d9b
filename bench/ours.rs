//! The proved program, through the static library.

use crate::job::{Answer, Board, Job, Opened, Program, Sides};
use crate::ramp_board;

pub const PROGRAM: Program<i32> = Program {
    name: "ours",
    open,
    frame: Some(frame),
};

impl Board<i32> for ramp_board::Board {
    fn update(&mut self, record: &[u8]) -> Answer {
        ramp_board::Board::update(self, record)
    }

    fn start(&mut self) -> Answer {
        ramp_board::Board::start(self)
    }

    fn feed(&mut self, readings: &[u16], sums: &mut [i32]) -> Answer {
        ramp_board::Board::feed(self, readings, sums)
    }

    fn read_out(&mut self, sums: &[i32], words: &mut [u16]) -> Answer {
        ramp_board::Board::read_out(self, sums, words)
    }

    fn drop_ramp(&mut self) -> Answer {
        ramp_board::Board::drop_ramp(self)
    }

    fn copy(&self) -> Box<dyn Board<i32>> {
        Box::new(self.clone())
    }
}

fn open(sides: Sides) -> Opened<i32> {
    let board = ramp_board::Board::open(sides.width, sides.height, sides.binned)?;
    Ok(Box::new(board))
}

fn frame(job: &Job, readings: &[u16], sums: &mut [i32], words: &mut [u16]) -> Answer {
    ramp_board::frame(
        job.sides.width,
        job.sides.height,
        job.sides.binned,
        &job.record,
        readings,
        sums,
        words,
    )
}
