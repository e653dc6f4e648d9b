//! The proved program in floats, through the static library.

use crate::job::{Answer, Board, Opened, Program, Sides};
use crate::ramp_board;

pub const PROGRAM: Program<f64> = Program {
    name: "ours",
    open,
    frame: None,
};

impl Board<f64> for ramp_board::Board {
    fn update(&mut self, record: &[u8]) -> Answer {
        ramp_board::Board::update(self, record)
    }

    fn start(&mut self) -> Answer {
        ramp_board::Board::start(self)
    }

    fn feed(&mut self, readings: &[u16], sums: &mut [f64]) -> Answer {
        ramp_board::Board::feed_floats(self, readings, sums)
    }

    fn read_out(&mut self, sums: &[f64], words: &mut [u16]) -> Answer {
        ramp_board::Board::read_out_floats(self, sums, words)
    }

    fn drop_ramp(&mut self) -> Answer {
        ramp_board::Board::drop_ramp(self)
    }

    fn copy(&self) -> Box<dyn Board<f64>> {
        Box::new(self.clone())
    }
}

fn open(sides: Sides) -> Opened<f64> {
    let board = ramp_board::Board::open(sides.width, sides.height, sides.binned)?;
    Ok(Box::new(board))
}
