//! Entries that are floats: those that the agreement brings, and the whole numbers that they stand for.

use crate::agree::Entry;
use crate::data::Draws;
use crate::job::{Answer, Board, Opened, Program, Sides};
use crate::ramp_board;

/// Floats that stand for no whole number of a ramp, and 0.
const OTHERS: [f64; 16] = [
    f64::NAN,
    -f64::NAN,
    f64::INFINITY,
    f64::NEG_INFINITY,
    -0.0,
    0.0,
    0.5,
    -0.25,
    128.000_000_000_000_03,
    1_073_741_825.5,
    f64::MIN_POSITIVE,
    4_294_967_424.0,
    -4_294_967_168.0,
    -11_258_999_068_426_240.0,
    6_755_399_441_055_744.0,
    f64::MAX,
];

impl Entry for f64 {
    const UNWRITTEN: f64 = f64::NAN;

    fn bits(self) -> u64 {
        self.to_bits()
    }

    fn odd(draws: &mut Draws) -> f64 {
        match draws.below(3) {
            0 => f64::from(i32::odd(draws)),
            1 => OTHERS[draws.below(OTHERS.len() as u32) as usize],
            // Any 64 bits, or those of a possible entry with one turned.
            _ => match draws.below(4) {
                0 => f64::from_bits(
                    (0..4).fold(0, |bits, _| bits << 16 | u64::from(draws.below(65_536))),
                ),
                _ => {
                    let whole = f64::from(draws.below(200_000)) - 100_000.0;
                    f64::from_bits(whole.to_bits() ^ 1 << draws.below(64))
                }
            },
        }
    }
}

/// The proved program in whole numbers, which keeps to the floats that stand for them.
pub const IN_WHOLE_NUMBERS: Program<f64> = Program {
    name: "ours in whole numbers",
    open,
    frame: None,
};

#[derive(Clone)]
struct InWholeNumbers {
    board: ramp_board::Board,
    fed: usize,
    wholes: Vec<i32>,
}

fn open(sides: Sides) -> Opened<f64> {
    let board = ramp_board::Board::open(sides.width, sides.height, sides.binned)?;
    Ok(Box::new(InWholeNumbers {
        board,
        fed: 0,
        wholes: vec![],
    }))
}

/// The whole number that an entry stands for, or one that is never possible.
fn whole_of(entry: &f64) -> i32 {
    let whole = *entry as i32;
    if f64::from(whole).to_bits() == entry.to_bits() {
        whole
    } else {
        i32::MIN
    }
}

impl Board<f64> for InWholeNumbers {
    fn update(&mut self, record: &[u8]) -> Answer {
        self.board.update(record)
    }

    fn start(&mut self) -> Answer {
        self.board.start()
    }

    /// Only entries that a reading reaches are read and written.
    fn feed(&mut self, readings: &[u16], sums: &mut [f64]) -> Answer {
        let m = sums.len();
        let reached = (self.fed..self.fed + readings.len().min(m)).map(|i| i % m);
        self.wholes.resize(m, i32::MIN);
        for p in reached.clone() {
            self.wholes[p] = whole_of(&sums[p]);
        }
        self.board.feed(readings, &mut self.wholes)?;
        for p in reached {
            sums[p] = f64::from(self.wholes[p]);
        }
        self.fed += readings.len();
        Ok(())
    }

    fn read_out(&mut self, sums: &[f64], words: &mut [u16]) -> Answer {
        let wholes: Vec<i32> = sums.iter().map(whole_of).collect();
        self.board.read_out(&wholes, words)?;
        self.fed = 0;
        Ok(())
    }

    fn drop_ramp(&mut self) -> Answer {
        self.board.drop_ramp()?;
        self.fed = 0;
        Ok(())
    }

    fn copy(&self) -> Box<dyn Board<f64>> {
        Box::new(self.clone())
    }
}
