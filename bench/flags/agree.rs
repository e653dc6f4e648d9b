//! Both programs must agree on every nearest flag, every count and every refusal before anything is timed.

use crate::data::Draws;
use crate::ramp_board::Refusal;
use crate::rows::{Asked, Place, Row, FLAGS, PROGRAMS, SIDE};

/// Words that are no flags, though they are near to one.
const OTHERS: [u16; 10] = [
    0, 32_751, 32_752, 32_762, 32_763, 32_765, 32_766, 32_768, 65_521, 65_535,
];

pub struct Agreement {
    pub questions: usize,
    pub refused: [usize; 100],
}

impl Agreement {
    pub fn new() -> Agreement {
        Agreement {
            questions: 0,
            refused: [0; 100],
        }
    }

    /// One question, answered by both programs.
    fn same<T: PartialEq + std::fmt::Debug>(
        &mut self,
        what: &str,
        [ours, other]: [Result<T, Refusal>; 2],
    ) {
        assert!(
            ours == other,
            "{what}: {} answers {other:?}, ours {ours:?}",
            PROGRAMS[1].name
        );
        self.questions += 1;
        if let Err(refusal) = ours {
            self.refused[usize::from(refusal.number)] += 1;
        }
    }

    fn nearest(&mut self, words: &[u16], width: usize, height: usize, place: Place) {
        let what = format!("nearest to {place:?} of {width} x {height}");
        self.same(
            &what,
            PROGRAMS.map(|program| (program.nearest)(words, width, height, place)),
        );
    }

    fn count(&mut self, words: &[u16], width: usize, height: usize, first: Place, last: Place) {
        let what = format!("count from {first:?} to {last:?} of {width} x {height}");
        self.same(
            &what,
            PROGRAMS.map(|program| (program.count)(words, width, height, first, last)),
        );
    }

    /// The questions that are timed.
    pub fn timed(&mut self, row: Row) {
        let words = row.words();
        match row.asked() {
            Asked::Nearest(places) => {
                for place in places {
                    self.nearest(&words, SIDE, SIDE, place);
                }
            }
            Asked::Count(first, last) => self.count(&words, SIDE, SIDE, first, last),
        }
    }

    /// Questions about a small frame, drawn at random; in some the sides, the words, the place or a corner are wrong.
    pub fn drawn(&mut self, draws: &mut Draws) {
        let widest = [9, 70][draws.below(2) as usize];
        let mut width = 1 + draws.below(widest) as usize;
        let mut height = 1 + draws.below(9) as usize;
        let percent = [0, 1, 5, 20, 50, 100][draws.below(6) as usize];
        let mut words: Vec<u16> = (0..width * height)
            .map(|_| {
                if draws.below(100) < percent {
                    FLAGS[draws.below(10) as usize]
                } else {
                    OTHERS[draws.below(10) as usize]
                }
            })
            .collect();
        let mut first = (at(draws, height), at(draws, width));
        let mut last = (at(draws, height), at(draws, width));
        if draws.below(8) > 0 {
            // Mostly the first corner isn't past the last one.
            (first.0, last.0) = (first.0.min(last.0), first.0.max(last.0));
            (first.1, last.1) = (first.1.min(last.1), first.1.max(last.1));
        }
        if draws.below(10) == 0 {
            match draws.below(3) {
                0 => words.clear(),
                1 => words.truncate(words.len() - 1),
                _ => words.push(FLAGS[0]),
            }
        }
        if draws.below(10) == 0 {
            let side = [0, 1025, width + (1 << 32), usize::MAX][draws.below(4) as usize];
            match draws.below(3) {
                0 => width = side,
                1 => height = side,
                _ => (width, height) = (side, side),
            }
        }
        self.nearest(&words, width, height, first);
        self.nearest(&words, width, height, last);
        self.count(&words, width, height, first, last);
    }
}

/// A row or a column: mostly in the frame, often at an edge.
fn at(draws: &mut Draws, side: usize) -> usize {
    match draws.below(20) {
        0 => side + draws.below(2) as usize,
        1..=3 => 0,
        4..=6 => side - 1,
        7 if draws.below(10) == 0 => usize::MAX - draws.below(2) as usize,
        _ => draws.below(side as u32) as usize,
    }
}
