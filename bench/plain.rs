//! A straightforward program: the paper's sentences one after the other, early exits, ordinary branches.

use crate::board::{open, Kept, Way};
use crate::job::{refuse, Answer, Job, Program};
use crate::settings::{Settings, MARK, MAX_PRODUCT, MAX_READING};

pub const fn program<E: Plain>() -> Program<E> {
    Program {
        name: "straightforward",
        open: open::<Straightforward, E>,
        frame: Some(frame),
    }
}

/// An entry of one kind, and what is done with it.
pub trait Plain: Copy + 'static {
    fn possible(self, k: usize) -> bool;
    /// A reading of sample n comes.
    fn take(&mut self, n: usize, weight: i32, threshold: u16, x: u16);
    fn pixel_word(self, r: u32) -> u16;
    fn square_word(square: [Self; 4], r: u32) -> u16;
}

impl Plain for i32 {
    fn possible(self, k: usize) -> bool {
        let k = k as i32;
        (self >= 128 - MAX_PRODUCT * k && self <= 128 + MAX_PRODUCT * k)
            || (self > MARK && self <= MARK + k)
    }

    fn take(&mut self, n: usize, weight: i32, threshold: u16, x: u16) {
        if n == 1 {
            *self = if x > threshold {
                MARK + 1
            } else {
                128 + weight * i32::from(x)
            };
        } else if *self <= MARK {
            if x > threshold {
                *self = MARK + n as i32;
            } else {
                *self += weight * i32::from(x);
            }
        }
    }

    fn pixel_word(self, r: u32) -> u16 {
        if self > MARK {
            (32_752 + (self - MARK)) as u16
        } else {
            cut_off(self, r)
        }
    }

    fn square_word(square: [i32; 4], r: u32) -> u16 {
        let mut smallest = 10;
        for entry in square {
            if entry > MARK && entry - MARK < smallest {
                smallest = entry - MARK;
            }
        }
        if smallest < 10 {
            (32_752 + smallest) as u16
        } else {
            cut_off(square.iter().sum(), r + 2)
        }
    }
}

fn cut_off(sum: i32, shift: u32) -> u16 {
    if sum < 0 {
        32_767
    } else {
        ((sum >> shift) % 32_768) as u16
    }
}

fn check_feed<E: Plain>(board: &Kept, readings: &[u16], sums: &[E]) -> Answer {
    let (m, fed) = (board.sides().pixels(), board.fed());
    if readings.len() > board.wanted() - fed {
        return refuse(12, 0);
    }
    if let Some(i) = readings.iter().position(|&x| x > MAX_READING) {
        return refuse(13, i);
    }
    // Entries before pixel q have had c + 1 samples, the others c.
    let (c, q) = (fed / m, fed % m);
    for p in 0..q.min((q + readings.len()).saturating_sub(m)) {
        if !sums[p].possible(c + 1) {
            return refuse(14, p);
        }
    }
    if c > 0 {
        for p in q..m.min(q + readings.len()) {
            if !sums[p].possible(c) {
                return refuse(14, p);
            }
        }
    }
    Ok(())
}

fn sum_up<E: Plain>(s: &Settings, fed: usize, readings: &[u16], sums: &mut [E]) {
    let m = sums.len();
    let mut n = fed / m + 1;
    let mut p = fed % m;
    let mut i = 0;
    while i < readings.len() {
        let weight = s.weights[n - 1];
        while p < m && i < readings.len() {
            sums[p].take(n, weight, s.threshold, readings[i]);
            p += 1;
            i += 1;
        }
        p = 0;
        n += 1;
    }
}

fn write_words<E: Plain>(board: &Kept, sums: &[E], words: &mut [u16]) {
    let (sides, r) = (board.sides(), board.settings().truncation);
    if sides.binned {
        let columns = sides.width / 2;
        for j in 0..sides.height / 2 {
            for i in 0..columns {
                let at = 2 * j * sides.width + 2 * i;
                let below = at + sides.width;
                let square = [sums[at], sums[at + 1], sums[below], sums[below + 1]];
                words[j * columns + i] = E::square_word(square, r);
            }
        }
    } else {
        for (word, &entry) in words.iter_mut().zip(sums) {
            *word = entry.pixel_word(r);
        }
    }
}

struct Straightforward;

impl<E: Plain> Way<E> for Straightforward {
    fn feed(board: &Kept, readings: &[u16], sums: &mut [E]) -> Answer {
        check_feed(board, readings, sums)?;
        sum_up(board.settings(), board.fed(), readings, sums);
        Ok(())
    }

    fn read_out(board: &Kept, sums: &[E], words: &mut [u16]) -> Answer {
        board.check_output(board.fed(), words)?;
        for (p, &entry) in sums.iter().enumerate() {
            if !entry.possible(board.settings().samples) {
                return refuse(14, p);
            }
        }
        write_words(board, sums, words);
        Ok(())
    }
}

fn frame<E: Plain>(job: &Job, readings: &[u16], sums: &mut [E], words: &mut [u16]) -> Answer {
    let board = Kept::begin(job)?;
    board.check_ramp(sums)?;
    check_feed(&board, readings, sums)?;
    board.check_output(readings.len(), words)?;
    sum_up(board.settings(), 0, readings, sums);
    write_words(&board, sums, words);
    Ok(())
}
