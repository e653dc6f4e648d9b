//! Another algorithm, which breaks two rules of ours: it sums a ramp that comes whole in blocks of pixels, all samples of a block at once, each reading
//! cut into two halves, in buffers of its own. Its checks and its words are those of the best program.

use crate::best::{check_feed, check_frame, sum_up, write_words, Best, Fast};
use crate::board::{open, Kept, Way};
use crate::job::{Answer, Job, Program};
use crate::settings::{Settings, MARK};

pub const PROGRAM: Program<i32> = Program {
    name: "blocks",
    open: open::<Blocks, i32>,
    frame: Some(frame),
};

/// Pixels that are summed together.
const BLOCK: usize = 64;

/// All N samples of some pixels: plane n has their readings at sample n + 1. A reading is cut into seven low and seven high bits, so that the
/// weighted totals of either fit in 16 bits.
fn sum_planes<const N: usize>(s: &Settings, planes: [&[u16]; N], sums: &mut [i32]) {
    let threshold = s.threshold as i16;
    let weights: [i16; N] = std::array::from_fn(|n| s.weights[n] as i16);
    let blocks: [&[[u16; BLOCK]]; N] = planes.map(|plane| plane.as_chunks().0);
    let (all, rest) = sums.as_chunks_mut::<BLOCK>();
    let (mut low, mut high, mut ahead) = ([0i16; BLOCK], [0i16; BLOCK], [0i16; BLOCK]);
    for (i, block) in all.iter_mut().enumerate() {
        let xs: [&[u16; BLOCK]; N] = std::array::from_fn(|n| &blocks[n][i]);
        for l in 0..BLOCK {
            let (mut low_total, mut high_total) = (0i16, 0i16);
            // How far the first sample over the threshold comes before 10; 0 for none.
            let mut first = 0i16;
            for n in 0..N {
                let x = xs[n][l] as i16;
                low_total = low_total.wrapping_add(weights[n].wrapping_mul(x & 127));
                high_total = high_total.wrapping_add(weights[n].wrapping_mul(x >> 7));
                first = first.max(if x > threshold { 9 - n as i16 } else { 0 });
            }
            (low[l], high[l], ahead[l]) = (low_total, high_total, first);
        }
        for l in 0..BLOCK {
            let total = 128 + i32::from(low[l]) + (i32::from(high[l]) << 7);
            let mark = MARK + 10 - i32::from(ahead[l]);
            block[l] = if ahead[l] > 0 { mark } else { total };
        }
    }
    let done = BLOCK * all.len();
    for n in 0..N {
        i32::sum_part(&planes[n][done..], rest, n + 1, s.weights[n], s.threshold);
    }
}

/// The pixels of `sums`, which start at pixel p, of a ramp that comes whole.
fn sum_whole(s: &Settings, readings: &[u16], m: usize, p: usize, sums: &mut [i32]) {
    fn go<const N: usize>(s: &Settings, readings: &[u16], m: usize, p: usize, sums: &mut [i32]) {
        let planes: [&[u16]; N] = std::array::from_fn(|n| &readings[n * m + p..][..sums.len()]);
        sum_planes(s, planes, sums);
    }
    let by_samples = [
        go::<1>, go::<2>, go::<3>, go::<4>, go::<5>, go::<6>, go::<7>, go::<8>, go::<9>,
    ];
    by_samples[s.samples - 1](s, readings, m, p, sums);
}

struct Blocks;

impl Way<i32> for Blocks {
    fn feed(board: &Kept, readings: &[u16], sums: &mut [i32]) -> Answer {
        check_feed(board, readings, sums)?;
        if readings.len() == board.wanted() {
            sum_whole(board.settings(), readings, sums.len(), 0, sums);
        } else {
            sum_up(board.settings(), board.fed(), readings, sums);
        }
        Ok(())
    }

    fn read_out(board: &Kept, sums: &[i32], words: &mut [u16]) -> Answer {
        Best::read_out(board, sums, words)
    }
}

fn frame(job: &Job, readings: &[u16], sums: &mut [i32], words: &mut [u16]) -> Answer {
    let board = check_frame(job, readings, sums, words)?;
    let (sides, m) = (board.sides(), board.sides().pixels());
    // Two rows at a time, and their words while the sums are in the cache.
    let band = 2 * sides.width;
    let per_band = if sides.binned { sides.width / 2 } else { band };
    for (i, (part, row)) in sums
        .chunks_mut(band)
        .zip(words.chunks_mut(per_band))
        .enumerate()
    {
        sum_whole(board.settings(), readings, m, i * band, part);
        write_words(&board, part, row);
    }
    Ok(())
}
