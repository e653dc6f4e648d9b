//! The best program's entries, in floats. Comparisons of floats alone: a mask of narrower numbers would be widened lane by lane.

use crate::best::{cut_off, Fast};
use crate::settings;

const MARK: f64 = settings::MARK as f64;
const MAX_PRODUCT: f64 = settings::MAX_PRODUCT as f64;

/// 1.5 * 2^52. Added to a whole number of 32 bits it leaves that number in the low bits, and no room for a fraction.
const SNAP: f64 = 6_755_399_441_055_744.0;

/// The bits in which a float and the whole number next to it differ; of -0 too. A float that is none or infinite has no part in it.
fn odd_bits(entry: f64) -> u64 {
    ((entry + SNAP) - SNAP).to_bits() ^ entry.to_bits()
}

/// The low bits of a possible entry's whole number, with 2^30 added or not.
fn low_bits(entry: f64, more: f64) -> i32 {
    (entry + (SNAP + more)).to_bits() as i32
}

/// Whether each entry is whole and, with marks moved down by a gap, within a distance of a number.
#[inline(always)]
fn all_within(sums: &[f64], gap: f64, middle: f64, distance: f64) -> bool {
    let (mut within, mut odd) = (true, 0);
    for &entry in sums {
        let moved = entry - if entry > MARK { gap + middle } else { middle };
        within &= moved.abs() <= distance;
        odd |= odd_bits(entry);
    }
    within & (odd == 0)
}

/// By one range, which holds sums and, with the mark of sample k moved down onto the highest sum, marks.
fn each_possible(sums: &[f64], k: usize) -> bool {
    let span = MAX_PRODUCT * k as f64;
    all_within(sums, MARK + k as f64 - (128.0 + span), 128.0, span)
}

/// Whether each entry is surely possible: within a power of two of 0, or a mark.
fn all_near(sums: &[f64], k: usize) -> bool {
    let near = if k < 5 { 131_072.0 } else { 1_048_576.0 };
    all_within(sums, MARK + k as f64 - near, 0.0, near)
}

impl Fast for f64 {
    fn possible(self, k: usize) -> bool {
        each_possible(&[self], k)
    }

    fn all_possible(sums: &[f64], k: usize) -> bool {
        all_near(sums, k) || each_possible(sums, k)
    }

    /// A marked entry takes nothing: then it isn't above the threshold either.
    fn sum_part(readings: &[u16], sums: &mut [f64], n: usize, weight: i32, threshold: u16) {
        let mark = MARK + n as f64;
        for (entry, &x) in sums.iter_mut().zip(readings) {
            let before = if n == 1 { 128.0 } else { *entry };
            let taken = if before > MARK { 0.0 } else { f64::from(x) };
            let sum = f64::from(weight) * taken + before;
            *entry = if taken > f64::from(threshold) {
                mark
            } else {
                sum
            };
        }
    }

    fn pixel_words(sums: &[f64], words: &mut [u16], r: u32) {
        for (word, &entry) in words.iter_mut().zip(sums) {
            let whole = low_bits(entry, 0.0);
            let flag = 32_752 + (whole & 15);
            *word = (if whole > settings::MARK {
                flag
            } else {
                cut_off(whole, r)
            }) as u16;
        }
    }

    fn square_words(upper: &[f64], lower: &[f64], words: &mut [u16], r: u32) {
        let (upper, lower) = (upper.as_chunks::<2>().0, lower.as_chunks::<2>().0);
        for ((word, &[a, b]), &[c, d]) in words.iter_mut().zip(upper).zip(lower) {
            let [a, b, c, d] = [a, b, c, d].map(|entry| low_bits(entry, MARK));
            let first = a.min(b).min(c.min(d));
            let total = a.wrapping_add(b).wrapping_add(c.wrapping_add(d));
            let flag = 32_752 + (first & 15);
            *word = (if first < 0 {
                flag
            } else {
                cut_off(total, r + 2)
            }) as u16;
        }
    }
}
