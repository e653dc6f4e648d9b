//! What no program can beat that checks every reading before it writes a sum: reading every reading twice and filling the sums once.

use std::hint::black_box;

pub fn feed(readings: &[u16], sums: &mut [i32]) {
    let mut bits = 0;
    for _ in 0..2 {
        bits |= black_box(readings).iter().fold(0, |bits, x| bits | x);
    }
    black_box(bits);
    black_box(sums).fill(128);
}

/// Reading every entry twice and filling the words once.
pub fn read_out(sums: &[i32], words: &mut [u16]) {
    let mut bits = 0;
    for _ in 0..2 {
        bits |= black_box(sums).iter().fold(0, |bits, x| bits | x);
    }
    black_box(bits);
    black_box(words).fill(32);
}

/// The readings twice, and sums and words filled once.
pub fn frame(readings: &[u16], sums: &mut [i32], words: &mut [u16]) {
    feed(readings, sums);
    black_box(words).fill(32);
}
