//! Straightforward answers about flags: the checks one after the other, then one pass over all words for the nearest flag, and over the box for a count.

use crate::ramp_board::Refusal;
use crate::rows::{Count, Nearest, Place, Program};

pub const PROGRAM: Program = Program {
    name: "straightforward",
    nearest,
    count,
};

fn is_flag(word: u16) -> bool {
    (32_753..=32_761).contains(&word) || word == 32_767
}

fn refuse<T>(number: u8) -> Result<T, Refusal> {
    Err(Refusal { number, place: 0 })
}

fn check_frame(words: &[u16], width: usize, height: usize) -> Result<(), Refusal> {
    if width == 0 || width > 1024 || height == 0 || height > 1024 {
        return refuse(19);
    }
    if words.len() != width * height {
        return refuse(16);
    }
    Ok(())
}

fn nearest(words: &[u16], width: usize, height: usize, place: Place) -> Nearest {
    check_frame(words, width, height)?;
    let (row, column) = place;
    if row >= height || column >= width {
        return refuse(19);
    }
    let mut least = usize::MAX;
    let mut found = None;
    for (j, line) in words.chunks(width).enumerate() {
        for (i, &word) in line.iter().enumerate() {
            if is_flag(word) {
                let (rows, columns) = (j.abs_diff(row), i.abs_diff(column));
                let distance = rows * rows + columns * columns;
                if distance < least {
                    least = distance;
                    found = Some((j, i));
                }
            }
        }
    }
    Ok(found)
}

fn count(words: &[u16], width: usize, height: usize, first: Place, last: Place) -> Count {
    check_frame(words, width, height)?;
    for (row, column) in [first, last] {
        if row >= height || column >= width {
            return refuse(19);
        }
    }
    if first.0 > last.0 || first.1 > last.1 {
        return refuse(19);
    }
    let mut flags = 0;
    for j in first.0..=last.0 {
        let line = &words[j * width..(j + 1) * width];
        for &word in &line[first.1..=last.1] {
            if is_flag(word) {
                flags += 1;
            }
        }
    }
    Ok(flags)
}
