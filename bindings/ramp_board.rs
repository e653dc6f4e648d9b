//! A ramp board from Rust: the board in memory of the program's own, every call on it, what a word means, and the flags of a frame. A safe wrapper
//! of the library that `bindings/build` makes.
//!
//! A program takes this file as a module, `#[path = "bindings/ramp_board.rs"] mod ramp_board;`, or as a crate, of which it is the only file. Either is
//! compiled with `-L target/bindings -l static=ramp_board`. It needs Rust 1.82 or newer, and the standard library alone.
//!
//! A board is opened, updated with records, starts a ramp, is fed its readings in as many parts as the program likes, and reads the frame out. The
//! program holds the sums, one entry for each pixel, as numbers of 32 bits or as 64-bit floats, and hands them from call to call; and the words of the
//! frame, row by row, one for each pixel or, binned, for each square of four, in half as many rows and columns.
//!
//! Every call that may be refused answers with a `Result`. After a refusal the board and all slices are as they were. Each call has its refusals
//! below, in the order in which it checks; docs/REFUSALS.md has the table of all.
//!
//! Two pixels, one sample of weight 1, and readings 0 and 16,383:
//!
//! ```
//! use ramp_board::{read_word, Board, Refusal, WordRead};
//!
//! fn main() -> Result<(), Refusal> {
//!     let record = [0x01, 0x0A, 0x01, 0xFF, 0x3F, 0x01]; // weight 1 is 1, the threshold 16,383, N is 1
//!     let (mut sums, mut words) = ([0; 2], [0; 2]);
//!     let mut board = Board::open(2, 1, false)?;
//!     board.update(&record)?;
//!     board.start()?;
//!     board.feed(&[0, 16_383], &mut sums)?;
//!     board.read_out(&sums, &mut words)?;
//!     assert_eq!(words, [32, 4127]);
//!     assert_eq!(read_word(2, 4127)?, WordRead::Ordinary { low: 16_508.0, high: 16_512.0 });
//!     assert_eq!(board.feed(&[0], &mut sums), Err(Refusal { number: 10, place: 0 })); // no ramp is running
//!     Ok(())
//! }
//! ```

// A program may use some of it.
#![allow(dead_code)]

use std::error::Error;
use std::fmt;

/// How many words a board has.
pub const WORDS: usize = 29;

/// Why a call wasn't taken. The place is 0 but for 13 and 14: docs/REFUSALS.md.
#[derive(Clone, Copy, Debug, PartialEq, Eq)]
pub struct Refusal {
    pub number: u8,
    pub place: usize,
}

impl fmt::Display for Refusal {
    fn fmt(&self, f: &mut fmt::Formatter<'_>) -> fmt::Result {
        write!(f, "refused with {} at place {}", self.number, self.place)
    }
}

impl Error for Refusal {}

/// What a word means.
#[derive(Clone, Copy, Debug, PartialEq)]
pub enum WordRead {
    /// A sum, or a square's mean sum, from `low` up to but not including `high`.
    Ordinary { low: f64, high: f64 },
    /// Saturated first at this sample, counted from 1.
    Saturated(u16),
    /// A negative sum.
    Negative,
    /// Nothing.
    Unassigned,
}

/// A ramp board. It is a value like any other: a clone is a second board, and a board that is dropped needs no call.
#[derive(Clone, Debug, PartialEq, Eq)]
pub struct Board {
    words: [i64; WORDS],
}

impl Board {
    /// Opens a board of 1 to 1,024 columns and as many rows, binned into squares of four or not. The default settings wait and are in force: weights
    /// -4 to 4, threshold 13,087, r = 2, N = 9. No ramp is running.
    ///
    /// Refused with 1 if a side is 0 or above 1,024, or a binned board has an odd side.
    pub fn open(width: usize, height: usize, binned: bool) -> Result<Board, Refusal> {
        let mut words = [0; WORDS];
        // SAFETY: each pointer, with its length, is that of a live borrow, exclusive where the call writes.
        answered(|place| unsafe {
            ramp_open(words.as_mut_ptr(), WORDS, width, height, binned, place)
        })?;
        Ok(Board { words })
    }

    /// The words that hold all of the board, to keep it elsewhere. What each of them means isn't part of what is promised.
    pub fn words(&self) -> &[i64; WORDS] {
        &self.words
    }

    /// The board whose `words` these were. Any others are taken as well: where they hold no board every call is refused with 99.
    pub fn from_words(words: [i64; WORDS]) -> Board {
        Board { words }
    }

    /// Changes the settings that wait for the next ramp, at any time; a ramp that runs keeps its own. A record is taken whole or not at all, and what
    /// it doesn't name stays.
    ///
    /// It is two bytes of map, low byte first, and then the fields whose bits are set, in the order of the bits: 0 to 8 the weights of samples 1 to 9,
    /// one byte each, with its size in bits 0 to 3 and its sign in bit 4; 9 the threshold, two bytes, low byte first; 10 the truncation r, and 11 the
    /// number of samples N, one byte each.
    ///
    /// Refused with 99 if the words hold no board, 2 for a record under two bytes, 3 for a bit of its map from 12 to 15, 4 for a length that isn't
    /// what the map calls for; then for the first bad field, 5 for a weight byte above 31, 6 for a threshold above 16,383, 7 for an r that isn't 1 to
    /// 3, 8 for an N that isn't 1 to 9.
    pub fn update(&mut self, record: &[u8]) -> Result<(), Refusal> {
        // SAFETY: each pointer, with its length, is that of a live borrow, exclusive where the call writes.
        answered(|place| unsafe {
            ramp_update(
                self.words.as_mut_ptr(),
                WORDS,
                record.as_ptr(),
                record.len(),
                place,
            )
        })
    }

    /// Puts the waiting settings in force and starts a ramp, which runs until Read out or Drop is taken.
    ///
    /// Refused with 99 if the words hold no board, 9 if a ramp is running.
    pub fn start(&mut self) -> Result<(), Refusal> {
        // SAFETY: each pointer, with its length, is that of a live borrow, exclusive where the call writes.
        answered(|place| unsafe { ramp_start(self.words.as_mut_ptr(), WORDS, place) })
    }

    /// Feeds the ramp's next readings, 0 to 16,383 each, into the sums as the Feed before left them. In all a ramp wants N for each pixel: row by
    /// row, the whole array once for each sample. What the sums held before its first sample isn't read.
    ///
    /// Refused with 99 if the words hold no board, 10 if no ramp is running, 11 if the sums aren't one for each pixel, 12 for more readings than the
    /// ramp still wants, 13 for a reading above 16,383, with its index in the readings as the place, 14 if an entry that an earlier Feed wrote, and
    /// that gets a reading now, isn't possible, with its index in the sums as the place.
    pub fn feed(&mut self, readings: &[u16], sums: &mut [i32]) -> Result<(), Refusal> {
        // SAFETY: each pointer, with its length, is that of a live borrow, exclusive where the call writes.
        answered(|place| unsafe {
            ramp_feed(
                self.words.as_mut_ptr(),
                WORDS,
                readings.as_ptr(),
                readings.len(),
                sums.as_mut_ptr(),
                sums.len(),
                place,
            )
        })
    }

    /// Reads out the frame of a ramp that has had all its readings, and ends the ramp. The sums stay as they are.
    ///
    /// Refused with 99 if the words hold no board, 10 if no ramp is running, 11 if the sums aren't one for each pixel, 15 if readings are still
    /// wanted, 16 if the words aren't one for each pixel or, binned, for each square, 14 if an entry isn't possible, with its index in the sums as
    /// the place.
    pub fn read_out(&mut self, sums: &[i32], words: &mut [u16]) -> Result<(), Refusal> {
        // SAFETY: each pointer, with its length, is that of a live borrow, exclusive where the call writes.
        answered(|place| unsafe {
            ramp_read_out(
                self.words.as_mut_ptr(),
                WORDS,
                sums.as_ptr(),
                sums.len(),
                words.as_mut_ptr(),
                words.len(),
                place,
            )
        })
    }

    /// `feed` for a ramp that is summed in 64-bit floats: each is exactly the whole number that `feed` would store, marks too. A ramp keeps to one kind
    /// of sums, from its first Feed to Read out. An entry that gets no reading stays as it was, bit for bit.
    ///
    /// Refused as `feed`, with 99, 10, 11, 12, 13, 14. An entry isn't possible either if it is no number, infinite, a fraction, minus zero, or too large.
    ///
    /// ```
    /// # use ramp_board::{Board, Refusal};
    /// # fn main() -> Result<(), Refusal> {
    /// let (mut sums, mut words) = ([f64::NAN; 2], [0; 2]);
    /// let mut board = Board::open(2, 1, false)?;
    /// board.update(&[0x01, 0x0A, 0x01, 0xFF, 0x3F, 0x01])?; // weight 1 is 1, the threshold 16,383, N is 1
    /// board.start()?;
    /// board.feed_floats(&[0, 16_383], &mut sums)?;
    /// assert_eq!(sums, [128.0, 16_511.0]);
    /// board.read_out_floats(&sums, &mut words)?;
    /// assert_eq!(words, [32, 4127]);
    /// # Ok(())
    /// # }
    /// ```
    pub fn feed_floats(&mut self, readings: &[u16], sums: &mut [f64]) -> Result<(), Refusal> {
        // SAFETY: each pointer, with its length, is that of a live borrow, exclusive where the call writes.
        answered(|place| unsafe {
            ramp_feed_floats(
                self.words.as_mut_ptr(),
                WORDS,
                readings.as_ptr(),
                readings.len(),
                sums.as_mut_ptr(),
                sums.len(),
                place,
            )
        })
    }

    /// `read_out` for a ramp that was summed in 64-bit floats: the words are those of the whole numbers.
    ///
    /// Refused as `read_out`, with 99, 10, 11, 15, 16, 14.
    pub fn read_out_floats(&mut self, sums: &[f64], words: &mut [u16]) -> Result<(), Refusal> {
        // SAFETY: each pointer, with its length, is that of a live borrow, exclusive where the call writes.
        answered(|place| unsafe {
            ramp_read_out_floats(
                self.words.as_mut_ptr(),
                WORDS,
                sums.as_ptr(),
                sums.len(),
                words.as_mut_ptr(),
                words.len(),
                place,
            )
        })
    }

    /// Drop: ends the ramp with no frame. The settings stay as they are.
    ///
    /// Refused with 99 if the words hold no board, 10 if no ramp is running.
    pub fn drop_ramp(&mut self) -> Result<(), Refusal> {
        // SAFETY: each pointer, with its length, is that of a live borrow, exclusive where the call writes.
        answered(|place| unsafe { ramp_drop(self.words.as_mut_ptr(), WORDS, place) })
    }

    /// Whether the settings in force are covered: no readings at or below the threshold can drive a sum too high for its word. Only of a frame that
    /// was read out under covered settings every word surely means what `read_word` says.
    ///
    /// Refused with 99 if the words hold no board.
    pub fn covered(&self) -> Result<bool, Refusal> {
        let mut covered = 0;
        // SAFETY: each pointer, with its length, is that of a live borrow, exclusive where the call writes.
        answered(|place| unsafe { ramp_covered(self.words.as_ptr(), WORDS, &mut covered, place) })?;
        Ok(covered == 1)
    }
}

/// What a word means under the truncation r that was in force when its frame was read out. No board is needed.
///
/// Refused with 7 if r isn't 1 to 3.
pub fn read_word(truncation: u16, word: u16) -> Result<WordRead, Refusal> {
    let (mut kind, mut low, mut high, mut sample) = (0, 0.0, 0.0, 0);
    // SAFETY: each pointer, with its length, is that of a live borrow, exclusive where the call writes.
    answered(|place| unsafe {
        ramp_read_word(
            truncation,
            word,
            &mut kind,
            &mut low,
            &mut high,
            &mut sample,
            place,
        )
    })?;
    Ok(match kind {
        0 => WordRead::Ordinary { low, high },
        1 => WordRead::Saturated(sample),
        2 => WordRead::Negative,
        _ => WordRead::Unassigned,
    })
}

/// The flag nearest to a place, as a row and a column, counted from 0; `None` if there is no flag. The words are those of a frame of so many columns
/// and rows, which of a binned board are half of the board's. A flag is a word that means saturated or negative. Near is meant by squared distance in
/// rows and columns; among equals the first in row order is the nearest, and a flag is its own.
///
/// Refused with 19 if a side is 0 or above 1,024, 16 if the words aren't width x height, 19 if the place is outside of the frame.
pub fn nearest_flag(
    words: &[u16],
    width: usize,
    height: usize,
    row: usize,
    column: usize,
) -> Result<Option<(usize, usize)>, Refusal> {
    let (mut found, mut flag_row, mut flag_column) = (0, 0, 0);
    // SAFETY: each pointer, with its length, is that of a live borrow, exclusive where the call writes.
    answered(|place| unsafe {
        ramp_nearest_flag(
            words.as_ptr(),
            words.len(),
            width,
            height,
            row,
            column,
            &mut found,
            &mut flag_row,
            &mut flag_column,
            place,
        )
    })?;
    Ok((found == 1).then_some((flag_row, flag_column)))
}

/// How many flags lie in a box of such a frame, from its first corner to its last, both of them a row and a column, its edges counted in.
///
/// Refused with 19 if a side is 0 or above 1,024, 16 if the words aren't width x height, 19 if a corner is outside of the frame, or the first is past
/// the last in row or column.
pub fn count_flags(
    words: &[u16],
    width: usize,
    height: usize,
    first: (usize, usize),
    last: (usize, usize),
) -> Result<usize, Refusal> {
    let mut flags = 0;
    // SAFETY: each pointer, with its length, is that of a live borrow, exclusive where the call writes.
    answered(|place| unsafe {
        ramp_count_flags(
            words.as_ptr(),
            words.len(),
            width,
            height,
            first.0,
            first.1,
            last.0,
            last.1,
            &mut flags,
            place,
        )
    })?;
    Ok(flags)
}

/// A whole frame in one call, with no board to keep: opens one, updates it with the record, starts a ramp, feeds all readings and reads the frame out.
///
/// Refused with the first refusal of these calls: 1, 2 to 8, 11, 12, 13, 15, 16. The sums and the words are then as they were.
pub fn frame(
    width: usize,
    height: usize,
    binned: bool,
    record: &[u8],
    readings: &[u16],
    sums: &mut [i32],
    words: &mut [u16],
) -> Result<(), Refusal> {
    // SAFETY: each pointer, with its length, is that of a live borrow, exclusive where the call writes.
    answered(|place| unsafe {
        ramp_frame(
            width,
            height,
            binned,
            record.as_ptr(),
            record.len(),
            readings.as_ptr(),
            readings.len(),
            sums.as_mut_ptr(),
            sums.len(),
            words.as_mut_ptr(),
            words.len(),
            place,
        )
    })
}

/// Makes a call of the library, which writes a place and answers 0 if it is taken, else the number of the refusal.
fn answered(call: impl FnOnce(&mut usize) -> u8) -> Result<(), Refusal> {
    let mut place = 0;
    match call(&mut place) {
        0 => Ok(()),
        number => Err(Refusal { number, place }),
    }
}

// As in ramp_board.h, which says what each function asks of its pointers: none is null, and none that is written through overlaps another.
unsafe extern "C" {
    fn ramp_open(
        board: *mut i64,
        board_words: usize,
        width: usize,
        height: usize,
        binned: bool,
        place: *mut usize,
    ) -> u8;

    fn ramp_update(
        board: *mut i64,
        board_words: usize,
        record: *const u8,
        record_length: usize,
        place: *mut usize,
    ) -> u8;

    fn ramp_start(board: *mut i64, board_words: usize, place: *mut usize) -> u8;

    fn ramp_feed(
        board: *mut i64,
        board_words: usize,
        readings: *const u16,
        reading_count: usize,
        sums: *mut i32,
        sum_count: usize,
        place: *mut usize,
    ) -> u8;

    fn ramp_read_out(
        board: *mut i64,
        board_words: usize,
        sums: *const i32,
        sum_count: usize,
        words: *mut u16,
        word_count: usize,
        place: *mut usize,
    ) -> u8;

    fn ramp_feed_floats(
        board: *mut i64,
        board_words: usize,
        readings: *const u16,
        reading_count: usize,
        sums: *mut f64,
        sum_count: usize,
        place: *mut usize,
    ) -> u8;

    fn ramp_read_out_floats(
        board: *mut i64,
        board_words: usize,
        sums: *const f64,
        sum_count: usize,
        words: *mut u16,
        word_count: usize,
        place: *mut usize,
    ) -> u8;

    fn ramp_drop(board: *mut i64, board_words: usize, place: *mut usize) -> u8;

    fn ramp_covered(
        board: *const i64,
        board_words: usize,
        covered: *mut u8,
        place: *mut usize,
    ) -> u8;

    fn ramp_read_word(
        truncation: u16,
        word: u16,
        kind: *mut u8,
        low: *mut f64,
        high: *mut f64,
        sample: *mut u16,
        place: *mut usize,
    ) -> u8;

    fn ramp_nearest_flag(
        words: *const u16,
        word_count: usize,
        width: usize,
        height: usize,
        row: usize,
        column: usize,
        found: *mut usize,
        flag_row: *mut usize,
        flag_column: *mut usize,
        place: *mut usize,
    ) -> u8;

    fn ramp_count_flags(
        words: *const u16,
        word_count: usize,
        width: usize,
        height: usize,
        first_row: usize,
        first_column: usize,
        last_row: usize,
        last_column: usize,
        flags: *mut usize,
        place: *mut usize,
    ) -> u8;

    fn ramp_frame(
        width: usize,
        height: usize,
        binned: bool,
        record: *const u8,
        record_length: usize,
        readings: *const u16,
        reading_count: usize,
        sums: *mut i32,
        sum_count: usize,
        words: *mut u16,
        word_count: usize,
        place: *mut usize,
    ) -> u8;
}
