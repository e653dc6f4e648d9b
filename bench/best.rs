//! Safe Rust that is made by hand to be as fast as it can be under the rules of ours: the same checks and answers, each reading is multiplied and
//! added to its entry, and there is no buffer but the caller's. Every pass compiles to vector code, over whole numbers with the machine's 16-bit
//! multiplies.

use crate::board::{open, Kept, Way};
use crate::job::{refuse, Answer, Job, Program, Refusal};
use crate::settings::{Settings, MARK, MAX_PRODUCT, MAX_READING};

pub const fn program<E: Fast>() -> Program<E> {
    Program {
        name: "best",
        open: open::<Best, E>,
        frame: Some(frame),
    }
}

/// Entries of one kind, and the passes over them.
pub trait Fast: Copy + 'static {
    fn possible(self, k: usize) -> bool;
    fn all_possible(sums: &[Self], k: usize) -> bool;
    /// Readings of sample n, onto the entries of their pixels.
    fn sum_part(readings: &[u16], sums: &mut [Self], n: usize, weight: i32, threshold: u16);
    fn pixel_words(sums: &[Self], words: &mut [u16], r: u32);
    /// A row of squares: the upper and the lower row of its pixels.
    fn square_words(upper: &[Self], lower: &[Self], words: &mut [u16], r: u32);
}

/// Four parts of one length, and the rest. A loop over all four at once has more reads from memory under way than one over them all in a row.
#[inline(always)]
fn quarters<T>(items: &[T]) -> ([&[T]; 4], &[T]) {
    let quarter = items.len() / 4;
    let (a, rest) = items.split_at(quarter);
    let (b, rest) = rest.split_at(quarter);
    let (c, rest) = rest.split_at(quarter);
    let (d, rest) = rest.split_at(quarter);
    ([a, b, c, d], rest)
}

fn all_in_range(readings: &[u16]) -> bool {
    let ([a, b, c, d], rest) = quarters(readings);
    let mut bits = 0;
    for i in 0..a.len() {
        bits |= a[i] | b[i] | c[i] | d[i];
    }
    rest.iter().fold(bits, |bits, x| bits | x) <= MAX_READING
}

/// Whether each entry is possible by one range. With the mark of sample k moved down onto the highest sum it holds sums and marks; with the lowest sum
/// moved to the lowest number one test tells it.
fn each_possible(sums: &[i32], k: usize) -> bool {
    let span = MAX_PRODUCT * k as i32;
    let gap = MARK + k as i32 - (128 + span);
    let lowest = i32::MIN.wrapping_add(span - 128);
    let outside = |entry: i32| {
        let moved = if entry > MARK { entry - gap } else { entry };
        moved.wrapping_add(lowest) > i32::MIN + 2 * span
    };
    !sums.iter().fold(false, |bad, &entry| bad | outside(entry))
}

/// Whether each entry is surely possible: within a power of two of 0, or a mark. The bits of all together tell.
fn all_near(sums: &[i32], k: usize) -> bool {
    let near = if k < 5 { 131_072 } else { 1_048_576 };
    let gap = MARK + (k as i32 + 1) - near;
    let moved = |entry: i32| near + if entry > MARK { entry - gap } else { entry };
    let ([a, b, c, d], rest) = quarters(sums);
    let mut bits = 0;
    for i in 0..a.len() {
        bits |= moved(a[i]) | moved(b[i]) | moved(c[i]) | moved(d[i]);
    }
    let bits = rest.iter().fold(bits, |bits, &entry| bits | moved(entry));
    (0..2 * near).contains(&bits)
}

/// What is left of a sum: all ones if it is negative.
#[inline(always)]
pub fn cut_off(sum: i32, shift: u32) -> i32 {
    ((sum >> shift) | (sum >> 31)) & 32_767
}

impl Fast for i32 {
    fn possible(self, k: usize) -> bool {
        let k = k as i32;
        let span = MAX_PRODUCT * k;
        (self >= 128 - span) & (self <= 128 + span) | (self > MARK) & (self <= MARK + k)
    }

    fn all_possible(sums: &[i32], k: usize) -> bool {
        all_near(sums, k) || each_possible(sums, k)
    }

    /// The size of a weight has eight bits at most and a reading fits a signed number of 16, so a product is one multiply-and-add of the machine's; the
    /// compiler makes a loop for each sign.
    fn sum_part(readings: &[u16], sums: &mut [i32], n: usize, weight: i32, threshold: u16) {
        let mark = MARK + n as i32;
        let size = weight.unsigned_abs() as u8;
        for (entry, &x) in sums.iter_mut().zip(readings) {
            let before = if n == 1 { 128 } else { *entry };
            let product = i32::from(size) * i32::from(x as i16);
            let sum = before.wrapping_add(if weight < 0 { -product } else { product });
            // Both are below 32,768, where a signed test is the cheaper one.
            let next = if x as i16 > threshold as i16 {
                mark
            } else {
                sum
            };
            *entry = if before > MARK { before } else { next };
        }
    }

    fn pixel_words(sums: &[i32], words: &mut [u16], r: u32) {
        for (word, &entry) in words.iter_mut().zip(sums) {
            let flag = 32_752 + (entry & 15);
            *word = (if entry > MARK {
                flag
            } else {
                cut_off(entry, r)
            }) as u16;
        }
    }

    /// With 2^30 added a mark is negative and the earliest one the smallest; four times 2^30 don't show in the total.
    fn square_words(upper: &[i32], lower: &[i32], words: &mut [u16], r: u32) {
        let (upper, lower) = (upper.as_chunks::<2>().0, lower.as_chunks::<2>().0);
        for ((word, &[a, b]), &[c, d]) in words.iter_mut().zip(upper).zip(lower) {
            let [a, b, c, d] = [a, b, c, d].map(|entry| entry.wrapping_add(MARK));
            let first = a.min(b).min(c.min(d));
            let total = a.wrapping_add(b).wrapping_add(c.wrapping_add(d));
            let flag = 32_752 + (first & 15);
            *word = (if first < 0 {
                flag
            } else {
                cut_off(total, r + 2)
            }) as u16;
        }
    }
}

/// 14 for the entries from a place on, which have had k samples.
fn check_entries<E: Fast>(sums: &[E], from: usize, to: usize, k: usize) -> Answer {
    if from == to {
        return Ok(());
    }
    let part = &sums[from..to];
    if E::all_possible(part, k) {
        return Ok(());
    }
    let at = part.iter().position(|entry| !entry.possible(k));
    refuse(14, from + at.unwrap())
}

/// How many whole samples were fed, and how many readings of the next one. Both numbers fit in 32 bits, and so the division is a short one.
fn whole_samples(fed: usize, pixels: usize) -> (usize, usize) {
    let (fed, pixels) = (fed as u32, pixels as u32);
    ((fed / pixels) as usize, (fed % pixels) as usize)
}

/// 12, 13 and 14 of Feed.
pub fn check_feed<E: Fast>(board: &Kept, readings: &[u16], sums: &[E]) -> Answer {
    let (m, fed, count) = (board.sides().pixels(), board.fed(), readings.len());
    if count > board.wanted() - fed {
        return refuse(12, 0);
    }
    if !all_in_range(readings) {
        let at = readings.iter().position(|&x| x > MAX_READING);
        return refuse(13, at.unwrap());
    }
    let (c, q) = whole_samples(fed, m);
    check_entries(sums, 0, q.min((q + count).saturating_sub(m)), c + 1)?;
    if c > 0 {
        check_entries(sums, q, m.min(q + count), c)?;
    }
    Ok(())
}

pub fn sum_up<E: Fast>(s: &Settings, fed: usize, readings: &[u16], sums: &mut [E]) {
    let m = sums.len();
    let (mut c, mut p) = whole_samples(fed, m);
    let mut left = readings;
    while !left.is_empty() {
        let k = left.len().min(m - p);
        let (part, rest) = left.split_at(k);
        E::sum_part(part, &mut sums[p..p + k], c + 1, s.weights[c], s.threshold);
        left = rest;
        c += 1;
        p = 0;
    }
}

pub fn write_words<E: Fast>(board: &Kept, sums: &[E], words: &mut [u16]) {
    let (width, r) = (board.sides().width, board.settings().truncation);
    if board.sides().binned {
        for (rows, row) in sums
            .chunks_exact(2 * width)
            .zip(words.chunks_exact_mut(width / 2))
        {
            let (upper, lower) = rows.split_at(width);
            E::square_words(upper, lower, row, r);
        }
    } else {
        E::pixel_words(sums, words, r);
    }
}

pub struct Best;

impl<E: Fast> Way<E> for Best {
    fn feed(board: &Kept, readings: &[u16], sums: &mut [E]) -> Answer {
        check_feed(board, readings, sums)?;
        sum_up(board.settings(), board.fed(), readings, sums);
        Ok(())
    }

    fn read_out(board: &Kept, sums: &[E], words: &mut [u16]) -> Answer {
        board.check_output(board.fed(), words)?;
        check_entries(sums, 0, sums.len(), board.settings().samples)?;
        write_words(board, sums, words);
        Ok(())
    }
}

/// The board of a whole job whose checks refuse nothing, each made once.
pub fn check_frame<E: Fast>(
    job: &Job,
    readings: &[u16],
    sums: &[E],
    words: &[u16],
) -> Result<Kept, Refusal> {
    let board = Kept::begin(job)?;
    board.check_ramp(sums)?;
    check_feed(&board, readings, sums)?;
    board.check_output(readings.len(), words)?;
    Ok(board)
}

fn frame<E: Fast>(job: &Job, readings: &[u16], sums: &mut [E], words: &mut [u16]) -> Answer {
    let board = check_frame(job, readings, sums, words)?;
    sum_up(board.settings(), 0, readings, sums);
    write_words(&board, sums, words);
    Ok(())
}
