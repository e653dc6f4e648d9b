//! Known answers through the safe wrapper: rustc's own test program runs them, and tells which failed.

#[path = "../ramp_board.rs"]
mod ramp_board;

use ramp_board::{count_flags, frame, nearest_flag, read_word, Board, Refusal, WordRead, WORDS};
use std::error::Error;

/// Weight 1 is 1, the threshold 16,383, N is 1.
const ONE_SAMPLE: [u8; 6] = [0x01, 0x0A, 0x01, 0xFF, 0x3F, 0x01];
/// Weights -1 and 2, the threshold 8,192, N is 2.
const TWO_SAMPLES: [u8; 7] = [0x03, 0x0A, 0x11, 0x02, 0x00, 0x20, 0x02];
/// A ramp of two samples on 2 x 2 pixels, some of them above 8,192; its sums and its word if the pixels are one square.
const READINGS: [u16; 8] = [5, 9000, 70, 8192, 600, 1, 8193, 8192];
const SUMS: [i32; 4] = [1323, 1_073_741_825, 1_073_741_826, 8320];
const SQUARE: [u16; 1] = [32_753];

fn refused<T>(number: u8, place: usize) -> Result<T, Refusal> {
    Err(Refusal { number, place })
}

/// A binned board of 2 x 2 pixels in whose ramp of two samples so many readings were fed, and its sums.
fn fed(count: usize) -> (Board, [i32; 4]) {
    let mut board = Board::open(2, 2, true).unwrap();
    let mut sums = [-1; 4];
    board.update(&TWO_SAMPLES).unwrap();
    board.start().unwrap();
    board.feed(&READINGS[..count], &mut sums).unwrap();
    (board, sums)
}

#[test]
fn a_frame_in_one_call() {
    let (mut sums, mut words) = ([77; 2], [7; 2]);
    let answer = frame(
        2,
        1,
        false,
        &ONE_SAMPLE,
        &[0, 16_383],
        &mut sums,
        &mut words,
    );
    assert_eq!((answer, sums, words), (Ok(()), [128, 16_511], [32, 4127]));

    // A square: the total of four is cut once.
    let (mut sums, mut word) = ([0; 4], [7; 1]);
    let answer = frame(2, 2, true, &ONE_SAMPLE, &[7, 7, 7, 3], &mut sums, &mut word);
    assert_eq!((answer, sums, word), (Ok(()), [135, 135, 135, 131], [33]));

    let answer = frame(
        2,
        2,
        true,
        &ONE_SAMPLE,
        &[7, 7, 16_384, 3],
        &mut sums,
        &mut word,
    );
    assert_eq!(answer, refused(13, 2));
    let answer = frame(2, 3, true, &ONE_SAMPLE, &[], &mut sums, &mut word);
    assert_eq!(answer, refused(1, 0));
    assert_eq!((sums, word), ([135, 135, 135, 131], [33]));
}

/// Four columns and two rows: the left square and the right one, in one call and on a board.
#[test]
fn a_wide_frame() {
    let readings = [4, 4, 8, 8, 4, 4, 8, 8];
    let (mut sums, mut words) = ([0; 8], [7; 2]);
    let answer = frame(4, 2, true, &ONE_SAMPLE, &readings, &mut sums, &mut words);
    assert_eq!((answer, words), (Ok(()), [33, 34]));

    let mut words = [7; 2];
    let mut board = Board::open(4, 2, true).unwrap();
    assert_eq!(board.update(&ONE_SAMPLE), Ok(()));
    assert_eq!(board.start(), Ok(()));
    assert_eq!(board.feed(&readings, &mut sums), Ok(()));
    assert_eq!(board.read_out(&sums, &mut words), Ok(()));
    assert_eq!(words, [33, 34]);
}

#[test]
fn sides() {
    for (width, height, binned) in [
        (0, 1, false),
        (1, 1025, false),
        (2, 3, true),
        (1 << 32, 1, false),
    ] {
        assert_eq!(
            Board::open(width, height, binned),
            refused(1, 0),
            "{width} x {height}"
        );
    }
    assert!(Board::open(1024, 1024, true).is_ok());
}

/// One board takes ramp after ramp, each cut at another place: all give the sums and the word of the frame at once.
#[test]
fn a_ramp_in_parts() {
    let mut whole = ([0; 4], [0; 1]);
    let answer = frame(
        2,
        2,
        true,
        &TWO_SAMPLES,
        &READINGS,
        &mut whole.0,
        &mut whole.1,
    );
    assert_eq!((answer, whole), (Ok(()), (SUMS, SQUARE)));
    let mut board = Board::open(2, 2, true).unwrap();
    board.update(&TWO_SAMPLES).unwrap();
    for cut in 0..=8 {
        let (mut sums, mut word) = ([-1; 4], [7; 1]);
        assert_eq!(board.start(), Ok(()));
        assert_eq!(board.feed(&READINGS[..cut], &mut sums), Ok(()));
        assert_eq!(board.feed(&READINGS[cut..], &mut sums), Ok(()));
        assert_eq!(board.read_out(&sums, &mut word), Ok(()));
        assert_eq!((sums, word), whole, "cut at {cut}");
    }
}

/// The same ramps in floats, over floats that no sum is: the same whole numbers and the same word.
#[test]
fn a_ramp_in_floats() {
    let mut board = Board::open(2, 2, true).unwrap();
    board.update(&TWO_SAMPLES).unwrap();
    for cut in 0..=8 {
        let (mut sums, mut word) = ([f64::NAN, f64::INFINITY, 0.5, -0.0], [7; 1]);
        assert_eq!(board.start(), Ok(()));
        assert_eq!(board.feed_floats(&READINGS[..cut], &mut sums), Ok(()));
        assert_eq!(board.feed_floats(&READINGS[cut..], &mut sums), Ok(()));
        assert_eq!(board.read_out_floats(&sums, &mut word), Ok(()));
        assert_eq!((sums, word), (SUMS.map(f64::from), SQUARE), "cut at {cut}");
    }
}

/// A float is possible if it is a whole number that is; a product of -0 isn't seen, and an entry that gets no reading stays bit for bit.
#[test]
fn floats_that_are_not_possible() {
    let not_possible = [
        f64::NAN,
        -f64::NAN,
        f64::INFINITY,
        f64::NEG_INFINITY,
        -0.0,
        0.25,
        1323.5,
        f64::MIN_POSITIVE,
        f64::MAX,
        491_619.0,
        2_147_483_648.0,
        4_294_968_619.0,
    ];
    for float in not_possible {
        let bits = |sums: [f64; 4]| sums.map(f64::to_bits);
        let damaged = [1323.0, 1_073_741_825.0, float, float];
        let (mut sums, mut word) = (damaged, [7; 1]);
        let (mut board, _) = fed(4);
        let before = board.clone();
        assert_eq!(board.feed_floats(&READINGS[4..], &mut sums), refused(14, 2));
        assert_eq!((&board, bits(sums)), (&before, bits(damaged)), "{float}");
        assert_eq!(board.feed_floats(&[0, 0], &mut sums), Ok(()));
        assert_eq!(bits(sums), bits(damaged), "{float}");

        let (mut board, _) = fed(8);
        let before = board.clone();
        assert_eq!(board.read_out_floats(&sums, &mut word), refused(14, 2));
        assert_eq!((board, word), (before, [7]), "{float}");
    }

    let (mut board, mut word) = (Board::open(1, 1, false).unwrap(), [7; 1]);
    let mut sums = [f64::NAN];
    board.update(&[0x03, 0x08, 0x18, 0x10, 0x02]).unwrap(); // weights -8 and -0, N is 2
    board.start().unwrap();
    for _sample in 1..=2 {
        board.feed_floats(&[16], &mut sums).unwrap();
        assert_eq!(sums[0].to_bits(), 0);
    }
    assert_eq!(board.read_out_floats(&sums, &mut word), Ok(()));
    assert_eq!(word, [0]);
}

#[test]
fn refused_parts_in_floats() {
    let (mut board, whole) = fed(7);
    let (mut sums, mut word) = (whole.map(f64::from), [7; 1]);
    let (before, kept) = (board.clone(), sums);
    assert_eq!(board.feed_floats(&[1, 2], &mut sums), refused(12, 0));
    assert_eq!(board.feed_floats(&[16_384], &mut sums), refused(13, 0));
    assert_eq!(board.feed_floats(&[1], &mut sums[1..]), refused(11, 0));
    assert_eq!(board.read_out_floats(&sums[1..], &mut word), refused(11, 0));
    assert_eq!(board.read_out_floats(&sums, &mut word), refused(15, 0));
    assert_eq!((&board, sums, word), (&before, kept, [7]));
    assert_eq!(board.feed_floats(&READINGS[7..], &mut sums), Ok(()));
    assert_eq!(board.read_out_floats(&sums, &mut []), refused(16, 0));
    assert_eq!(board.read_out_floats(&sums, &mut word), Ok(()));
    assert_eq!((sums, word), (SUMS.map(f64::from), SQUARE));
    assert_eq!(board.read_out_floats(&sums, &mut word), refused(10, 0));
    assert_eq!(board.feed_floats(&[], &mut sums), refused(10, 0));
}

#[test]
fn refused_parts() {
    let (mut board, _) = fed(7);
    let (before, mut sums, mut word) = (board.clone(), SUMS, [7; 1]);
    assert_eq!(board.feed(&[1, 2], &mut sums), refused(12, 0));
    assert_eq!(board.feed(&[16_384], &mut sums), refused(13, 0));
    assert_eq!(board.feed(&[1], &mut sums[1..]), refused(11, 0));
    assert_eq!(board.read_out(&sums, &mut word), refused(15, 0));
    assert_eq!(board.start(), refused(9, 0));
    assert_eq!((board, sums, word), (before, SUMS, [7]));

    // A mark of sample 2 isn't possible after one sample.
    let (mut board, _) = fed(4);
    let before = board.clone();
    assert_eq!(board.feed(&[1, 2, 3, 4], &mut sums), refused(14, 2));
    assert_eq!((board, sums), (before, SUMS));

    let (mut board, mut sums) = fed(8);
    let before = board.clone();
    assert_eq!(board.read_out(&sums, &mut []), refused(16, 0));
    sums[3] = i32::MIN;
    assert_eq!(board.read_out(&sums, &mut word), refused(14, 3));
    assert_eq!((board, word), (before, [7]));
}

/// An update waits for the next ramp, and a ramp that is dropped leaves it waiting.
#[test]
fn updates_during_a_ramp() {
    let (mut board, mut sums) = fed(4);
    let mut word = [7; 1];
    assert_eq!(board.update(&ONE_SAMPLE), Ok(()));
    assert_eq!(board.update(&[0x00, 0x08, 0x0A]), refused(8, 0));
    assert_eq!(board.feed(&READINGS[4..], &mut sums), Ok(()));
    assert_eq!(board.read_out(&sums, &mut word), Ok(()));
    assert_eq!((sums, word), (SUMS, SQUARE));

    assert_eq!(board.drop_ramp(), refused(10, 0));
    assert_eq!(board.start(), Ok(()));
    assert_eq!(board.drop_ramp(), Ok(()));
    assert_eq!(board.feed(&[], &mut sums), refused(10, 0));
    assert_eq!(board.start(), Ok(()));
    assert_eq!(board.feed(&[7, 7, 7, 3], &mut sums), Ok(()));
    assert_eq!(board.read_out(&sums, &mut word), Ok(()));
    assert_eq!((sums, word), ([135, 135, 135, 131], [33]));
}

/// The defaults are covered up to a threshold of 13,087; the settings that wait don't count.
#[test]
fn covered_settings() {
    let mut board = Board::open(1, 1, false).unwrap();
    assert_eq!(board.covered(), Ok(true));
    assert_eq!(board.update(&[0x00, 0x02, 0x20, 0x33]), Ok(()));
    assert_eq!(board.covered(), Ok(true));
    assert_eq!(board.start(), Ok(()));
    assert_eq!(board.covered(), Ok(false));
}

#[test]
fn a_board_kept_elsewhere() {
    let (mut board, mut sums) = fed(3);
    let kept = *board.words();
    let mut back = Board::from_words(kept);
    assert_eq!(back, board);
    let mut other = sums;
    assert_eq!(board.feed(&READINGS[3..], &mut sums), Ok(()));
    assert_ne!(*board.words(), kept);
    assert_eq!(back.feed(&READINGS[3..], &mut other), Ok(()));
    assert_eq!((back, other), (board, SUMS));
    assert_eq!(sums, SUMS);
}

/// Each word in turn is one that no board has: every call is refused with 99 and leaves all as it was.
#[test]
fn words_that_hold_no_board() {
    let good = *fed(8).0.words();
    let damaged = [-16, 1 << 32, i64::MIN, i64::MAX];
    let each = (0..WORDS).flat_map(|at| damaged.map(|word| (at, word)));
    for (at, word) in each.chain([(2, 2), (3, 2), (4, 9)]) {
        let mut words = good;
        words[at] = word;
        let mut board = Board::from_words(words);
        let (mut sums, mut square) = (SUMS, [7; 1]);
        let mut floats = SUMS.map(f64::from);
        for answer in [
            board.update(&ONE_SAMPLE),
            board.start(),
            board.feed(&[], &mut sums),
            board.read_out(&SUMS, &mut square),
            board.feed_floats(&[], &mut floats),
            board.read_out_floats(&SUMS.map(f64::from), &mut square),
            board.drop_ramp(),
            board.covered().map(|_| ()),
        ] {
            assert_eq!(answer, refused(99, 0), "word {at} is {word}");
        }
        assert_eq!(
            (*board.words(), sums, floats, square),
            (words, SUMS, SUMS.map(f64::from), [7]),
            "word {at} is {word}"
        );
    }
}

#[test]
fn meanings() {
    let ordinary = |low, high| Ok(WordRead::Ordinary { low, high });
    assert_eq!(read_word(2, 0), ordinary(0.0, 4.0));
    assert_eq!(read_word(1, 4127), ordinary(8254.0, 8256.0));
    assert_eq!(read_word(3, 32_751), ordinary(262_008.0, 262_016.0));
    assert_eq!(read_word(2, 32_753), Ok(WordRead::Saturated(1)));
    assert_eq!(read_word(2, 32_761), Ok(WordRead::Saturated(9)));
    assert_eq!(read_word(2, 32_767), Ok(WordRead::Negative));
    for word in [32_752, 32_762, 32_766, 32_768, 65_535] {
        assert_eq!(read_word(2, word), Ok(WordRead::Unassigned), "{word}");
    }
    for truncation in [0, 4, u16::MAX] {
        assert_eq!(read_word(truncation, 0), refused(7, 0));
    }
}

/// The nearest flag, the first in row order among equals, and the flags in a box.
#[test]
fn flags() {
    // Three columns, three rows: above, left, right and below the middle, and the corners. Each is found when those before it are gone.
    let mut words = [32_767; 9];
    assert_eq!(nearest_flag(&words, 3, 3, 1, 1), Ok(Some((1, 1))));
    for (left, at) in [4, 1, 3, 5, 7, 0, 2, 6, 8].into_iter().enumerate() {
        assert_eq!(nearest_flag(&words, 3, 3, 1, 1), Ok(Some((at / 3, at % 3))));
        assert_eq!(count_flags(&words, 3, 3, (0, 0), (2, 2)), Ok(9 - left));
        words[at] = 32_766;
    }
    assert_eq!(nearest_flag(&words, 3, 3, 1, 1), Ok(None));
    assert_eq!(count_flags(&words, 3, 3, (0, 0), (2, 2)), Ok(0));

    let words = [32_753, 32_752, 32_762, 32_761, 65_535, 32_767];
    assert_eq!(nearest_flag(&words, 3, 2, 0, 2), Ok(Some((1, 2))));
    assert_eq!(nearest_flag(&words, 2, 3, 1, 0), Ok(Some((0, 0))));
    assert_eq!(nearest_flag(&words, 6, 1, 0, 2), Ok(Some((0, 3))));
    assert_eq!(count_flags(&words, 3, 2, (1, 0), (1, 2)), Ok(2));
    assert_eq!(count_flags(&words, 3, 2, (0, 0), (1, 0)), Ok(2));
    assert_eq!(count_flags(&words, 3, 2, (0, 1), (1, 1)), Ok(0));
    assert_eq!(count_flags(&words, 3, 2, (1, 2), (1, 2)), Ok(1));
}

#[test]
fn refused_questions_about_flags() {
    let words = [32_767; 6];
    for (some, width, height, place, number) in [
        (&words[..], 0, 2, (0, 0), 19),
        (&words[..], 3, 1025, (9, 9), 19),
        (&[], usize::MAX, usize::MAX, (0, 0), 19),
        (&[], 1 << 32, 1 << 32, (0, 0), 19),
        (&words[1..], 3, 2, (2, 3), 16),
        (&[], 3, 2, (0, 0), 16),
        (&words[..], 3, 2, (2, 0), 19),
        (&words[..], 3, 2, (0, 3), 19),
    ] {
        let nearest = nearest_flag(some, width, height, place.0, place.1);
        assert_eq!(nearest, refused(number, 0));
        assert_eq!(
            count_flags(some, width, height, place, place),
            refused(number, 0)
        );
    }
    assert_eq!(count_flags(&words, 3, 2, (1, 0), (0, 2)), refused(19, 0));
    assert_eq!(count_flags(&words, 3, 2, (0, 2), (1, 1)), refused(19, 0));
    assert_eq!(
        count_flags(&words[1..], 3, 2, (1, 2), (0, 0)),
        refused(16, 0)
    );
}

#[test]
fn a_refusal_is_an_error() {
    let error: Box<dyn Error> = Refusal {
        number: 13,
        place: 2,
    }
    .into();
    assert_eq!(error.to_string(), "refused with 13 at place 2");
}
