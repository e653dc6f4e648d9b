//! All programs must agree on every sum, word and refusal before anything is timed.

use crate::data::{self, Draws, KINDS};
use crate::job::{Answer, Board, Job, Opened, Program, Sides};
use crate::settings::Settings;

/// An entry of one kind.
pub trait Entry: Copy + 'static {
    /// What a buffer holds that nobody has written.
    const UNWRITTEN: Self;
    /// Two entries are the same if their bits are.
    fn bits(self) -> u64;
    /// An entry that is near a limit of what is possible after some samples, or impossible.
    fn odd(draws: &mut Draws) -> Self;
}

impl Entry for i32 {
    const UNWRITTEN: i32 = i32::MIN;

    fn bits(self) -> u64 {
        self as u64
    }

    fn odd(draws: &mut Draws) -> i32 {
        let k = draws.below(10) as i32;
        let beside = draws.below(3) as i32 - 1;
        match draws.below(4) {
            0 => 128 + 245_745 * k + beside,
            1 => 128 - 245_745 * k + beside,
            2 => 1_073_741_824 + k + beside,
            _ => [i32::MIN, i32::MAX][draws.below(2) as usize],
        }
    }
}

/// What a call leaves: the answer and the buffers.
type Left<E> = (Answer, Vec<E>, Vec<u16>);

fn is_same<E: Entry>(a: &Left<E>, b: &Left<E>) -> bool {
    let bits = |sums: &[E]| -> Vec<u64> { sums.iter().map(|entry| entry.bits()).collect() };
    (a.0, bits(&a.1), &a.2) == (b.0, bits(&b.1), &b.2)
}

fn feed<E: Entry>(board: &mut dyn Board<E>, readings: &[u16], sums: &[E]) -> Left<E> {
    let mut sums = sums.to_vec();
    let answer = board.feed(readings, &mut sums);
    (answer, sums, vec![])
}

fn read_out<E: Entry>(board: &mut dyn Board<E>, sums: &[E], words: usize) -> Left<E> {
    let mut words = vec![7; words];
    let answer = board.read_out(sums, &mut words);
    (answer, vec![], words)
}

pub struct Agreement<E: 'static> {
    programs: &'static [Program<E>],
    pub calls: usize,
    refused: [usize; 100],
}

impl<E: Entry> Agreement<E> {
    pub fn new(programs: &'static [Program<E>]) -> Agreement<E> {
        Agreement {
            programs,
            calls: 0,
            refused: [0; 100],
        }
    }

    /// Every job that is timed, and many lists.
    pub fn check(&mut self, sides: &[usize], lists: usize) {
        for &side in sides {
            for binned in [false, true] {
                for kind in KINDS {
                    let job = data::job(side, binned);
                    let readings = data::readings(kind, job.sides.pixels(), side as u64);
                    let odd = 7 * job.sides.pixels() / 5 + 3;
                    let parts = [readings.len(), job.sides.pixels(), side, odd];
                    self.ramp(&job, &readings, &parts);
                }
            }
        }
        let mut draws = Draws::new(2026);
        for _ in 0..lists {
            self.list(&mut draws);
        }
    }

    /// How many calls were refused with each number.
    pub fn refused(&self) -> String {
        let some = (0..100).filter(|&n| self.refused[n] > 0);
        let each: Vec<String> = some.map(|n| format!("{n}: {}", self.refused[n])).collect();
        each.join(", ")
    }

    /// What the same call left of each program, in their order: all must have left what the first did.
    fn same(&mut self, what: &str, lefts: impl Iterator<Item = Left<E>>) -> Left<E> {
        let mut lefts = self.programs.iter().zip(lefts);
        let (first, left) = lefts.next().unwrap();
        for (program, other) in lefts {
            assert!(
                other.0 == left.0,
                "{what}: {} answers {:?}, {} {:?}",
                program.name,
                other.0,
                first.name,
                left.0
            );
            assert!(
                is_same(&other, &left),
                "{what}: {} leaves other buffers",
                program.name
            );
        }
        self.calls += 1;
        if let Err(refusal) = left.0 {
            self.refused[usize::from(refusal.number)] += 1;
        }
        left
    }

    /// A whole job in one call, where each program has such a call.
    fn frame(&mut self, job: &Job, readings: &[u16], sums: &[E], words: usize) -> Option<Left<E>> {
        let frames: Option<Vec<_>> = self.programs.iter().map(|p| p.frame).collect();
        let lefts = frames?.into_iter().map(|frame| {
            let (mut sums, mut words) = (sums.to_vec(), vec![7; words]);
            let answer = frame(job, readings, &mut sums, &mut words);
            (answer, sums, words)
        });
        Some(self.same("a frame", lefts))
    }

    /// A good job: in one call, and on a board that takes its ramp again and again, each time in parts of so many readings, and reads it out.
    fn ramp(&mut self, job: &Job, readings: &[u16], parts: &[usize]) {
        let unwritten = vec![E::UNWRITTEN; job.sides.pixels()];
        let mut whole = self.frame(job, readings, &unwritten, job.sides.words());
        for program in self.programs {
            let mut board = program.begin(job);
            for &part in parts {
                let (mut sums, mut words) = (unwritten.clone(), vec![7; job.sides.words()]);
                for some in readings.chunks(part) {
                    let answer = board.feed(some, &mut sums);
                    assert!(answer.is_ok(), "{} refuses a part", program.name);
                    self.calls += 1;
                }
                let answer = board.read_out(&sums, &mut words);
                self.calls += 1;
                assert!(answer.is_ok(), "{} refuses a frame", program.name);
                let left = (answer, sums, words);
                let whole = whole.get_or_insert_with(|| left.clone());
                assert!(
                    is_same(&left, whole),
                    "{}: parts of {part} leave another frame",
                    program.name
                );
                board.start().unwrap();
            }
        }
    }

    /// A list of calls on a small board, drawn at random, in most of which something is wrong in one or two places: the record, the readings, the sums, a
    /// length, or the call is out of turn.
    fn list(&mut self, draws: &mut Draws) {
        let job = small_job(draws);
        let readings = data::readings(
            kind(draws),
            job.sides.pixels(),
            u64::from(draws.below(1_000_000)),
        );
        let samples = samples_of(&job.record);
        let some = damaged(draws, &readings[..samples * job.sides.pixels()]);
        let sums = vec![E::UNWRITTEN; mostly(draws, job.sides.pixels())];
        let words = mostly(draws, job.sides.words());
        let _ = self.frame(&job, &some, &sums, words);

        let programs = self.programs.iter();
        let opened: Vec<Opened<E>> = programs.map(|p| (p.open)(job.sides)).collect();
        let answers = opened.iter().map(|opened| match opened {
            Ok(_) => (Ok(()), vec![], vec![]),
            Err(refusal) => (Err(*refusal), vec![], vec![]),
        });
        let _ = self.same("Open", answers);
        let Ok(boards) = opened.into_iter().collect() else {
            return;
        };
        let mut list = List {
            sums: vec![E::UNWRITTEN; job.sides.pixels()],
            job,
            agreement: self,
            boards,
            readings,
            waiting: Settings::DEFAULTS,
            samples: 0,
            fed: 0,
        };
        for _ in 0..1 + draws.below(3) {
            list.ramp(draws);
        }
    }
}

/// A list of calls on a board of each program.
struct List<'a, E: 'static> {
    agreement: &'a mut Agreement<E>,
    job: Job,
    boards: Vec<Box<dyn Board<E>>>,
    /// The readings of nine samples.
    readings: Vec<u16>,
    /// The sums as the last taken Feed left them.
    sums: Vec<E>,
    waiting: Settings,
    /// How many samples the ramp that runs has; 0 if none does.
    samples: usize,
    fed: usize,
}

impl<E: Entry> List<'_, E> {
    fn same(&mut self, what: &str, call: impl Fn(&mut dyn Board<E>) -> Left<E>) -> Left<E> {
        let lefts = self.boards.iter_mut().map(|board| call(&mut **board));
        self.agreement.same(what, lefts)
    }

    /// A call that is lent no buffer.
    fn plain(&mut self, what: &str, call: impl Fn(&mut dyn Board<E>) -> Answer) -> Answer {
        self.same(what, |board| (call(board), vec![], vec![])).0
    }

    fn update(&mut self, record: &[u8]) {
        if self.plain("Update", |board| board.update(record)).is_ok() {
            self.waiting = self.waiting.updated(record).unwrap();
        }
    }

    fn start(&mut self) {
        if self.plain("Start", |board| board.start()).is_ok() {
            (self.samples, self.fed) = (self.waiting.samples, 0);
        }
    }

    fn drop_ramp(&mut self) {
        if self.plain("Drop", |board| board.drop_ramp()).is_ok() {
            (self.samples, self.fed) = (0, 0);
        }
    }

    fn left(&self) -> usize {
        self.samples * self.job.sides.pixels() - self.fed
    }

    fn feed(&mut self, draws: &mut Draws, count: usize) {
        let end = self.readings.len().min(self.fed + count);
        let readings = damaged(draws, &self.readings[self.fed..end]);
        let mut sums = self.sums.clone();
        sums.resize(mostly(draws, sums.len()), E::UNWRITTEN);
        let left = self.same("Feed", |board| feed(board, &readings, &sums));
        if left.0.is_ok() {
            self.sums = left.1;
            self.fed += readings.len();
        }
    }

    fn read_out(&mut self, draws: &mut Draws) {
        let mut sums = self.sums.clone();
        sums.resize(mostly(draws, sums.len()), E::UNWRITTEN);
        let words = mostly(draws, self.job.sides.words());
        let left = self.same("Read out", |board| read_out(board, &sums, words));
        if left.0.is_ok() {
            (self.samples, self.fed) = (0, 0);
        }
    }

    /// Two entries become odd ones.
    fn damage(&mut self, draws: &mut Draws) {
        for _ in 0..2 {
            let at = draws.below(self.sums.len() as u32) as usize;
            self.sums[at] = E::odd(draws);
        }
    }

    /// A call that may be out of turn.
    fn any_call(&mut self, draws: &mut Draws) {
        match draws.below(5) {
            0 => self.update(&record(draws)),
            1 => self.start(),
            2 => self.feed(draws, 3),
            3 => self.read_out(draws),
            _ => self.drop_ramp(),
        }
    }

    /// A ramp in some parts, mostly to its end, and mostly read out.
    fn ramp(&mut self, draws: &mut Draws) {
        if draws.below(3) > 0 {
            let record = self.job.record.clone();
            self.update(&record);
        }
        self.start();
        for _ in 0..draws.below(4) {
            match draws.below(8) {
                0 => self.any_call(draws),
                1 => self.damage(draws),
                _ => {
                    let count = draws.below(1 + self.left() as u32) as usize;
                    self.feed(draws, count);
                }
            }
        }
        if draws.below(5) > 0 {
            let rest = mostly(draws, self.left());
            self.feed(draws, rest);
        }
        if draws.below(8) == 0 {
            self.damage(draws);
        }
        self.read_out(draws);
        if self.samples > 0 && draws.below(4) > 0 {
            self.read_out(draws);
            self.drop_ramp();
        }
    }
}

fn kind(draws: &mut Draws) -> data::Kind {
    KINDS[draws.below(3) as usize]
}

/// A length, or one beside it.
fn mostly(draws: &mut Draws, length: usize) -> usize {
    match draws.below(24) {
        0 => length + 1,
        1 => length.saturating_sub(1),
        _ => length,
    }
}

/// Readings, in some draws two of them others, mostly too large.
fn damaged(draws: &mut Draws, readings: &[u16]) -> Vec<u16> {
    let mut readings = readings.to_vec();
    if draws.below(12) == 0 && !readings.is_empty() {
        for _ in 0..2 {
            let at = draws.below(readings.len() as u32) as usize;
            readings[at] = 16_383 + draws.below(40_000) as u16;
        }
    }
    readings
}

/// A small board, whose sides are mostly good, and any record.
fn small_job(draws: &mut Draws) -> Job {
    let mut sides = Sides {
        width: 1 + draws.below(70) as usize,
        height: 1 + draws.below(6) as usize,
        binned: draws.below(2) == 1,
    };
    let record = record(draws);
    if draws.below(8) > 0 && sides.binned {
        sides.width += sides.width % 2;
        sides.height += sides.height % 2;
    }
    if draws.below(20) == 0 {
        sides.width = [0, 1025][draws.below(2) as usize];
    }
    Job { sides, record }
}

/// How many samples a job of this record has.
fn samples_of(record: &[u8]) -> usize {
    let settings = Settings::DEFAULTS.updated(record);
    settings.unwrap_or(Settings::DEFAULTS).samples
}

/// A record that is mostly good.
fn record(draws: &mut Draws) -> Vec<u8> {
    let map = draws.below(4096) as u16 | if draws.below(20) == 0 { 0x1000 } else { 0 };
    let mut bytes = map.to_le_bytes().to_vec();
    for bit in 0..12 {
        if map >> bit & 1 == 1 {
            let bad = draws.below(60) == 0;
            match bit {
                0..=8 => bytes.push(if bad { 32 } else { draws.below(32) as u8 }),
                9 => {
                    let threshold = if bad {
                        16_384
                    } else {
                        11_000 + draws.below(4_000) as u16
                    };
                    bytes.extend(threshold.to_le_bytes());
                }
                10 => bytes.push(if bad {
                    4 * draws.below(2) as u8
                } else {
                    1 + draws.below(3) as u8
                }),
                _ => bytes.push(if bad {
                    10 * draws.below(2) as u8
                } else {
                    1 + draws.below(9) as u8
                }),
            }
        }
    }
    if draws.below(20) == 0 {
        bytes.truncate(draws.below(4) as usize);
    }
    bytes
}
