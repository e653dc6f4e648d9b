//! What a job is, and what a program that carries it out looks like from outside.

pub use crate::ramp_board::Refusal;

pub type Answer = Result<(), Refusal>;

pub fn refuse<T>(number: u8, place: usize) -> Result<T, Refusal> {
    Err(Refusal { number, place })
}

/// The sides of a board, and whether it is binned.
#[derive(Clone, Copy, Debug)]
pub struct Sides {
    pub width: usize,
    pub height: usize,
    pub binned: bool,
}

impl Sides {
    pub fn pixels(self) -> usize {
        self.width * self.height
    }

    pub fn words(self) -> usize {
        if self.binned {
            self.pixels() / 4
        } else {
            self.pixels()
        }
    }
}

/// A job: the sides of its board, and the update record.
#[derive(Clone, Debug)]
pub struct Job {
    pub sides: Sides,
    pub record: Vec<u8>,
}

/// A board as a program keeps it, whose sums are entries of one kind. All programs are called through this trait and none is inlined, so that a call
/// costs each of them the same.
pub trait Board<E> {
    fn update(&mut self, record: &[u8]) -> Answer;
    fn start(&mut self) -> Answer;
    fn feed(&mut self, readings: &[u16], sums: &mut [E]) -> Answer;
    fn read_out(&mut self, sums: &[E], words: &mut [u16]) -> Answer;
    fn drop_ramp(&mut self) -> Answer;
    /// A second board that stands where this one does.
    fn copy(&self) -> Box<dyn Board<E>>;
}

pub type Opened<E> = Result<Box<dyn Board<E>>, Refusal>;

/// The whole job in one call.
pub type Frame<E> = fn(&Job, &[u16], &mut [E], &mut [u16]) -> Answer;

/// A program: it opens boards, and does the whole job in one call where it can.
#[derive(Clone, Copy)]
pub struct Program<E> {
    pub name: &'static str,
    pub open: fn(Sides) -> Opened<E>,
    pub frame: Option<Frame<E>>,
}

impl<E> Program<E> {
    /// The board of a job, which is good, with a ramp that has had no readings.
    pub fn begin(&self, job: &Job) -> Box<dyn Board<E>> {
        let mut board = (self.open)(job.sides).unwrap();
        board.update(&job.record).unwrap();
        board.start().unwrap();
        board
    }
}
