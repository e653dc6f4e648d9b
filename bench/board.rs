//! The board that the hand-written programs keep. Nobody else writes its fields, so no board is unsound, and no call asks whether it is.

use std::marker::PhantomData;

use crate::job::{refuse, Answer, Board, Job, Opened, Refusal, Sides};
use crate::settings::Settings;

#[derive(Clone)]
pub struct Kept {
    sides: Sides,
    waiting: Settings,
    in_force: Settings,
    running: bool,
    fed: usize,
}

fn side_taken(side: usize, binned: bool) -> bool {
    (1..=1024).contains(&side) && !(binned && side % 2 == 1)
}

impl Kept {
    pub fn open(sides: Sides) -> Result<Kept, Refusal> {
        if !side_taken(sides.width, sides.binned) || !side_taken(sides.height, sides.binned) {
            return refuse(1, 0);
        }
        Ok(Kept {
            sides,
            waiting: Settings::DEFAULTS,
            in_force: Settings::DEFAULTS,
            running: false,
            fed: 0,
        })
    }

    /// Open, Update and Start.
    pub fn begin(job: &Job) -> Result<Kept, Refusal> {
        let mut board = Kept::open(job.sides)?;
        board.update(&job.record)?;
        board.start()?;
        Ok(board)
    }

    fn update(&mut self, record: &[u8]) -> Answer {
        self.waiting = self.waiting.updated(record)?;
        Ok(())
    }

    fn start(&mut self) -> Answer {
        if self.running {
            return refuse(9, 0);
        }
        self.in_force = self.waiting;
        self.running = true;
        Ok(())
    }

    fn drop_ramp(&mut self) -> Answer {
        if !self.running {
            return refuse(10, 0);
        }
        self.end();
        Ok(())
    }

    fn end(&mut self) {
        self.running = false;
        self.fed = 0;
    }

    /// What Feed and Read out check first.
    pub fn check_ramp<E>(&self, sums: &[E]) -> Answer {
        if !self.running {
            return refuse(10, 0);
        }
        if sums.len() != self.sides.pixels() {
            return refuse(11, 0);
        }
        Ok(())
    }

    /// What Read out checks next, when the ramp has had so many readings.
    pub fn check_output(&self, fed: usize, words: &[u16]) -> Answer {
        if fed < self.wanted() {
            return refuse(15, 0);
        }
        if words.len() != self.sides.words() {
            return refuse(16, 0);
        }
        Ok(())
    }

    pub fn sides(&self) -> Sides {
        self.sides
    }

    /// The settings in force.
    pub fn settings(&self) -> &Settings {
        &self.in_force
    }

    /// How many readings the ramp has had.
    pub fn fed(&self) -> usize {
        self.fed
    }

    /// How many it wants in all.
    pub fn wanted(&self) -> usize {
        self.in_force.samples * self.sides.pixels()
    }
}

/// What a hand-written program does in its own way, once a ramp runs and the sums are as long as they must be: its further checks, and what it writes.
pub trait Way<E>: 'static {
    fn feed(board: &Kept, readings: &[u16], sums: &mut [E]) -> Answer;
    fn read_out(board: &Kept, sums: &[E], words: &mut [u16]) -> Answer;
}

/// The board of a program of this way.
struct ByHand<W> {
    kept: Kept,
    way: PhantomData<W>,
}

impl<W: 'static> ByHand<W> {
    fn boxed<E>(kept: Kept) -> Box<dyn Board<E>>
    where
        W: Way<E>,
    {
        let way = PhantomData::<W>;
        Box::new(ByHand { kept, way })
    }
}

pub fn open<W: Way<E>, E>(sides: Sides) -> Opened<E> {
    Ok(ByHand::<W>::boxed(Kept::open(sides)?))
}

impl<E, W: Way<E>> Board<E> for ByHand<W> {
    fn update(&mut self, record: &[u8]) -> Answer {
        self.kept.update(record)
    }

    fn start(&mut self) -> Answer {
        self.kept.start()
    }

    fn feed(&mut self, readings: &[u16], sums: &mut [E]) -> Answer {
        self.kept.check_ramp(sums)?;
        W::feed(&self.kept, readings, sums)?;
        self.kept.fed += readings.len();
        Ok(())
    }

    fn read_out(&mut self, sums: &[E], words: &mut [u16]) -> Answer {
        self.kept.check_ramp(sums)?;
        W::read_out(&self.kept, sums, words)?;
        self.kept.end();
        Ok(())
    }

    fn drop_ramp(&mut self) -> Answer {
        self.kept.drop_ramp()
    }

    fn copy(&self) -> Box<dyn Board<E>> {
        ByHand::<W>::boxed(self.kept.clone())
    }
}
