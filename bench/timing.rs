//! Times of calls that take turns, and the ratios of their times round by round.

use std::time::Instant;

/// A round's times must be long enough for the clock, in seconds.
const LEAST: f64 = 0.000_5;

/// A call's times as parts of another's: the median of the rounds' ratios, and the ratio of the two least times.
#[derive(Clone, Copy)]
pub struct Ratio {
    pub median: f64,
    pub least: f64,
}

/// A call that is timed. What makes it ready isn't.
pub trait Timed {
    /// Makes so many calls ready, at most `BLOCK`.
    fn ready(&mut self, calls: usize);
    /// The call of this number.
    fn call(&mut self, number: usize);
}

impl<F: FnMut()> Timed for F {
    fn ready(&mut self, _: usize) {}

    fn call(&mut self, _: usize) {
        self();
    }
}

/// How many calls are made ready at once: enough that the clock, which stops between, costs next to nothing, and few enough that what they need stays
/// in the cache.
const BLOCK: usize = 16;

fn once(timed: &mut dyn Timed, repeats: usize) -> f64 {
    let mut seconds = 0.0;
    for first in (0..repeats).step_by(BLOCK) {
        let calls = BLOCK.min(repeats - first);
        timed.ready(calls);
        let start = Instant::now();
        for number in 0..calls {
            timed.call(number);
        }
        seconds += start.elapsed().as_secs_f64();
    }
    seconds / repeats as f64
}

/// The times of each call, round by round. The calls take turns, and each round another one begins.
pub struct Times(Vec<Vec<f64>>);

pub fn take_turns(calls: &mut [&mut dyn Timed], seconds: f64) -> Times {
    let mut repeats = vec![1; calls.len()];
    let mut round = 0.0;
    for (i, call) in calls.iter_mut().enumerate() {
        once(*call, 1);
        let mut took = once(*call, 1);
        while took * (repeats[i] as f64) < LEAST {
            repeats[i] *= 2;
            took = once(*call, repeats[i]);
        }
        round += took * repeats[i] as f64;
    }
    let rounds = ((seconds / round) as usize).clamp(7, 101);
    let mut times = vec![Vec::with_capacity(rounds); calls.len()];
    for k in 0..rounds {
        for j in 0..calls.len() {
            let i = (j + k) % calls.len();
            times[i].push(once(calls[i], repeats[i]));
        }
    }
    Times(times)
}

impl Times {
    pub fn ratio(&self, a: usize, b: usize) -> Ratio {
        let mut ratios: Vec<f64> = self.0[a]
            .iter()
            .zip(&self.0[b])
            .map(|(x, y)| x / y)
            .collect();
        ratios.sort_by(f64::total_cmp);
        Ratio {
            median: ratios[ratios.len() / 2],
            least: self.least(a) / self.least(b),
        }
    }

    /// The first call's to each of the others.
    pub fn ratios(&self) -> Vec<Ratio> {
        (1..self.0.len()).map(|b| self.ratio(0, b)).collect()
    }

    pub fn least(&self, a: usize) -> f64 {
        self.0[a].iter().copied().fold(f64::INFINITY, f64::min)
    }
}
