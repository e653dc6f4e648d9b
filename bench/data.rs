//! Ramps to measure with: readings of nine samples, of three kinds.

use crate::job::{Job, Sides};

/// Numbers that look random and are the same in every run.
pub struct Draws(u64);

impl Draws {
    pub fn new(seed: u64) -> Draws {
        Draws(seed.wrapping_mul(0x9E37_79B9_7F4A_7C15) | 1)
    }

    pub fn below(&mut self, n: u32) -> u32 {
        self.0 ^= self.0 << 13;
        self.0 ^= self.0 >> 7;
        self.0 ^= self.0 << 17;
        ((self.0 >> 32) * u64::from(n) >> 32) as u32
    }
}

#[derive(Clone, Copy, Debug, PartialEq)]
pub enum Kind {
    FewSaturating,
    MostSaturating,
    ManyNegative,
}

pub const KINDS: [Kind; 3] = [
    Kind::FewSaturating,
    Kind::MostSaturating,
    Kind::ManyNegative,
];

impl Kind {
    pub fn name(self) -> &'static str {
        match self {
            Kind::FewSaturating => "1 % saturate",
            Kind::MostSaturating => "most saturate",
            Kind::ManyNegative => "many negative",
        }
    }
}

pub const SAMPLES: usize = 9;
const THRESHOLD: u32 = 13_000;

/// A job with the default weights, r and N, and threshold 13,000.
pub fn job(side: usize, binned: bool) -> Job {
    let [low, high] = (THRESHOLD as u16).to_le_bytes();
    let sides = Sides {
        width: side,
        height: side,
        binned,
    };
    Job {
        sides,
        record: vec![0x00, 0x02, low, high],
    }
}

/// The readings of a whole ramp. A pixel starts somewhere and climbs, or falls; one that saturates goes over the threshold at some sample and stays there.
pub fn readings(kind: Kind, pixels: usize, seed: u64) -> Vec<u16> {
    let mut draws = Draws::new(seed);
    let (percent, falling) = match kind {
        Kind::FewSaturating => (1, 0),
        Kind::MostSaturating => (80, 0),
        Kind::ManyNegative => (1, 50),
    };
    let mut all = vec![0u16; SAMPLES * pixels];
    for p in 0..pixels {
        let saturates = draws.below(100) < percent;
        let falls = draws.below(100) < falling;
        let (start, slope, over) = (draws.below(2_000), draws.below(1_200), draws.below(9));
        for n in 0..SAMPLES as u32 {
            let steps = if falls { 8 - n } else { n };
            let x = if saturates && n >= over {
                THRESHOLD + 1 + draws.below(3_000)
            } else {
                start + slope * steps + draws.below(50)
            };
            all[n as usize * pixels + p] = x as u16;
        }
    }
    all
}
