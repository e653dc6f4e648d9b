//! What the hand-written programs share: the numbers of the paper, the settings, and what an update makes of them.

use crate::job::{refuse, Refusal};

pub const MARK: i32 = 1_073_741_824;
pub const MAX_READING: u16 = 16_383;
pub const MAX_PRODUCT: i32 = 245_745;

#[derive(Clone, Copy)]
pub struct Settings {
    pub weights: [i32; 9],
    pub threshold: u16,
    pub truncation: u32,
    pub samples: usize,
}

impl Settings {
    pub const DEFAULTS: Settings = Settings {
        weights: [-4, -3, -2, -1, 0, 1, 2, 3, 4],
        threshold: 13_087,
        truncation: 2,
        samples: 9,
    };

    /// The settings with a record's fields put in, or its first refusal.
    pub fn updated(mut self, bytes: &[u8]) -> Result<Settings, Refusal> {
        if bytes.len() < 2 {
            return refuse(2, 0);
        }
        let map = u16::from_le_bytes([bytes[0], bytes[1]]);
        if map >> 12 != 0 {
            return refuse(3, 0);
        }
        let fields = map.count_ones() as usize + usize::from(map >> 9 & 1 == 1);
        if bytes.len() != 2 + fields {
            return refuse(4, 0);
        }
        let mut at = 2;
        for bit in (0..12).filter(|bit| map >> bit & 1 == 1) {
            let byte = bytes[at];
            at += 1;
            match bit {
                0..=8 => {
                    if byte > 31 {
                        return refuse(5, 0);
                    }
                    let size = i32::from(byte & 15);
                    self.weights[bit] = if byte & 16 != 0 { -size } else { size };
                }
                9 => {
                    self.threshold = u16::from_le_bytes([byte, bytes[at]]);
                    at += 1;
                    if self.threshold > MAX_READING {
                        return refuse(6, 0);
                    }
                }
                10 => {
                    if !(1..=3).contains(&byte) {
                        return refuse(7, 0);
                    }
                    self.truncation = u32::from(byte);
                }
                _ => {
                    if !(1..=9).contains(&byte) {
                        return refuse(8, 0);
                    }
                    self.samples = usize::from(byte);
                }
            }
        }
        Ok(self)
    }
}
