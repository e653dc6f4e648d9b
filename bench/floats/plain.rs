//! The straightforward program's entries, in floats.

use crate::plain::Plain;
use crate::settings;

const MARK: f64 = settings::MARK as f64;
const MAX_PRODUCT: f64 = settings::MAX_PRODUCT as f64;

impl Plain for f64 {
    fn possible(self, k: usize) -> bool {
        if !self.is_finite() || self.fract() != 0.0 {
            return false;
        }
        if self == 0.0 && self.is_sign_negative() {
            return false;
        }
        let k = k as f64;
        (self >= 128.0 - MAX_PRODUCT * k && self <= 128.0 + MAX_PRODUCT * k)
            || (self > MARK && self <= MARK + k)
    }

    fn take(&mut self, n: usize, weight: i32, threshold: u16, x: u16) {
        if n == 1 {
            *self = if x > threshold {
                MARK + 1.0
            } else {
                128.0 + f64::from(weight) * f64::from(x)
            };
        } else if *self <= MARK {
            if x > threshold {
                *self = MARK + n as f64;
            } else {
                *self += f64::from(weight) * f64::from(x);
            }
        }
    }

    fn pixel_word(self, r: u32) -> u16 {
        if self > MARK {
            (32_752.0 + (self - MARK)) as u16
        } else {
            cut_off(self, r)
        }
    }

    fn square_word(square: [f64; 4], r: u32) -> u16 {
        let mut smallest = 10.0;
        for entry in square {
            if entry > MARK && entry - MARK < smallest {
                smallest = entry - MARK;
            }
        }
        if smallest < 10.0 {
            (32_752.0 + smallest) as u16
        } else {
            cut_off(square.iter().sum(), r + 2)
        }
    }
}

fn cut_off(sum: f64, shift: u32) -> u16 {
    if sum < 0.0 {
        32_767
    } else {
        ((sum as u32 >> shift) % 32_768) as u16
    }
}
