//! TMAX and MAX on words and on shorts, without a branch on the values.

use crate::emulator::clu::CORRECTION;

/// A signed value of 16 or 32 bits, whose sums saturate and then set a mark.
pub trait Lane: Copy + Ord {
    fn sum(self, other: Self, saturated: &mut bool) -> Self;
    fn difference(self, other: Self, saturated: &mut bool) -> Self;
    /// The correction of TMAX, which is 0 from 128 on; so all that is further apart has the last
    /// one. Below zero the exact difference becomes its complement.
    fn correction(self, other: Self) -> Self;

    #[inline(always)]
    fn tmax(self, other: Self, saturated: &mut bool) -> Self {
        self.max(other).sum(self.correction(other), saturated)
    }
}

impl Lane for i32 {
    #[inline(always)]
    fn sum(self, other: i32, saturated: &mut bool) -> i32 {
        *saturated |= self.overflowing_add(other).1;
        self.saturating_add(other)
    }

    #[inline(always)]
    fn difference(self, other: i32, saturated: &mut bool) -> i32 {
        *saturated |= self.overflowing_sub(other).1;
        self.saturating_sub(other)
    }

    #[inline(always)]
    fn correction(self, other: i32) -> i32 {
        let d = i64::from(self) - i64::from(other);
        let distance = (d ^ d >> 63).min(255);
        i32::from(CORRECTION[distance as usize % 256])
    }
}

impl Lane for i16 {
    #[inline(always)]
    fn sum(self, other: i16, saturated: &mut bool) -> i16 {
        *saturated |= self.overflowing_add(other).1;
        self.saturating_add(other)
    }

    #[inline(always)]
    fn difference(self, other: i16, saturated: &mut bool) -> i16 {
        *saturated |= self.overflowing_sub(other).1;
        self.saturating_sub(other)
    }

    #[inline(always)]
    fn correction(self, other: i16) -> i16 {
        let d = i32::from(self) - i32::from(other);
        let distance = (d ^ d >> 31).min(255);
        i16::from(CORRECTION[distance as usize % 256])
    }
}

#[inline(always)]
pub fn low(word: u32) -> i16 {
    word as i16
}

#[inline(always)]
pub fn high(word: u32) -> i16 {
    (word >> 16) as i16
}

#[inline(always)]
pub fn packed(low: i16, high: i16) -> u32 {
    u32::from(low as u16) | u32::from(high as u16) << 16
}

#[cfg(test)]
mod tests {
    use super::{high, low, packed, Lane};
    use crate::emulator::clu::{tmax, Lanes};

    /// All distances around those at which the correction or the sign changes, and both ends.
    const VALUES: [i32; 16] = [
        i32::MIN,
        i32::MIN + 1,
        i32::MIN + 255,
        -32_769,
        -32_768,
        -257,
        -128,
        -1,
        0,
        1,
        127,
        255,
        256,
        32_767,
        i32::MAX - 22,
        i32::MAX,
    ];

    #[test]
    fn tmax_is_that_of_the_plain_emulator() {
        for start in VALUES {
            for distance in -300..=300 {
                let (a, b) = (start as u32, start.wrapping_add(distance) as u32);
                let mut saturated = false;
                let value = (a as i32).tmax(b as i32, &mut saturated) as u32;
                assert_eq!((value, saturated), tmax(Lanes::Word, a, b));
                let mut saturated = false;
                let value = packed(
                    low(a).tmax(low(b), &mut saturated),
                    high(a).tmax(high(b), &mut saturated),
                );
                assert_eq!((value, saturated), tmax(Lanes::Shorts, a, b));
            }
        }
    }
}
