//! DESPREAD's sums, eight bytes at a time.

/// The lower byte of each two.
const LOWER: u64 = 0x00FF_00FF_00FF_00FF;
const EACH_BYTE: u64 = 0x0101_0101_0101_0101;
const EACH_SHORT: u64 = 0x0001_0001_0001_0001;

/// Parts of the data, four to a number, each times its code, added up: the real and the imaginary
/// part. Both are sums of all bytes with signs. In the real part byte j has the sign of code bit j,
/// and the other one where j is odd; in the imaginary part the two bytes of a part change places.
#[inline(always)]
pub fn sums<const N: usize>(data: [u64; N], codes: u32) -> (i16, i16) {
    let (mut real, mut imaginary) = (Sum::default(), Sum::default());
    for (k, data) in data.into_iter().enumerate() {
        let signs = spread(codes >> (8 * k));
        real.add(data, signs ^ !LOWER);
        imaginary.add((data & LOWER) << 8 | data >> 8 & LOWER, signs);
    }
    (real.value::<N>(), imaginary.value::<N>())
}

/// Eight bits as bytes of 0 or 255.
#[inline(always)]
fn spread(bits: u32) -> u64 {
    let each = (u64::from(bits & 0xFF) * EACH_BYTE) & 0x8040_2010_0804_0201;
    // The top bit of each byte that has its bit.
    let tops = (each + 0x7F * EACH_BYTE) & (0x80 * EACH_BYTE);
    (tops << 1).wrapping_sub(tops >> 7)
}

/// A sum of signed bytes, some of them taken away. A byte plus 128 is unsigned; its complement is
/// 127 less the byte.
#[derive(Default)]
struct Sum {
    /// Four sums of unsigned bytes.
    shorts: u64,
    /// Eight counts of bytes taken away.
    taken_away: u64,
}

impl Sum {
    /// Adds eight bytes; those whose sign is 255 are taken away.
    #[inline(always)]
    fn add(&mut self, bytes: u64, signs: u64) {
        let terms = bytes ^ signs ^ (0x80 * EACH_BYTE);
        self.shorts += (terms & LOWER) + (terms >> 8 & LOWER);
        self.taken_away += signs & EACH_BYTE;
    }

    /// The sum of N times eight bytes.
    #[inline(always)]
    fn value<const N: usize>(&self) -> i16 {
        let sum = self.shorts.wrapping_mul(EACH_SHORT) >> 48;
        let taken_away = self.taken_away.wrapping_mul(EACH_BYTE) >> 56;
        (sum + taken_away) as i16 - (N * 8 * 128) as i16
    }
}

#[cfg(test)]
mod tests {
    use super::sums;
    use crate::emulator::clu;
    use crate::prng::Rng;

    fn packed((real, imaginary): (i16, i16)) -> u32 {
        u32::from(real as u16) | u32::from(imaginary as u16) << 16
    }

    #[test]
    fn sums_are_those_of_the_plain_emulator() {
        let mut rng = Rng::new(1, 1);
        for _ in 0..100_000 {
            let data = [0; 4].map(|_| rng.word() & rng.pick(&[u32::MAX, 0x8080_8080, 0x7F7F_7F7F]));
            let codes = rng.word() & rng.pick(&[u32::MAX, 0x5555, 0xAAAA]);
            let [a, b, c, d] = data.map(u64::from);
            let (low, high) = (a | b << 32, c | d << 32);
            let all = packed(sums([low, high], codes));
            assert_eq!(all, clu::despread(data, codes, 0, 8));
            let first = packed(sums([low], codes));
            assert_eq!(first, clu::despread(data, codes, 0, 4));
            let last = packed(sums([high], codes >> 8));
            assert_eq!(last, clu::despread(data, codes, 4, 8));
        }
    }
}
