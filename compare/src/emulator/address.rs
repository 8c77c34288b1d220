//! Address arithmetic of the IALUs: circular buffers and bit-reversed sums.

/// A circular buffer: `length` words from `base`; length 0 switches circular addressing off.
#[derive(Clone, Copy, PartialEq, Eq, Debug)]
pub struct Buffer {
    pub base: u32,
    pub length: u32,
}

impl Buffer {
    pub const OFF: Buffer = Buffer { base: 0, length: 0 };

    /// The address behind the buffer, exact: it can have 33 bits.
    pub fn end(self) -> u64 {
        u64::from(self.base) + u64::from(self.length)
    }

    /// Index plus modifier, led back into the buffer. The comparisons are exact: a sum below 0 is
    /// below the base, not a high word.
    pub fn advance(self, index: u32, modifier: u32) -> u32 {
        if self.length == 0 {
            return index.wrapping_add(modifier);
        }
        let sum = i64::from(index) + i64::from(modifier as i32);
        let (base, length) = (i64::from(self.base), i64::from(self.length));
        if sum >= base + length {
            (sum - length) as u32
        } else if sum < base {
            (sum + length) as u32
        } else {
            sum as u32
        }
    }

    /// Whether a circular op may run: code 9 when not.
    pub fn allows(self, index: u32, modifier: u32, width: u32, memory_words: usize) -> bool {
        let Buffer { base, length } = self;
        if length == 0 {
            return true;
        }
        index >= base
            && u64::from(index) < self.end()
            && (modifier as i32).unsigned_abs() <= length
            && self.end() <= memory_words as u64
            && base.is_multiple_of(width)
            && length.is_multiple_of(width)
    }
}

/// The sum whose carries run from the high bits to the low.
pub fn bit_reversed(a: u32, b: u32) -> u32 {
    a.reverse_bits()
        .wrapping_add(b.reverse_bits())
        .reverse_bits()
}
