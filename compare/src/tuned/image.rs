//! The image: its directory and its lines, checked in one walk.

use super::rules::{broken_rule, passes};
use crate::emulator::image::IMAGE_WORDS;
use crate::emulator::{Code, Refusal};

/// A word of an image: a number, or its four bytes with the low one first.
pub trait Word: Copy {
    fn number(self) -> u32;
}

impl Word for u32 {
    #[inline(always)]
    fn number(self) -> u32 {
        self
    }
}

impl Word for [u8; 4] {
    #[inline(always)]
    fn number(self) -> u32 {
        u32::from_le_bytes(self)
    }
}

/// The lengths that a line can have, as bits.
const LENGTHS: u32 = 1 << 7 | 1 << 14 | 1 << 21 | 1 << 28;

const DIRECTORY: Refusal = Refusal {
    code: Code::Directory,
    line: 0,
    slot: 0,
};

/// Codes 1 and 2, and the rules line by line.
pub fn check_image<W: Word>(words: &[W]) -> Result<(), Refusal> {
    if words.len() > IMAGE_WORDS {
        return Err(Refusal::of_call(Code::TooLong));
    }
    let pairs = pairs(words).ok_or(DIRECTORY)?;
    let mut end = 1 + 2 * pairs.len();
    let mut rest = pairs;
    while let Some((pair, others)) = rest.split_first() {
        let line = region(words, end, pair).ok_or(DIRECTORY)?;
        end = pair[0].number() as usize + line.len();
        if !passes(line) {
            let number = pairs.len() - others.len() - 1;
            return Err(refusal(words, others, end, number, line));
        }
        rest = others;
    }
    Ok(())
}

/// The directory's pairs; nothing when they pass the image's end.
pub fn pairs<W: Word>(words: &[W]) -> Option<&[[W; 2]]> {
    let (count, rest) = words.split_first()?;
    rest.as_chunks().0.get(..count.number() as usize)
}

/// The words that a pair names; nothing when they start before the end of what came before, pass
/// the image's end, or are no line's length.
#[inline(always)]
fn region<'a, W: Word>(words: &'a [W], end: usize, pair: &[W; 2]) -> Option<&'a [W]> {
    let [offset, length] = pair.map(|word| word.number() as usize);
    if offset < end || length >= 32 || LENGTHS >> length & 1 == 0 {
        return None;
    }
    words.get(offset..offset + length)
}

/// Why an image is refused at a line: the rest of the directory is judged before it.
#[cold]
fn refusal<W: Word>(
    words: &[W],
    rest: &[[W; 2]],
    mut end: usize,
    number: usize,
    line: &[W],
) -> Refusal {
    for pair in rest {
        let Some(line) = region(words, end, pair) else {
            return DIRECTORY;
        };
        end = pair[0].number() as usize + line.len();
    }
    let (code, slot) = broken_rule(line);
    Refusal::in_line(code, number, slot)
}
