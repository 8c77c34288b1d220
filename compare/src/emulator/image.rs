//! The image: its directory (codes 1 and 2) and its lines (3 and 15).

use super::condition::When;
use super::slot::{Action, Alu, Slot};
use super::word::AluOp;
use super::Code;

pub const IMAGE_WORDS: usize = 16_384;
pub const LINE_SLOTS: usize = 4;

/// An image whose directory holds.
#[derive(Clone, Copy)]
pub struct Image<'a> {
    words: &'a [u32],
    count: usize,
}

impl<'a> Image<'a> {
    pub fn read(words: &'a [u32]) -> Result<Image<'a>, Code> {
        if words.len() > IMAGE_WORDS {
            return Err(Code::TooLong);
        }
        Image::with_directory(words).ok_or(Code::Directory)
    }

    /// One number is carried along, the end of what came before: first of the directory, then of
    /// each region. Offsets are 32-bit words, so no sum here can overflow a usize of 64 bits.
    fn with_directory(words: &'a [u32]) -> Option<Image<'a>> {
        let count = *words.first()? as usize;
        let directory_end = 1 + 2 * count;
        let mut end = directory_end;
        for pair in words.get(1..directory_end)?.chunks_exact(2) {
            let (offset, length) = (pair[0] as usize, pair[1] as usize);
            if offset < end || !matches!(length, 7 | 14 | 21 | 28) {
                return None;
            }
            end = offset + length;
            if end > words.len() {
                return None;
            }
        }
        Some(Image { words, count })
    }

    pub fn line_count(&self) -> usize {
        self.count
    }

    /// Each line as its part of the image.
    pub fn lines(&self) -> impl Iterator<Item = &'a [u32]> {
        let words = self.words;
        words[1..1 + 2 * self.count]
            .chunks_exact(2)
            .map(|pair| &words[pair[0] as usize..][..pair[1] as usize])
    }
}

/// The slots of one line.
#[derive(Clone, Copy)]
pub struct Line {
    slots: [Slot; LINE_SLOTS],
    count: usize,
}

/// Stands in the places behind a line's last slot, where nothing looks.
const FILLER: Slot = Slot {
    unit: 1,
    when: When::Always,
    action: Action::Alu(Alu {
        side: 0,
        op: AluOp::Pass,
        target: 0,
        first: 0,
        second: None,
    }),
};

impl Line {
    /// The line's slots; or the code of a rule and the first slot that breaks it. Rule 15 comes
    /// into question only where the whole line keeps rule 3.
    pub fn read(words: &[u32]) -> Result<Line, (Code, usize)> {
        let mut slots = [FILLER; LINE_SLOTS];
        let mut count = 0;
        let mut bad_condition = None;
        for words in words.as_chunks().0 {
            let Some(slot) = Slot::read(words) else {
                return Err((Code::Field, count));
            };
            slots[count] = slot;
            match When::read(words[6]) {
                Some(when) => slots[count].when = when,
                None => bad_condition = bad_condition.or(Some(count)),
            }
            count += 1;
        }
        match bad_condition {
            Some(slot) => Err((Code::SlotCondition, slot)),
            None => Ok(Line { slots, count }),
        }
    }

    pub fn slots(&self) -> &[Slot] {
        &self.slots[..self.count]
    }
}
