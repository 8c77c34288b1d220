//! Quads of any alignment, read through the data alignment buffer (DAB) of a block.

use super::access::{words_at, IndexOperands};
use super::machine::State;
use super::slot::{DabLoad, Operand};
use std::ops::Range;

/// How many words a quad has, and so a buffer; an access steps to the next quad.
pub const QUAD: u32 = 4;

#[derive(Clone, Copy, Debug)]
pub struct DabOperands {
    index: IndexOperands,
    old: [u32; 4],
    new: [u32; 4],
}

impl DabLoad {
    /// The aligned quad that holds the index: the memory words that the access touches.
    pub fn words(&self, state: &State) -> Range<usize> {
        let start = state.ialu(self.side, self.index) as usize - self.position(state);
        start..start + QUAD as usize
    }

    /// The quad is aligned wherever the index stands, so code 8 is left to memory's end.
    pub fn is_possible(&self, state: &State, memory_words: usize) -> bool {
        self.words(state).end <= memory_words
    }

    /// Where the index stands in its quad; 0 is code 17.
    pub fn position(&self, state: &State) -> usize {
        position(state.ialu(self.side, self.index))
    }

    pub fn index_operands(&self, state: &State) -> IndexOperands {
        let modifier = Operand::Immediate(self.modifier);
        IndexOperands::circular(state, self.side, self.index, modifier)
    }

    /// All four words are fetched whatever the position is, since all are kept.
    pub fn fetch(&self, state: &State, memory: &[u32]) -> DabOperands {
        let mut new = [0; 4];
        words_at(memory, self.words(state).start, &mut new);
        DabOperands {
            index: self.index_operands(state),
            old: state.dab[usize::from(self.block)],
            new,
        }
    }

    /// Delivers four words of the old quad with the new one behind it, and keeps the new one.
    pub fn store(&self, operands: &DabOperands, state: &mut State) {
        let block = usize::from(self.block);
        let both = [operands.old, operands.new];
        let delivered = &both.as_flattened()[position(operands.index.index)..][..4];
        state.r[block][usize::from(self.target)..][..4].copy_from_slice(delivered);
        state.dab[block] = operands.new;
        state.set_ialu(self.side, self.index, operands.index.advanced());
    }
}

fn position(index: u32) -> usize {
    (index % QUAD) as usize
}
