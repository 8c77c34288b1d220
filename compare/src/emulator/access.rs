//! Circular adds and memory accesses: addresses, the two steps, and the tests that codes 9, 17, 8
//! and 10 rest on.

use super::address::Buffer;
use super::dab::QUAD;
use super::machine::State;
use super::slot::{Access, Action, Addressing, CircularAdd, Direction, Operand};
use super::step::ialu_flags;
use super::word;
use std::ops::Range;

/// What the next index is made from.
#[derive(Clone, Copy, Debug)]
pub struct IndexOperands {
    pub index: u32,
    modifier: u32,
    buffer: Buffer,
}

#[derive(Clone, Copy, Debug)]
pub struct AccessOperands {
    index: IndexOperands,
    address: u32,
    words: [u32; 4],
}

impl IndexOperands {
    pub fn circular(state: &State, side: u8, index: u8, modifier: Operand) -> IndexOperands {
        IndexOperands {
            index: state.ialu(side, index),
            modifier: state.operand(side, modifier),
            buffer: state.buffer(side, index),
        }
    }

    fn linear(state: &State, side: u8, index: u8, modifier: Operand) -> IndexOperands {
        IndexOperands {
            index: state.ialu(side, index),
            modifier: state.operand(side, modifier),
            buffer: Buffer::OFF,
        }
    }

    pub fn advanced(&self) -> u32 {
        self.buffer.advance(self.index, self.modifier)
    }
}

/// Takes words of memory from an address on. A word past memory is fetched as 0; no line that
/// passes its tests has one.
pub fn words_at(memory: &[u32], address: usize, taken: &mut [u32]) {
    for (k, word) in taken.iter_mut().enumerate() {
        *word = memory.get(address + k).copied().unwrap_or(0);
    }
}

impl CircularAdd {
    pub fn fetch(&self, state: &State) -> IndexOperands {
        IndexOperands::circular(state, self.side, self.index, self.modifier)
    }

    pub fn store(&self, operands: &IndexOperands, state: &mut State) {
        let value = operands.advanced();
        state.set_ialu(self.side, self.target, value);
        state.flags[ialu_flags(self.side)] = word::result_flags(value);
    }
}

impl Access {
    pub fn address(&self, state: &State) -> u32 {
        let index = state.ialu(self.side, self.index);
        match self.addressing {
            Addressing::PreModify => index.wrapping_add(state.operand(self.side, self.modifier)),
            Addressing::PostModify | Addressing::Circular | Addressing::BitReversed => index,
        }
    }

    /// The memory words that the access touches.
    pub fn words(&self, state: &State) -> Range<usize> {
        let address = self.address(state) as usize;
        address..address + usize::from(self.width)
    }

    /// The registers at its other end.
    fn registers(&self) -> Range<usize> {
        let number = usize::from(self.number);
        number..number + usize::from(self.width)
    }

    pub fn updates_index(&self) -> bool {
        self.addressing != Addressing::PreModify
    }

    /// Whether the access is aligned to its width and inside memory: code 8 when not.
    fn is_possible(&self, state: &State, memory_words: usize) -> bool {
        let words = self.words(state);
        words.start.is_multiple_of(usize::from(self.width)) && words.end <= memory_words
    }

    fn index_operands(&self, state: &State) -> IndexOperands {
        if self.addressing == Addressing::Circular {
            IndexOperands::circular(state, self.side, self.index, self.modifier)
        } else {
            IndexOperands::linear(state, self.side, self.index, self.modifier)
        }
    }

    fn updated_index(&self, operands: &IndexOperands) -> u32 {
        if self.addressing == Addressing::BitReversed {
            super::address::bit_reversed(operands.index, operands.modifier)
        } else {
            operands.advanced()
        }
    }

    pub fn fetch(&self, state: &State, memory: &[u32]) -> AccessOperands {
        let address = self.address(state);
        let mut words = [0; 4];
        let taken = &mut words[..usize::from(self.width)];
        match self.direction {
            Direction::Load => words_at(memory, address as usize, taken),
            Direction::Store => taken.copy_from_slice(&state.file(self.file)[self.registers()]),
        }
        AccessOperands {
            index: self.index_operands(state),
            address,
            words,
        }
    }

    pub fn store(&self, operands: &AccessOperands, state: &mut State, memory: &mut [u32]) {
        let words = &operands.words[..usize::from(self.width)];
        match self.direction {
            Direction::Load => {
                state.file_mut(self.file)[self.registers()].copy_from_slice(words);
            }
            Direction::Store => {
                for (k, word) in words.iter().enumerate() {
                    if let Some(place) = memory.get_mut(operands.address as usize + k) {
                        *place = *word;
                    }
                }
            }
        }
        if self.updates_index() {
            state.set_ialu(self.side, self.index, self.updated_index(&operands.index));
        }
    }
}

impl Action {
    /// Code 9 when false: a circular op outside what its buffer allows.
    pub fn keeps_buffer(&self, state: &State, memory_words: usize) -> bool {
        let (operands, width) = match self {
            Action::CircularAdd(add) => (add.fetch(state), 1),
            Action::Access(access) if access.addressing == Addressing::Circular => {
                (access.index_operands(state), u32::from(access.width))
            }
            Action::DabLoad(load) => (load.index_operands(state), QUAD),
            _ => return true,
        };
        let IndexOperands {
            index,
            modifier,
            buffer,
        } = operands;
        buffer.allows(index, modifier, width, memory_words)
    }

    /// Code 17 when true: an access through an alignment buffer that has nothing to align.
    pub fn is_at_quad_start(&self, state: &State) -> bool {
        match self {
            Action::DabLoad(load) => load.position(state) == 0,
            _ => false,
        }
    }

    /// Code 8 when false: an access that memory cannot serve.
    pub fn keeps_memory(&self, state: &State, memory_words: usize) -> bool {
        match self {
            Action::Access(access) => access.is_possible(state, memory_words),
            Action::DabLoad(load) => load.is_possible(state, memory_words),
            _ => true,
        }
    }

    /// The memory words that it stores.
    pub fn stored_words(&self, state: &State) -> Option<Range<usize>> {
        match self {
            Action::Access(access) if access.direction == Direction::Store => {
                Some(access.words(state))
            }
            _ => None,
        }
    }
}
