//! Fetches of the IALUs that touch no memory, and circular steps.

use super::fetch::{Slot, FINE, REFUSED};
use super::held::{Beside, Held};
use super::state::{base, ialu, length, place, Machine, State, NOWHERE};
use crate::emulator::word::{self, IaluOp};

/// A register of the slot's IALU, or the immediate.
#[inline(always)]
pub fn operand(side: usize, second: u32, imm: u32, state: &State) -> u32 {
    let register = state.register(ialu(side), second);
    if second == 32 {
        imm
    } else {
        register
    }
}

/// A result sent to register 31 is dropped.
#[inline(always)]
fn result_place(side: usize, target: u32) -> u8 {
    if target == 31 {
        NOWHERE
    } else {
        place(ialu(side), target)
    }
}

pub fn arithmetic<const SIDE: usize, const OP: usize>(
    &[_, _, target, first, second, imm, _]: &Slot,
    machine: &Machine,
    held: &mut Held,
) -> u32 {
    let a = machine.state.register(ialu(SIDE), first);
    let b = operand(SIDE, second, imm, machine.state);
    let op = const { IaluOp::numbered(OP as u32).expect("an op of the IALU") };
    let (value, flags) = word::ialu(op, a, b);
    let flags = Beside::flags(7 + SIDE, flags);
    held.set_one(result_place(SIDE, target), value, flags);
    FINE
}

/// Op 13.
pub fn circular_add<const SIDE: usize>(
    &[_, _, target, first, second, imm, _]: &Slot,
    machine: &Machine,
    held: &mut Held,
) -> u32 {
    let modifier = operand(SIDE, second, imm, machine.state);
    let turn = Turn::of(SIDE, first, modifier, machine.state);
    let value = turn.next();
    let flags = Beside::flags(7 + SIDE, word::result_flags(value));
    held.set_one(result_place(SIDE, target), value, flags);
    if turn.is_allowed(1, machine.memory.len()) {
        FINE
    } else {
        REFUSED
    }
}

/// Ops 15 and 16.
pub fn set_buffer<const SIDE: usize, const OP: usize>(
    &[_, _, target, first, ..]: &Slot,
    machine: &Machine,
    held: &mut Held,
) -> u32 {
    let file = if OP == 15 { base(SIDE) } else { length(SIDE) };
    let word = machine.state.register(ialu(SIDE), first);
    held.set_one(place(file, target), word, Beside::NOTHING);
    FINE
}

/// A turn of an index in its circular buffer.
pub struct Turn {
    index: u32,
    modifier: u32,
    base: u32,
    length: u32,
}

impl Turn {
    #[inline(always)]
    pub fn of(side: usize, number: u32, modifier: u32, state: &State) -> Turn {
        Turn {
            index: state.register(ialu(side), number),
            modifier,
            base: state.few(base(side), number),
            length: state.few(length(side), number),
        }
    }

    /// The index after the turn. Where it is allowed, index and sum are less than two lengths from
    /// the base, so that a sum outside the buffer is told by one comparison that wraps.
    #[inline(always)]
    pub fn next(&self) -> u32 {
        let sum = self.index.wrapping_add(self.modifier);
        let is_outside = sum.wrapping_sub(self.base) >= self.length;
        let correction = if (self.modifier as i32) < 0 {
            self.length
        } else {
            self.length.wrapping_neg()
        };
        if is_outside {
            sum.wrapping_add(correction)
        } else {
            sum
        }
    }

    /// Code 9 when false. Once the buffer is known to lie in memory, base and length are small and
    /// the comparisons may wrap. The width is a power of 2.
    #[inline(always)]
    pub fn is_allowed(&self, width: u32, memory_words: usize) -> bool {
        let &Turn {
            index,
            modifier,
            base,
            length,
        } = self;
        length == 0
            || base as usize + length as usize <= memory_words
                && index.wrapping_sub(base) < length
                && modifier.wrapping_add(length) <= 2 * length
                && (base | length) & (width - 1) == 0
    }
}
