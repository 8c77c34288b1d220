//! Fetches of the memory accesses.

use super::fetch::{Slot, FINE, REFUSED, STORES};
use super::held::{Beside, Held};
use super::ialu::{operand, Turn};
use super::state::{ialu, place, Machine, State, NOWHERE};
use crate::emulator::address::bit_reversed;

/// Where an access reaches, and the index after it.
pub struct Reach {
    pub address: u32,
    width: u32,
    next: u32,
    /// Code 9 when false.
    pub keeps_buffer: bool,
    /// Code 17 when true.
    pub at_quad_start: bool,
}

impl Reach {
    #[inline(always)]
    pub fn of(slot: &Slot, side: usize, op: u32, state: &State, memory_words: usize) -> Reach {
        let &[_, _, target, first, second, imm, _] = slot;
        let index = state.register(ialu(side), first);
        let modifier = operand(side, second, imm, state);
        let sum = index.wrapping_add(modifier);
        let mut reach = Reach {
            address: index,
            width: target >> 16,
            next: sum,
            keeps_buffer: true,
            at_quad_start: false,
        };
        match op {
            18 | 20 => reach.address = sum,
            21 | 22 => reach.turn(Turn::of(side, first, modifier, state), memory_words),
            23 => reach.next = bit_reversed(index, modifier),
            24 | 25 => {
                reach.width = 4;
                reach.address = index & !3;
                reach.at_quad_start = index == reach.address;
                reach.turn(Turn::of(side, first, modifier, state), memory_words);
            }
            _ => {}
        }
        reach
    }

    /// The index goes round its buffer.
    #[inline(always)]
    fn turn(&mut self, turn: Turn, memory_words: usize) {
        self.next = turn.next();
        self.keeps_buffer = turn.is_allowed(self.width, memory_words);
    }

    #[inline(always)]
    pub fn end(&self) -> usize {
        self.address as usize + self.width as usize
    }

    #[inline(always)]
    fn is_aligned(&self) -> bool {
        self.address & (self.width - 1) == 0
    }

    /// Code 8 when false.
    #[inline(always)]
    pub fn keeps_memory(&self, memory_words: usize) -> bool {
        self.is_aligned() && self.end() <= memory_words
    }

    /// None of codes 9, 17 and 8.
    #[inline(always)]
    pub fn is_allowed(&self, memory_words: usize) -> bool {
        self.keeps_buffer && !self.at_quad_start && self.keeps_memory(memory_words)
    }

    /// The index after the access; ops 18 and 20 leave it as it is.
    #[inline(always)]
    pub fn index(&self, side: usize, op: usize, number: u32) -> Beside {
        Beside {
            place: match op {
                18 | 20 => NOWHERE,
                _ => place(ialu(side), number),
            },
            word: self.next,
        }
    }
}

/// The first place of an encoded range: XR, YR, J and K begin at 0, 32, 128 and 160.
#[inline(always)]
fn range_place(target: u32) -> u8 {
    (target & 31 | target >> 3 & 32 | target >> 2 & 128) as u8
}

pub fn load<const SIDE: usize, const OP: usize>(
    slot: &Slot,
    machine: &Machine,
    held: &mut Held,
) -> u32 {
    let reach = Reach::of(slot, SIDE, OP as u32, machine.state, machine.memory.len());
    let index = reach.index(SIDE, OP, slot[3]);
    let place = range_place(slot[2]);
    match machine.memory.get(reach.address as usize..reach.end()) {
        Some(&[word]) => held.set_one(place, word, index),
        Some(&[a, b]) => held.set_pair(place, [a, b], index),
        Some(&[a, b, c, d]) => held.set_quad(place, [a, b, c, d], index),
        _ => return REFUSED,
    }
    if reach.is_aligned() && reach.keeps_buffer {
        FINE
    } else {
        REFUSED
    }
}

pub fn store<const SIDE: usize, const OP: usize>(
    slot: &Slot,
    machine: &Machine,
    held: &mut Held,
) -> u32 {
    let (state, memory_words) = (&*machine.state, machine.memory.len());
    let reach = Reach::of(slot, SIDE, OP as u32, state, memory_words);
    let index = reach.index(SIDE, OP, slot[3]);
    let place = range_place(slot[2]);
    match reach.width {
        1 => held.set_memory(reach.address, [state.at(place)], index),
        2 => held.set_memory(reach.address, state.pair(place), index),
        _ => held.set_memory(reach.address, state.quad(place), index),
    }
    if reach.is_allowed(memory_words) {
        STORES
    } else {
        REFUSED
    }
}
