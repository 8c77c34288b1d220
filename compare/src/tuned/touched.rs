//! The tests of a line before its ordered run, and what its slots touch.

use super::condition::{condition_part, is_live};
use super::faults::{keeps_buffer, reach, refusal, side};
use super::fetch::{Slot, FINE, REFUSED, STORES};
use super::places::{file_part, is_load, loads_codes, own_parts, MEMORY};
use super::state::Machine;
use crate::emulator::image::LINE_SLOTS;
use crate::emulator::Code;

/// What a line's slots touch, by the machine before it.
#[derive(Default)]
pub struct Touched {
    /// A byte a step: the parts of the machine that a fetch may read or a store may change.
    parts: u64,
    /// The memory words of each IALU's access, as a start and an end.
    words: [(u32, u32); 2],
}

/// Where each slot's two bytes begin.
const SHIFTS: [u32; LINE_SLOTS] = [0, 16, 32, 48];

/// Tests a line in the machine before it.
#[inline(always)]
pub fn touched(machine: &Machine) -> Result<Touched, (Code, usize)> {
    let mut touched = Touched::default();
    let mut outcome = 0;
    let mut has_conditions = false;
    for (slot, shift) in machine.line.iter().zip(SHIFTS) {
        let &[unit, op, .., condition] = slot;
        if condition != 0 {
            has_conditions = true;
            touched.parts |= u64::from(condition_part(slot)) << shift;
            if !is_live(slot, machine.state) {
                continue;
            }
        }
        touched.parts |= u64::from(own_parts(unit)) << shift;
        if matches!(unit, 7 | 8) && op >= 13 {
            outcome += touched.add(slot, shift, machine);
        }
    }
    if outcome > STORES {
        if let Some(refusal) = refusal(machine) {
            return Err(refusal);
        }
    }
    if has_conditions {
        touched.add_conditions_of_loads(machine);
    }
    Ok(touched)
}

impl Touched {
    /// A live DESPREAD also reads the flags that tell whether a load of its THR pair is live.
    #[inline(never)]
    fn add_conditions_of_loads(&mut self, machine: &Machine) {
        for (slot, shift) in machine.line.iter().zip(SHIFTS) {
            let &[unit, op, _, _, pair, ..] = slot;
            if !matches!((unit, op), (5 | 6, 11..)) || !is_live(slot, machine.state) {
                continue;
            }
            let side = unit as usize - 5;
            let mut slots = machine.line.iter();
            if let Some(load) = slots.find(|load| loads_codes(load, side, pair)) {
                self.parts |= u64::from(condition_part(load)) << shift;
            }
        }
    }

    /// Adds a live slot of an IALU from op 13 on; the answer is as that of a fetch.
    #[inline(always)]
    fn add(&mut self, slot: &Slot, shift: u32, machine: &Machine) -> u32 {
        if slot[1] < 17 {
            return if keeps_buffer(slot, machine) {
                FINE
            } else {
                REFUSED
            };
        }
        let file = file_part(slot);
        let (read, stored, outcome) = if is_load(slot) {
            (MEMORY, file, FINE)
        } else {
            (file, MEMORY, STORES)
        };
        self.parts |= (u64::from(read) | u64::from(stored) << 8) << shift;
        let reach = reach(slot, machine);
        self.words[side(slot)] = (reach.address, reach.end() as u32);
        if reach.is_allowed(machine.memory.len()) {
            outcome
        } else {
            REFUSED
        }
    }

    #[inline(always)]
    pub fn parts_of(&self, step: u32) -> u8 {
        (self.parts >> (8 * step % 64)) as u8
    }

    /// Whether two accesses share a memory word.
    pub fn share_words(&self, a: &Slot, b: &Slot) -> bool {
        let (a_start, a_end) = self.words[side(a)];
        let (b_start, b_end) = self.words[side(b)];
        a_start < b_end && b_start < a_end
    }
}
