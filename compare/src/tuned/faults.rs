//! What a line is refused for in the machine before it: codes 9, 17, 8 and 10.

use super::access::Reach;
use super::condition::is_live;
use super::fetch::Slot;
use super::ialu::{operand, Turn};
use super::places::{is_access, is_dab_load, is_load};
use super::state::Machine;
use crate::emulator::Code;
use std::ops::Range;

/// The code and the slot, each code looked for in the whole line before the next; nothing when the
/// line can run.
#[cold]
pub fn refusal(machine: &Machine) -> Option<(Code, usize)> {
    if let Some(slot) = first_live(machine, |slot| !keeps_buffer(slot, machine)) {
        return Some((Code::Buffer, slot));
    }
    if let Some(slot) = first_live(machine, |slot| is_at_quad_start(slot, machine)) {
        return Some((Code::QuadStart, slot));
    }
    if let Some(slot) = first_live(machine, |slot| !keeps_memory(slot, machine)) {
        return Some((Code::Access, slot));
    }
    stored_twice(machine).map(|slot| (Code::StoreClash, slot))
}

/// The first slot that breaks a test, among those whose condition holds.
fn first_live(machine: &Machine, mut breaks: impl FnMut(&Slot) -> bool) -> Option<usize> {
    let mut slots = machine.line.iter();
    slots.position(|slot| is_live(slot, machine.state) && breaks(slot))
}

pub fn keeps_buffer(slot: &Slot, machine: &Machine) -> bool {
    let &[unit, op, _, first, second, imm, _] = slot;
    match (unit, op) {
        (7 | 8, 13) => {
            let modifier = operand(side(slot), second, imm, machine.state);
            let turn = Turn::of(side(slot), first, modifier, machine.state);
            turn.is_allowed(1, machine.memory.len())
        }
        (7 | 8, 17..) => reach(slot, machine).keeps_buffer,
        _ => true,
    }
}

fn is_at_quad_start(slot: &Slot, machine: &Machine) -> bool {
    is_dab_load(slot) && reach(slot, machine).at_quad_start
}

fn keeps_memory(slot: &Slot, machine: &Machine) -> bool {
    !is_access(slot) || reach(slot, machine).keeps_memory(machine.memory.len())
}

/// The slot that stores a word which the other IALU's slot, before it, stores.
fn stored_twice(machine: &Machine) -> Option<usize> {
    let mut earlier = 0..0;
    first_live(machine, |slot| {
        let Some(words) = stored_words(slot, machine) else {
            return false;
        };
        let shared = earlier.start < words.end && words.start < earlier.end;
        earlier = words;
        shared
    })
}

fn stored_words(slot: &Slot, machine: &Machine) -> Option<Range<usize>> {
    if !is_access(slot) || is_load(slot) {
        return None;
    }
    let reach = reach(slot, machine);
    Some(reach.address as usize..reach.end())
}

/// The side of a slot's unit: 0 for J, 1 for K.
#[inline(always)]
pub fn side(slot: &Slot) -> usize {
    (slot[0] as usize + 1) % 2
}

/// Where an access reaches.
pub fn reach(slot: &Slot, machine: &Machine) -> Reach {
    let memory_words = machine.memory.len();
    Reach::of(slot, side(slot), slot[1], machine.state, memory_words)
}
