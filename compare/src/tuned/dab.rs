//! Fetches of the accesses through a data alignment buffer.

use super::access::Reach;
use super::fetch::{Slot, FINE, REFUSED};
use super::held::Held;
use super::state::{dab, ialu, place, r, Machine};

/// Ops 24 and 25.
pub fn dab_load<const SIDE: usize, const OP: usize>(
    slot: &Slot,
    machine: &Machine,
    held: &mut Held,
) -> u32 {
    let reach = Reach::of(slot, SIDE, OP as u32, machine.state, machine.memory.len());
    let words = machine.memory.get(reach.address as usize..reach.end());
    let Some(&[a, b, c, d]) = words else {
        return REFUSED;
    };
    let new = [a, b, c, d];
    let block = OP - 24;
    let index = machine.state.register(ialu(SIDE), slot[3]);
    let delivered = delivered(index, machine.state.quad(dab(block)), new);
    held.set_delivered(
        (place(r(block), slot[2]), delivered),
        (dab(block), new),
        reach.index(SIDE, OP, slot[3]),
    );
    if reach.keeps_buffer && !reach.at_quad_start {
        FINE
    } else {
        REFUSED
    }
}

/// Four words of two quads, from the index's position in its quad on.
#[inline(always)]
fn delivered(index: u32, old: [u32; 4], new: [u32; 4]) -> [u32; 4] {
    let quads = [old, new];
    let first = index as usize % 4;
    std::array::from_fn(|k| quads.as_flattened()[first + k])
}
