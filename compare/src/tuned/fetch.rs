//! The fetch of each op, found by a slot's unit and op.

use super::access::{load, store};
use super::block::{alu, from_tr, shift, test_bit, to_thr, to_tr};
use super::clu::{despread, despread_pair, select, tmax};
use super::condition::is_live;
use super::dab::dab_load;
use super::held::Held;
use super::ialu::{arithmetic, circular_add, set_buffer};
use super::state::Machine;
use crate::emulator::slot::SLOT_WORDS;

/// Unit, op, target, first, second, imm, condition. They have been checked.
pub type Slot = [u32; SLOT_WORDS];

/// Fetches a live slot in the machine as it is, and leaves the slot's results. The answer tells
/// what the line's tests must know of it.
pub type Fetch = fn(&Slot, &Machine, &mut Held) -> u32;

pub const FINE: u32 = 0;
/// The slot stores memory words. Where two slots do, they may clash.
pub const STORES: u32 = 1;
/// Code 9, 17 or 8.
pub const REFUSED: u32 = 8;

const UNITS: usize = 16;
const OPS: usize = 32;

static FETCHES: [Fetch; UNITS * OPS] = fetches();

/// The fetch of any slot; one whose condition fails leaves nothing to store.
#[inline(always)]
pub fn fetch(slot: &Slot, machine: &Machine, held: &mut Held) -> u32 {
    if !is_live(slot, machine.state) {
        held.set_nothing();
        return FINE;
    }
    let [unit, op, ..] = *slot;
    FETCHES[(unit << 5 | op) as usize % FETCHES.len()](slot, machine, held)
}

/// Stands where no op is.
fn nothing(_: &Slot, _: &Machine, _: &mut Held) -> u32 {
    FINE
}

const fn fetches() -> [Fetch; UNITS * OPS] {
    let mut fetches: [Fetch; UNITS * OPS] = [nothing; UNITS * OPS];
    put_side::<0>(&mut fetches);
    put_side::<1>(&mut fetches);
    fetches
}

/// Puts a function, made for each op by itself, in the places of these ops of a unit.
macro_rules! put {
    ($fetches:ident, $unit:expr, $function:ident: $($op:literal)+) => {
        $($fetches[($unit) * OPS + $op] = $function::<SIDE, $op>;)+
    };
}

const fn put_side<const SIDE: usize>(fetches: &mut [Fetch; UNITS * OPS]) {
    put!(fetches, 1 + SIDE, alu: 1 2 3 4 5 6 7 8 9 10 11 12);
    put!(fetches, 3 + SIDE, shift: 1 2 3 4 5 6 8 9);
    fetches[(3 + SIDE) * OPS + 7] = test_bit::<SIDE>;
    put!(fetches, 5 + SIDE, select: 1 2 3 4 5 6 7 8);
    put!(fetches, 5 + SIDE, tmax: 9 10);
    put!(fetches, 5 + SIDE, despread: 11 12);
    fetches[(5 + SIDE) * OPS + 13] = despread_pair::<SIDE>;
    put!(fetches, 7 + SIDE, arithmetic: 1 2 3 4 5 6 7 8 9 10 11 12 14);
    fetches[(7 + SIDE) * OPS + 13] = circular_add::<SIDE>;
    put!(fetches, 7 + SIDE, set_buffer: 15 16);
    put!(fetches, 7 + SIDE, load: 17 18 21 23);
    put!(fetches, 7 + SIDE, store: 19 20 22);
    put!(fetches, 7 + SIDE, dab_load: 24 25);
    fetches[(9 + SIDE) * OPS + 1] = to_tr::<SIDE>;
    fetches[(9 + SIDE) * OPS + 2] = to_thr::<SIDE>;
    fetches[(9 + SIDE) * OPS + 3] = from_tr::<SIDE>;
}
