//! Fetches of the ALU, the shifter and the CLU transfers.

use super::fetch::{Slot, FINE};
use super::held::{Beside, Held};
use super::state::{flags, place, r, thr, tr, Machine};
use crate::emulator::word::{self, AluOp, ShiftOp};

/// R first and R second.
#[inline(always)]
fn operands<const SIDE: usize>(slot: &Slot, machine: &Machine) -> (u32, u32) {
    let &[_, _, _, first, second, ..] = slot;
    let file = r(SIDE);
    (
        machine.state.register(file, first),
        machine.state.register(file, second),
    )
}

/// A result into R target, and the flag group of a unit.
#[inline(always)]
fn hold<const SIDE: usize>(slot: &Slot, unit: usize, result: (u32, u32), held: &mut Held) -> u32 {
    let (value, flags) = result;
    let flags = Beside::flags(unit + SIDE, flags);
    held.set_one(place(r(SIDE), slot[2]), value, flags);
    FINE
}

pub fn alu<const SIDE: usize, const OP: usize>(
    slot: &Slot,
    machine: &Machine,
    held: &mut Held,
) -> u32 {
    let op = const { AluOp::numbered(OP as u32).expect("an op of the ALU") };
    let (a, b) = operands::<SIDE>(slot, machine);
    hold::<SIDE>(slot, 1, word::alu(op, a, b), held)
}

pub fn shift<const SIDE: usize, const OP: usize>(
    slot: &Slot,
    machine: &Machine,
    held: &mut Held,
) -> u32 {
    let op = const { ShiftOp::numbered(OP as u32).expect("an op of the shifter") };
    let (a, b) = operands::<SIDE>(slot, machine);
    hold::<SIDE>(slot, 3, word::shift(op, a, b), held)
}

pub fn test_bit<const SIDE: usize>(slot: &Slot, machine: &Machine, held: &mut Held) -> u32 {
    let (a, b) = operands::<SIDE>(slot, machine);
    held.set_one(flags(3 + SIDE), word::test_bit(a, b), Beside::NOTHING);
    FINE
}

pub fn to_tr<const SIDE: usize>(
    &[_, _, target, first, ..]: &Slot,
    machine: &Machine,
    held: &mut Held,
) -> u32 {
    let word = machine.state.register(r(SIDE), first);
    held.set_one(place(tr(SIDE), target), word, Beside::NOTHING);
    FINE
}

pub fn to_thr<const SIDE: usize>(
    &[_, _, target, first, ..]: &Slot,
    machine: &Machine,
    held: &mut Held,
) -> u32 {
    let words = machine.state.pair(place(r(SIDE), first));
    held.set_pair(place(thr(SIDE), target), words, Beside::NOTHING);
    FINE
}

pub fn from_tr<const SIDE: usize>(
    &[_, _, target, first, ..]: &Slot,
    machine: &Machine,
    held: &mut Held,
) -> u32 {
    let word = machine.state.register(tr(SIDE), first);
    held.set_one(place(r(SIDE), target), word, Beside::NOTHING);
    FINE
}
