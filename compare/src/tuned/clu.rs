//! Fetches of the CLU.

use super::condition::is_live;
use super::despread::sums;
use super::fetch::{Slot, FINE};
use super::held::{Beside, Held};
use super::lanes::{high, low, packed, Lane};
use super::places::loads_codes;
use super::state::{flags, place, r, thr, tr, Machine, State, NOWHERE};
use crate::emulator::clu::{self, shift_codes};

/// TROV, and TRSOV, which stays set.
#[inline(always)]
fn overflow_flags(side: usize, state: &State, saturated: bool) -> Beside {
    let old = state.at(flags(5 + side));
    Beside::flags(5 + side, clu::flags(old, saturated))
}

/// Ops 1 to 8. The quad's high half goes with first, its low half with second.
pub fn select<const SIDE: usize, const OP: usize>(
    &[_, _, target, first, second, imm, _]: &Slot,
    machine: &Machine,
    held: &mut Held,
) -> u32 {
    let state = &*machine.state;
    let [a0, a1] = state.pair(place(tr(SIDE), first));
    let [b0, b1] = state.pair(place(tr(SIDE), second));
    let [y0, y1, x0, x1] = state.quad(place(r(SIDE), imm));
    let mut saturated = false;
    let words = [
        select_word::<OP>([a0, x0, b0, y0], &mut saturated),
        select_word::<OP>([a1, x1, b1, y1], &mut saturated),
    ];
    let flags = overflow_flags(SIDE, state, saturated);
    held.set_pair(place(tr(SIDE), target), words, flags);
    FINE
}

/// Words are taken whole by ops 1 to 4, as two shorts by the others.
#[inline(always)]
fn select_word<const OP: usize>([a, x, b, y]: [u32; 4], saturated: &mut bool) -> u32 {
    if OP <= 4 {
        let terms = [a as i32, x as i32, b as i32, y as i32];
        return select_lane::<OP, i32>(terms, saturated) as u32;
    }
    let lows = [low(a), low(x), low(b), low(y)];
    let highs = [high(a), high(x), high(b), high(y)];
    packed(
        select_lane::<OP, i16>(lows, saturated),
        select_lane::<OP, i16>(highs, saturated),
    )
}

/// TMAX or MAX of a + x and b + y, or for even ops of the differences.
#[inline(always)]
fn select_lane<const OP: usize, L: Lane>([a, x, b, y]: [L; 4], saturated: &mut bool) -> L {
    let (a, b) = if OP % 2 == 1 {
        (a.sum(x, saturated), b.sum(y, saturated))
    } else {
        (a.difference(x, saturated), b.difference(y, saturated))
    };
    if matches!(OP, 1 | 2 | 5 | 6) {
        a.tmax(b, saturated)
    } else {
        a.max(b)
    }
}

/// Ops 9 and 10.
pub fn tmax<const SIDE: usize, const OP: usize>(
    &[_, _, target, first, second, ..]: &Slot,
    machine: &Machine,
    held: &mut Held,
) -> u32 {
    let state = &*machine.state;
    let a = state.register(tr(SIDE), first);
    let b = state.register(tr(SIDE), second);
    let mut saturated = false;
    let value = if OP == 9 {
        (a as i32).tmax(b as i32, &mut saturated) as u32
    } else {
        packed(
            low(a).tmax(low(b), &mut saturated),
            high(a).tmax(high(b), &mut saturated),
        )
    };
    let flags = overflow_flags(SIDE, state, saturated);
    held.set_one(place(r(SIDE), target), value, flags);
    FINE
}

/// Ops 11 and 12. The former adds to the old sum, the latter hands it on.
pub fn despread<const SIDE: usize, const OP: usize>(
    slot: &Slot,
    machine: &Machine,
    held: &mut Held,
) -> u32 {
    let &[_, _, target, first, second, imm, _] = slot;
    let state = &*machine.state;
    let at = place(tr(SIDE), target);
    let old = state.at(at);
    let codes = state.pair(place(thr(SIDE), second));
    let (mut real, mut imaginary) = sums(data::<SIDE>(first, state), codes[0]);
    let mut saturated = false;
    let mut old_at = place(r(SIDE), imm);
    if OP == 11 {
        real = low(old).sum(real, &mut saturated);
        imaginary = high(old).sum(imaginary, &mut saturated);
        old_at = NOWHERE;
    }
    held.set_sums(
        (at, [packed(real, imaginary)]),
        (old_at, [old]),
        (codes_place::<SIDE>(second, machine), shift_codes(codes)),
        overflow_flags(SIDE, state, saturated),
    );
    FINE
}

/// Op 13.
pub fn despread_pair<const SIDE: usize>(
    &[_, _, target, first, second, imm, _]: &Slot,
    machine: &Machine,
    held: &mut Held,
) -> u32 {
    let state = &*machine.state;
    let at = place(tr(SIDE), target);
    let codes = state.pair(place(thr(SIDE), second));
    let [low, high] = data::<SIDE>(first, state);
    let (low_real, low_imaginary) = sums([low], codes[0]);
    let (high_real, high_imaginary) = sums([high], codes[0] >> 8);
    let sums = [
        packed(low_real, low_imaginary),
        packed(high_real, high_imaginary),
    ];
    held.set_sums(
        (at, sums),
        (place(r(SIDE), imm), state.pair(at)),
        (codes_place::<SIDE>(second, machine), shift_codes(codes)),
        overflow_flags(SIDE, state, false),
    );
    FINE
}

/// The quad in two halves.
#[inline(always)]
fn data<const SIDE: usize>(first: u32, state: &State) -> [u64; 2] {
    let [a, b, c, d] = state.quad(place(r(SIDE), first)).map(u64::from);
    [a | b << 32, c | d << 32]
}

/// Where the shifted codes go: nowhere if a live slot of the line loads their THR pair.
#[inline(always)]
fn codes_place<const SIDE: usize>(pair: u32, machine: &Machine) -> u8 {
    let is_load = |slot| loads_codes(slot, SIDE, pair) && is_live(slot, machine.state);
    if machine.line.iter().any(is_load) {
        NOWHERE
    } else {
        place(thr(SIDE), pair)
    }
}
