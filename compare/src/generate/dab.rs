//! Accesses through the data alignment buffers: where they run, the slots that they meet, and each
//! way in which they fail.

use super::slots::{Scene, SlotWords};
use super::values;
use crate::emulator::dab::QUAD;
use crate::emulator::State;
use crate::prng::Rng;

/// The place of the modifier in a slot.
const IMM: usize = 5;

pub fn is_dab_load(&[unit, op, ..]: &SlotWords) -> bool {
    matches!((unit, op), (7 | 8, 24 | 25))
}

/// Quads that the buffers hold.
pub fn fill_buffers(rng: &mut Rng, state: &mut State) {
    for word in state.dab.as_flattened_mut() {
        *word = values::word(rng);
    }
}

/// Moves most circular indices inside their quads, where accesses through the buffers run.
pub fn unalign_indices(rng: &mut Rng, state: &mut State) {
    for side in 0..2 {
        for index in &mut state.ialu[side][..4] {
            if rng.chance(60) {
                *index = *index / QUAD * QUAD + rng.between(1, 3);
            }
        }
    }
}

impl Scene<'_> {
    /// Target, index, 32 and the modifier, with an index that suits the state if a few draws find
    /// one.
    pub fn dab_load(&self, rng: &mut Rng, side: usize) -> [u32; 4] {
        let mut index = rng.below(4);
        for _ in 0..8 {
            if self.is_inside_quad(side, index) {
                break;
            }
            index = rng.below(4);
        }
        [self.register(rng, QUAD), index, 32, QUAD]
    }

    /// Whether an access through a buffer runs with this index.
    fn is_inside_quad(&self, side: usize, index: u32) -> bool {
        let at = self.state.ialu(side as u8, index as u8);
        let buffer = self.state.buffer(side as u8, index as u8);
        let position = at % QUAD;
        position != 0
            && buffer.allows(at, QUAD, QUAD, self.memory_words)
            && self.fits(at - position, QUAD)
    }

    /// An access of an IALU through any block's buffer.
    fn any_dab_load(&self, rng: &mut Rng, side: u32) -> SlotWords {
        let op = rng.between(24, 25);
        self.slot(rng, 7 + side, op)
    }
}

/// An access and a slot that reads what it stores or stores what it reads, or accesses of both IALUs
/// through the two buffers.
pub fn meeting_slots(rng: &mut Rng, scene: &Scene) -> Vec<SlotWords> {
    let side = rng.below(2);
    let load = scene.any_dab_load(rng, side);
    let [unit, op, ..] = load;
    let other = match rng.below(8) {
        0..=2 => reading_stored(rng, load),
        3..=5 => storing_read(rng, scene, load),
        _ => scene.slot(rng, 15 - unit, 49 - op),
    };
    vec![load, other]
}

/// A slot that reads R of an access's quad, by its block or for memory, or stores its index there.
fn reading_stored(rng: &mut Rng, [unit, op, target, index, ..]: SlotWords) -> SlotWords {
    let block = op - 24;
    let register = target + rng.below(4);
    let width = rng.pick(&[1, 2, 4]);
    let address = width * rng.below(16);
    match rng.below(3) {
        0 => [1 + block, 8, (target + 4) % 32, register, 0, 0, 0],
        1 => [
            15 - unit,
            20,
            range(width, block, register),
            31,
            32,
            address,
            0,
        ],
        _ => [
            15 - unit,
            20,
            range(width, unit - 5, index),
            31,
            32,
            address,
            0,
        ],
    }
}

/// A slot of the other IALU that stores a word of an access's quad; no slot may store its index.
fn storing_read(rng: &mut Rng, scene: &Scene, [unit, _, _, index, ..]: SlotWords) -> SlotWords {
    let width = rng.pick(&[1, 2, 4]);
    let at = scene.state.ialu(unit as u8 - 7, index as u8);
    let word = (at / QUAD * QUAD) | rng.below(4);
    let range = range(width, rng.below(2), rng.below(32));
    [15 - unit, 20, range, 31, 32, word / width * width, 0]
}

/// An encoded range of so many registers that holds one of a number.
fn range(width: u32, file: u32, number: u32) -> u32 {
    65_536 * width + 256 * file + number / width * width
}

/// Slots that store a place twice: both IALUs through one buffer, or R of the quad by another slot.
pub fn storing_twice(rng: &mut Rng, scene: &Scene) -> Vec<SlotWords> {
    let side = rng.below(2);
    let load = scene.any_dab_load(rng, side);
    let [unit, op, target, ..] = load;
    let block = op - 24;
    let register = target + rng.below(4);
    let other = match rng.below(3) {
        0 => scene.slot(rng, 15 - unit, op),
        1 => [1 + block, 9, register, rng.below(32), 0, 0, 0],
        _ => {
            let range = range(1, block, register);
            [15 - unit, 18, range, 31, 32, rng.below(16), 0]
        }
    };
    vec![load, other]
}

/// An access that does not step by a quad, and sometimes slots that break another rule with it.
pub fn wrong_modifier(rng: &mut Rng, scene: &Scene) -> Vec<SlotWords> {
    let side = rng.below(2);
    let mut slots = match rng.below(6) {
        0 => storing_twice(rng, scene),
        1 => vec![scene.any_dab_load(rng, side), scene.any_dab_load(rng, side)],
        2 => [1, 3, 5]
            .map(|unit| scene.slot_of(rng, unit + side))
            .to_vec(),
        // A wide slot, beside which a wide modifier would break rule 4.
        3 => vec![[8 - side, 1, rng.below(31), rng.below(32), 32, 1 << 10, 0]],
        _ => Vec::new(),
    };
    if !slots.iter().any(is_dab_load) {
        slots.push(scene.any_dab_load(rng, side));
    }
    spoil_modifiers(rng, &mut slots);
    slots
}

/// Puts other modifiers than 4 in one or more of the accesses.
fn spoil_modifiers(rng: &mut Rng, slots: &mut [SlotWords]) {
    let mut is_sure = true;
    for slot in slots.iter_mut().filter(|slot| is_dab_load(slot)) {
        if is_sure || rng.chance(50) {
            slot[IMM] = bad_modifier(rng);
        }
        is_sure = false;
    }
}

/// Other steps, a step back, wide ones, and what looks right when its high bits are lost.
fn bad_modifier(rng: &mut Rng) -> u32 {
    match rng.below(4) {
        0 => rng.pick(&[0, 1, 2, 3, 5, 8, 12, 16]),
        1 => QUAD.wrapping_neg(),
        2 => rng.pick(&[128, 260, 1 << 16 | 4, 1 << 31 | 4, 1 << 31, 0xFFFF_FF7F]),
        _ => values::word(rng).max(5),
    }
}

/// An access whose index stands at the start of a quad, where there is one, and at times a slot of
/// the other IALU that may break 9, 17 or 8 too.
pub fn at_quad_start(rng: &mut Rng, scene: &Scene) -> Vec<SlotWords> {
    let side = rng.below(2);
    let is_start = |at: u32, _| at.is_multiple_of(QUAD);
    let mut slots = vec![dab_load_where(rng, scene, side, is_start)];
    if rng.chance(50) {
        let op = rng.pick(&[13, 17, 21, 22, 23, 24, 25]);
        let mut other = scene.slot(rng, 8 - side, op);
        other[3] = rng.below(4);
        slots.push(other);
    }
    slots
}

/// An access at the start of a quad without a buffer's length, where there is one.
pub fn linear_at_quad_start(rng: &mut Rng, scene: &Scene, side: u32) -> SlotWords {
    let is_start = |at: u32, length| length == 0 && at.is_multiple_of(QUAD);
    dab_load_where(rng, scene, side, is_start)
}

/// An access to a quad past memory, where no buffer's length is in the way.
pub fn past_memory(rng: &mut Rng, scene: &Scene) -> Vec<SlotWords> {
    let side = rng.below(2);
    let is_outside = |at: u32, length| length == 0 && !scene.fits(at / QUAD * QUAD, QUAD);
    vec![dab_load_where(rng, scene, side, is_outside)]
}

/// An access by one of the indices that fit, or by any where none does; they are asked by what the
/// index and its length hold.
fn dab_load_where(
    rng: &mut Rng,
    scene: &Scene,
    side: u32,
    fits: impl Fn(u32, u32) -> bool,
) -> SlotWords {
    let file = side as usize;
    let indices = scene.state.ialu[file]
        .into_iter()
        .zip(scene.state.length[file]);
    let numbered = (0..).zip(indices);
    let fitting = numbered.filter(|&(_, (at, length))| fits(at, length));
    let numbers: Vec<u32> = fitting.map(|(number, _)| number).collect();
    let mut slot = scene.any_dab_load(rng, side);
    if !numbers.is_empty() {
        slot[3] = rng.pick(&numbers);
    }
    slot
}
