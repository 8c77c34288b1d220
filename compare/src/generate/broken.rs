//! Lines that break one rule on purpose.

use super::conditions::spoil_conditions;
use super::dab::{self, is_dab_load};
use super::intent::{BufferFault, Intent};
use super::lines::{self, any_line, code_in, fill, scene};
use super::slots::{Scene, Setting, SlotWords, CIRCULAR_OPS, OPS};
use super::values;
use crate::emulator::slot::{Slot, SLOT_WORDS};
use crate::emulator::State;
use crate::prng::Rng;

const ATTEMPTS: usize = 60;

/// A field out of its range, somewhere among good slots.
pub struct BadField {
    pub words: Vec<u32>,
    pub unit: u32,
    pub op: u32,
    pub field: usize,
}

/// A line with one slot of which one field breaks rule 3; at times it breaks rule 15 or 16 too.
pub fn bad_field(rng: &mut Rng, setting: Setting) -> BadField {
    let (unit, op) = any_op(rng);
    let scene = scene(rng, setting);
    loop {
        let good = scene.slot(rng, unit, op);
        let field = rng.weighted(&[3, 3, 4, 4, 4, 4]);
        let Some(bad) = spoil_field(rng, good, field) else {
            continue;
        };
        let others = if rng.chance(5) {
            dab::wrong_modifier(rng, &scene)
        } else {
            Vec::new()
        };
        let mut words = fill(rng, &scene, others);
        words.truncate(3 * SLOT_WORDS);
        let at = SLOT_WORDS * rng.index(words.len() / SLOT_WORDS + 1);
        words.splice(at..at, bad);
        if rng.chance(10) {
            spoil_conditions(rng, &mut words);
        }
        return BadField {
            words,
            unit,
            op,
            field,
        };
    }
}

/// A unit and an op, each pair as often.
fn any_op(rng: &mut Rng) -> (u32, u32) {
    let mut number = rng.below(OPS.iter().sum());
    let mut unit = 1;
    while number >= OPS[unit] {
        number -= OPS[unit];
        unit += 1;
    }
    (unit as u32, number + 1)
}

fn spoil_field(rng: &mut Rng, good: SlotWords, field: usize) -> Option<SlotWords> {
    // A wrong modifier of an alignment buffer's access breaks rule 16.
    if field == 5 && is_dab_load(&good) {
        return None;
    }
    let mut slot = good;
    // With 32 as second any immediate is right, so a register comes in its place.
    if field == 5 && slot[4] == 32 {
        slot[4] = rng.below(32);
    }
    // Often unasked: a field that the emulator alone takes for right must not be drawn again.
    let unasked = rng.chance(40);
    for _ in 0..30 {
        slot[field] = if field < 2 {
            rng.pick(&[0, 4, 10, 11, 13, 14, 24, 25, 26, 27, 255, 1 << 31, u32::MAX])
        } else {
            field_value(rng)
        };
        if unasked || Slot::read(&slot).is_none() {
            return Some(slot);
        }
    }
    None
}

fn field_value(rng: &mut Rng) -> u32 {
    match rng.below(7) {
        // The bounds of every kind of field, and what is next to them.
        0..=2 => rng.pick(&[1, 2, 3, 4, 5, 29, 30, 31, 32, 33]),
        3 => rng.pick(&[63, 64, 128, 255, 256, 1 << 31, u32::MAX, 65_536]),
        // Accesses: a width, file or number that does not exist.
        4 => 65_536 * rng.below(9) + 256 * rng.below(6) + rng.below(36),
        // The ranges that hold IALU register 31.
        5 => rng.pick(&[0x1_021F, 0x2_021E, 0x4_021C, 0x1_031F, 0x2_031E, 0x4_031C]),
        _ => values::word(rng),
    }
}

/// A line that is refused with the code that is meant, if a few draws find one.
pub fn broken_line(rng: &mut Rng, setting: Setting, intent: Intent) -> Option<Vec<u32>> {
    let code = intent.code()? as u32;
    for _ in 0..ATTEMPTS {
        let scene = scene(rng, setting);
        let slots = match intent {
            Intent::SlotCondition => slots_of_another_rule(rng, &scene),
            Intent::Modifier => dab::wrong_modifier(rng, &scene),
            Intent::Positions => wide_slots(rng, &scene),
            Intent::Unit => unit_twice(rng, &scene),
            Intent::Block => block_overfull(rng, &scene),
            Intent::StoredTwice { by_one: true } => load_of_own_index(rng, &scene),
            Intent::StoredTwice { by_one: false } if rng.chance(30) => {
                dab::storing_twice(rng, &scene)
            }
            Intent::QuadStart => dab::at_quad_start(rng, &scene),
            Intent::Access if rng.chance(25) => dab::past_memory(rng, &scene),
            Intent::Access => bad_access(rng, &scene),
            Intent::Buffer(fault) => bad_circular(rng, &scene, fault),
            Intent::StoreClash => lines::sharing_a_word(rng, &scene, [20, 20]),
            _ => Vec::new(),
        };
        let mut words = if slots.is_empty() {
            any_line(rng, &scene)
        } else {
            fill(rng, &scene, slots)
        };
        if intent == Intent::SlotCondition {
            spoil_conditions(rng, &mut words);
        }
        // Sometimes unasked, so that the emulator's own opinion does not choose every line.
        if rng.chance(8) || code_in(&words, setting.state, setting.memory_words) == code {
            return Some(words);
        }
    }
    None
}

/// Slots that may break rule 16 or one of rules 4 to 7, which come after rule 15; or none.
fn slots_of_another_rule(rng: &mut Rng, scene: &Scene) -> Vec<SlotWords> {
    match rng.below(8) {
        0 => wide_slots(rng, scene),
        1 => unit_twice(rng, scene),
        2 => block_overfull(rng, scene),
        3 => load_of_own_index(rng, scene),
        4 => dab::wrong_modifier(rng, scene),
        _ => Vec::new(),
    }
}

fn wide_slots(rng: &mut Rng, scene: &Scene) -> Vec<SlotWords> {
    let mut slots = Vec::new();
    let count = rng.between(1, 2);
    for unit in [7, 8].into_iter().take(count as usize) {
        let op = rng.pick(&[1, 2, 3, 4, 5, 6, 7, 13, 14, 17, 18, 19, 20, 21, 22, 23]);
        let mut slot = scene.slot(rng, unit, op);
        slot[4] = 32;
        slot[5] = rng.pick(&[128, 0xFFFF_FF7F, 1 << 31, 1 << 16]);
        slots.push(slot);
    }
    // One wide slot breaks the rule only beside three others.
    if count == 1 {
        slots.extend([1, 4, 8].map(|unit| scene.slot_of(rng, unit)));
    }
    slots
}

fn unit_twice(rng: &mut Rng, scene: &Scene) -> Vec<SlotWords> {
    let unit = rng.between(1, 10);
    vec![scene.slot_of(rng, unit), scene.slot_of(rng, unit)]
}

fn block_overfull(rng: &mut Rng, scene: &Scene) -> Vec<SlotWords> {
    let side = rng.below(2);
    let mut units = [1, 3, 5, 9];
    rng.shuffle(&mut units);
    let count = rng.between(3, 4) as usize;
    let units = &units[..count];
    units
        .iter()
        .map(|unit| scene.slot_of(rng, unit + side))
        .collect()
}

/// An updating load whose registers hold its own index.
fn load_of_own_index(rng: &mut Rng, scene: &Scene) -> Vec<SlotWords> {
    let side = rng.below(2);
    let op = rng.pick(&[17, 21, 23]);
    let mut slot = scene.slot(rng, 7 + side, op);
    let width = slot[2] >> 16;
    slot[2] = 65_536 * width + 256 * (2 + side) + slot[3] / width * width;
    vec![slot]
}

/// An access that is not aligned or passes memory.
fn bad_access(rng: &mut Rng, scene: &Scene) -> Vec<SlotWords> {
    let unit = rng.between(7, 8);
    let op = rng.between(17, 23);
    let mut slot = scene.slot(rng, unit, op);
    let words = scene.memory_words as u32;
    match op {
        18 | 20 => {
            slot[3] = 31;
            slot[4] = 32;
            slot[5] = match rng.below(4) {
                0 => words,
                1 => words.wrapping_sub(rng.between(1, 3)),
                2 => rng.below(words.max(1)),
                _ => values::word(rng),
            };
        }
        17 | 19 => slot[3] = rng.below(31),
        _ => slot[3] = rng.below(4),
    }
    vec![slot]
}

/// A circular op with a chance to break rule 9; the state was prepared for it. At times the other
/// IALU has a slot that breaks 17 alone.
fn bad_circular(rng: &mut Rng, scene: &Scene, fault: BufferFault) -> Vec<SlotWords> {
    let unit = rng.between(7, 8);
    let op = rng.pick(&CIRCULAR_OPS);
    let mut slot = scene.slot(rng, unit, op);
    slot[3] = rng.below(4);
    let length = scene.state.length[unit as usize - 7][slot[3] as usize];
    if !is_dab_load(&slot) {
        slot[4] = 32;
        slot[5] = match (fault, rng.below(3)) {
            (BufferFault::Modifier, 0) => 1 << 31,
            (BufferFault::Modifier, 1) => length.wrapping_add(rng.between(1, 3)),
            (BufferFault::Modifier, _) => length.wrapping_add(rng.between(1, 3)).wrapping_neg(),
            _ => 0,
        };
    }
    let mut slots = vec![slot];
    if rng.chance(15) {
        slots.push(dab::linear_at_quad_start(rng, scene, 8 - unit));
    }
    slots
}

/// Prepares every buffer of a state so that a circular op in it is outside what rule 9 allows.
pub fn spoil_buffers(rng: &mut Rng, state: &mut State, memory_words: usize, fault: BufferFault) {
    let words = memory_words as u32;
    for side in 0..2 {
        for index in 0..4 {
            if words < 16 || rng.chance(20) {
                continue;
            }
            let length = 4 * rng.between(1, words / 8);
            let base = 4 * rng.between(1, (words - length) / 4) - 4;
            let (base, length, at) = spoilt_buffer(rng, words, fault, [base, length]);
            state.base[side][index] = base;
            state.length[side][index] = length;
            state.ialu[side][index] = at;
        }
    }
}

/// Base, length and index.
fn spoilt_buffer(
    rng: &mut Rng,
    memory_words: u32,
    fault: BufferFault,
    [base, length]: [u32; 2],
) -> (u32, u32, u32) {
    match fault {
        BufferFault::BelowBase => (base + 4, length, base + 4 - rng.between(1, base + 4)),
        BufferFault::PastBuffer => (base, length, base + length + rng.below(3)),
        // An access through an alignment buffer has no other modifier than 4.
        BufferFault::Modifier if rng.chance(30) => (base, rng.between(1, 3), base),
        BufferFault::Modifier => (base, length, base),
        BufferFault::PastMemory => {
            let base = memory_words / 4 * 4 - length + 4 * rng.between(1, length / 4);
            let far = if rng.chance(30) {
                !0 - 3 - base
            } else {
                length
            };
            (base, far, base)
        }
        BufferFault::Base => {
            let base = base + rng.between(1, 3);
            (base, length, (base / 4 + 1) * 4)
        }
        BufferFault::Length => (base, length - rng.between(1, 3), base),
    }
}
