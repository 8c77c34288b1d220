//! Seventh words: conditions that hold and that fail, slots that meet by one, and words above 12.

use super::dab::is_dab_load;
use super::lines::{beside_the_other_ialu, load_beside_despread, sharing_a_word};
use super::slots::{Scene, SlotWords};
use super::values;
use crate::emulator::condition::When;
use crate::emulator::slot::SLOT_WORDS;
use crate::emulator::State;
use crate::prng::Rng;

/// The place of the seventh word in a slot.
const CONDITION: usize = 6;

/// Gives slots that have none a condition, as often as the scene says.
pub fn add(rng: &mut Rng, scene: &Scene, slots: &mut [SlotWords]) {
    if scene.conditions == 0 {
        return;
    }
    for slot in slots {
        if slot[CONDITION] == 0 && rng.chance(scene.conditions) {
            slot[CONDITION] = any_condition(rng);
        }
    }
}

/// Half of all conditions hold in any state, for each has its opposite.
fn any_condition(rng: &mut Rng) -> u32 {
    rng.between(1, 12)
}

fn failing_condition(rng: &mut Rng, state: &State) -> u32 {
    loop {
        let word = any_condition(rng);
        if When::read(word).is_some_and(|when| !when.holds(state)) {
            return word;
        }
    }
}

/// A condition on the flags of a side: 0 for J, 1 for K.
fn condition_of(rng: &mut Rng, side: u32) -> u32 {
    6 * side + rng.between(1, 6)
}

/// Slots of which one's condition matters to another, or to what the line is refused for.
pub fn meeting_slots(rng: &mut Rng, scene: &Scene) -> Vec<SlotWords> {
    match rng.below(10) {
        0..=3 => load_under_condition(rng, scene),
        4..=6 => flags_under_condition(rng, scene),
        7 => clash_under_condition(rng, scene),
        8 => access_under_condition(rng, scene),
        _ => {
            let mut slots = beside_the_other_ialu(rng, scene);
            let slot = rng.index(slots.len());
            slots[slot][CONDITION] = any_condition(rng);
            slots
        }
    }
}

/// DESPREAD, a conditional load of its THR pair, and mostly the IALU slot that stores the flags
/// which the load's condition reads.
fn load_under_condition(rng: &mut Rng, scene: &Scene) -> Vec<SlotWords> {
    let side = rng.below(2);
    let mut slots = load_beside_despread(rng, scene);
    slots[1][CONDITION] = condition_of(rng, side);
    if rng.chance(75) {
        slots.push(storing_flags(rng, scene, side));
    }
    slots
}

/// A conditional slot beside the one that stores its flags; at times it stores them itself.
fn flags_under_condition(rng: &mut Rng, scene: &Scene) -> Vec<SlotWords> {
    let side = rng.below(2);
    let mut slots = vec![storing_flags(rng, scene, side)];
    if rng.chance(25) {
        slots[0][CONDITION] = condition_of(rng, side);
    }
    let unit = rng.between(1, 10);
    if unit != 7 + side {
        let mut slot = scene.slot_of(rng, unit);
        slot[CONDITION] = condition_of(rng, side);
        slots.push(slot);
    }
    slots
}

/// A slot of an IALU that stores its flags.
fn storing_flags(rng: &mut Rng, scene: &Scene, side: u32) -> SlotWords {
    let op = rng.between(1, 14);
    scene.slot(rng, 7 + side, op)
}

/// Two stores of one word, of which at most one is live.
fn clash_under_condition(rng: &mut Rng, scene: &Scene) -> Vec<SlotWords> {
    let mut slots = sharing_a_word(rng, scene, [20, 20]);
    slots[0][CONDITION] = failing_condition(rng, scene.state);
    slots
}

/// An access or a circular add from anywhere, which is not live.
fn access_under_condition(rng: &mut Rng, scene: &Scene) -> Vec<SlotWords> {
    let unit = rng.between(7, 8);
    let op = rng.pick(&[13, 17, 18, 19, 20, 21, 22, 23, 24, 25]);
    let mut slot = scene.slot(rng, unit, op);
    slot[4] = 32;
    if is_dab_load(&slot) {
        slot[3] = rng.below(4);
    } else {
        slot[5] = values::word(rng);
    }
    slot[CONDITION] = failing_condition(rng, scene.state);
    vec![slot]
}

/// Puts words above 12 in the place of one or more conditions.
pub fn spoil_conditions(rng: &mut Rng, words: &mut [u32]) {
    let (slots, _) = words.as_chunks_mut::<SLOT_WORDS>();
    let sure = rng.index(slots.len());
    for (number, slot) in slots.iter_mut().enumerate() {
        if number == sure || rng.chance(20) {
            slot[CONDITION] = bad_condition(rng);
        }
    }
}

/// A word above 12; some look right when their high bits are lost.
fn bad_condition(rng: &mut Rng) -> u32 {
    match rng.below(4) {
        0 => 13,
        1 => rng.between(14, 40),
        2 => rng.pick(&[256, 259, 1 << 16, 1 << 31, 1 << 31 | 5, u32::MAX]),
        _ => rng.word() | 16,
    }
}
