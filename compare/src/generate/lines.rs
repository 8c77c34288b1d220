//! Lines that are accepted in the state before them, plain ones and the pairs of slots that meet.

use super::conditions;
use super::dab;
use super::slots::{Scene, Setting, SlotWords};
use crate::emulator::image::{Line, LINE_SLOTS};
use crate::emulator::rules::check_line;
use crate::emulator::run::test_line;
use crate::emulator::State;
use crate::prng::Rng;

/// How often a line is drawn anew before a plain one is taken.
const ATTEMPTS: usize = 24;

/// The code that a line is refused with in a state; 0 when it runs.
pub fn code_in(words: &[u32], state: &State, memory_words: usize) -> u32 {
    match check_line(words).and_then(|()| test_line(&line_of(words), state, memory_words)) {
        Ok(()) => 0,
        Err((code, _)) => code as u32,
    }
}

/// A line that runs in the given setting.
pub fn good_line(rng: &mut Rng, setting: Setting) -> Vec<u32> {
    for _ in 0..ATTEMPTS {
        let scene = scene(rng, setting);
        let words = any_line(rng, &scene);
        if code_in(&words, setting.state, setting.memory_words) == 0 {
            return words;
        }
    }
    vec![rng.between(1, 2), 9, rng.below(32), rng.below(32), 0, 0, 0]
}

/// What a line is drawn by: half of the lines are crowded, many of those at register 0.
pub fn scene<'a>(rng: &mut Rng, setting: Setting<'a>) -> Scene<'a> {
    let Setting {
        state,
        memory_words,
        conditions,
        dab_loads,
    } = setting;
    let crowd = match rng.below(4) {
        0 => Some(0),
        1 => Some(4 * rng.below(8)),
        _ => None,
    };
    Scene {
        state,
        memory_words,
        conditions,
        dab_loads,
        crowd,
    }
}

/// A line of valid slots that may break rules 4 to 7. Where no slot gets a condition, nothing is
/// drawn for one, and so with alignment buffers: the images that are measured stay what they were
/// before there were any.
pub fn any_line(rng: &mut Rng, scene: &Scene) -> Vec<u32> {
    if scene.conditions > 0 && rng.chance(15) {
        let slots = conditions::meeting_slots(rng, scene);
        return fill(rng, scene, slots);
    }
    if scene.dab_loads > 0 && rng.chance(15) {
        let slots = dab::meeting_slots(rng, scene);
        return fill(rng, scene, slots);
    }
    let slots = match rng.below(20) {
        0 => load_beside_despread(rng, scene),
        1..=2 => load_beside_store(rng, scene),
        3 => beside_the_other_ialu(rng, scene),
        _ => Vec::new(),
    };
    fill(rng, scene, slots)
}

/// Adds slots of other units up to a random number, mixes them, and gives some of them a condition.
pub fn fill(rng: &mut Rng, scene: &Scene, mut slots: Vec<SlotWords>) -> Vec<u32> {
    let count = 1 + rng.weighted(&[15, 30, 30, 25]);
    let mut units: Vec<u32> = (1..=10).collect();
    rng.shuffle(&mut units);
    for unit in units {
        if slots.len() >= count {
            break;
        }
        if has_room(&slots, unit) {
            slots.push(scene.slot_of(rng, unit));
        }
    }
    rng.shuffle(&mut slots);
    conditions::add(rng, scene, &mut slots);
    slots.concat()
}

/// Whether a slot of this unit keeps rules 5 and 6 beside the others.
fn has_room(slots: &[SlotWords], unit: u32) -> bool {
    let is_ialu = |unit: u32| matches!(unit, 7 | 8);
    let of_block = |slot: &&SlotWords| !is_ialu(slot[0]) && slot[0] % 2 == unit % 2;
    slots.iter().all(|slot| slot[0] != unit)
        && (is_ialu(unit) || slots.iter().filter(of_block).count() < 2)
}

/// DESPREAD and the load of its THR pair.
pub fn load_beside_despread(rng: &mut Rng, scene: &Scene) -> Vec<SlotWords> {
    let side = rng.below(2);
    let op = rng.between(11, 13);
    let despread = scene.slot(rng, 5 + side, op);
    let mut load = scene.slot(rng, 9 + side, 2);
    load[2] = despread[4];
    vec![despread, load]
}

/// A load on one IALU and a store on the other that share a word.
pub fn load_beside_store(rng: &mut Rng, scene: &Scene) -> Vec<SlotWords> {
    sharing_a_word(rng, scene, [18, 20])
}

/// Two accesses by ops 18 or 20 that share a word; the immediates stay narrow.
pub fn sharing_a_word(rng: &mut Rng, scene: &Scene, ops: [u32; 2]) -> Vec<SlotWords> {
    let word = rng.below((scene.memory_words as u32).clamp(1, 128));
    let units = if rng.chance(50) { [7, 8] } else { [8, 7] };
    let mut slots = Vec::with_capacity(LINE_SLOTS);
    for (unit, op) in units.into_iter().zip(ops) {
        let width = rng.pick(&[1, 2, 4]);
        let target = scene.range(rng, width);
        let address = word / width * width;
        slots.push([unit, op, target, 31, 32, address, 0]);
    }
    slots
}

/// An access of one IALU to registers of the other, which has a slot of its own.
pub fn beside_the_other_ialu(rng: &mut Rng, scene: &Scene) -> Vec<SlotWords> {
    let side = rng.below(2);
    let op = rng.between(17, 23);
    let mut access = scene.slot(rng, 7 + side, op);
    let width = access[2] >> 16;
    access[2] = 65_536 * width + 256 * (3 - side) + width * rng.below(4 / width);
    let other = scene.slot_of(rng, 8 - side);
    vec![access, other]
}

/// The line of words that are known to keep rules 3 and 15.
pub fn line_of(words: &[u32]) -> Line {
    Line::read(words).expect("these slots keep rules 3 and 15")
}
