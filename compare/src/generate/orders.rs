//! Orders: random linear extensions of what is admissible, and each way to fail it.

use super::intent::OrderFault;
use crate::emulator::image::Line;
use crate::emulator::order::{must_precede, NO_STEP, ORDER_BYTES};
use crate::emulator::State;
use crate::prng::Rng;

pub type Order = [u8; ORDER_BYTES];

/// How the next step is chosen among those that may come.
#[derive(Clone, Copy, PartialEq)]
enum Style {
    Any,
    FetchesFirst,
    StoresFirst,
}

/// An admissible order for a line.
pub fn admissible_order(rng: &mut Rng, line: &Line, state: &State) -> Order {
    let style = rng.pick(&[
        Style::Any,
        Style::Any,
        Style::StoresFirst,
        Style::StoresFirst,
        Style::FetchesFirst,
    ]);
    let slots = line.slots().len();
    let mut order = [NO_STEP; ORDER_BYTES];
    let mut fetched = [false; 4];
    let mut stored = [false; 4];
    for byte in &mut order[..2 * slots] {
        let may_store = |t: usize| {
            fetched[t] && !stored[t] && waits_for_none(line, state, t, &fetched[..slots])
        };
        let fetches = (0..slots).filter(|&s| !fetched[s]).map(|s| 2 * s);
        let stores = (0..slots).filter(|&t| may_store(t)).map(|t| 2 * t + 1);
        let step = choose(rng, style, fetches.collect(), stores.collect());
        *byte = step as u8;
        if step.is_multiple_of(2) {
            fetched[step / 2] = true;
        } else {
            stored[step / 2] = true;
        }
    }
    order
}

/// Whether every slot that reads what t stores has fetched.
fn waits_for_none(line: &Line, state: &State, t: usize, fetched: &[bool]) -> bool {
    let mut waiting = (0..fetched.len()).filter(|&s| s != t && !fetched[s]);
    waiting.all(|s| !must_precede(line, s, t, state))
}

fn choose(rng: &mut Rng, style: Style, fetches: Vec<usize>, stores: Vec<usize>) -> usize {
    let steps = match style {
        Style::FetchesFirst if !fetches.is_empty() => fetches,
        Style::StoresFirst if !stores.is_empty() => stores,
        _ => [fetches, stores].concat(),
    };
    rng.pick(&steps)
}

/// Any order in which a fetch precedes its own store, admissible or not.
pub fn any_order(rng: &mut Rng, slots: usize) -> Order {
    let mut steps: Vec<u8> = (0..2 * slots as u8).map(|step| step / 2).collect();
    rng.shuffle(&mut steps);
    let mut order = [NO_STEP; ORDER_BYTES];
    let mut seen = [false; 4];
    for (byte, slot) in order.iter_mut().zip(steps) {
        *byte = 2 * slot + u8::from(seen[usize::from(slot)]);
        seen[usize::from(slot)] = true;
    }
    order
}

/// An order that fails in one given way; nothing where the line has no such way.
pub fn bad_order(rng: &mut Rng, line: &Line, state: &State, fault: OrderFault) -> Option<Order> {
    let slots = line.slots().len();
    let steps = 2 * slots;
    let mut order = admissible_order(rng, line, state);
    match fault {
        OrderFault::Repeated => {
            let from = rng.index(steps);
            let to = (from + 1 + rng.index(steps - 1)) % steps;
            order[to] = order[from];
        }
        OrderFault::Unknown => {
            let beyond = [steps as u8, 8, 9, 254, NO_STEP, 128];
            order[rng.index(steps)] = rng.pick(&beyond);
        }
        OrderFault::Tail if slots < 4 => {
            let place = rng.between(steps as u32, ORDER_BYTES as u32 - 1) as usize;
            order[place] = rng.pick(&[0, 1, steps as u8, 7, 254, 128]);
        }
        OrderFault::Tail => return None,
        OrderFault::StoreFirst => {
            let slot = rng.index(slots) as u8;
            for byte in &mut order[..steps] {
                if *byte / 2 == slot {
                    *byte ^= 1;
                }
            }
        }
        OrderFault::Conflict => order = conflicting_order(rng, line, state)?,
    }
    Some(order)
}

/// One slot runs whole before another fetches what it stores.
fn conflicting_order(rng: &mut Rng, line: &Line, state: &State) -> Option<Order> {
    let slots = line.slots().len();
    let mut pairs = Vec::new();
    for s in 0..slots {
        for t in (0..slots).filter(|&t| t != s) {
            if must_precede(line, s, t, state) {
                pairs.push((s, t));
            }
        }
    }
    if pairs.is_empty() {
        return None;
    }
    let (reader, storer) = rng.pick(&pairs);
    let others = (0..slots).filter(|&other| other != reader && other != storer);
    let mut steps: Vec<usize> = others.clone().map(|other| 2 * other).collect();
    steps.extend([2 * storer, 2 * storer + 1, 2 * reader, 2 * reader + 1]);
    steps.extend(others.map(|other| 2 * other + 1));
    let mut order = [NO_STEP; ORDER_BYTES];
    for (byte, step) in order.iter_mut().zip(steps) {
        *byte = step as u8;
    }
    Some(order)
}
