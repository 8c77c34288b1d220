//! The ordered run: a line's steps are made in place, one by one, in the order that its bytes give.

use super::image::{Line, LINE_SLOTS};
use super::machine::State;
use super::places::{reads, stores};
use super::run::{admit, checked_line, test_line};
use super::step::Held;
use super::{Code, Refusal, Report};

pub const ORDER_BYTES: usize = 2 * LINE_SLOTS;
/// Fills an order behind the steps of its line.
pub const NO_STEP: u8 = 255;

pub fn run_ordered(
    image: &[u32],
    orders: &[u8],
    limit: u64,
    state: &mut State,
    memory: &mut [u32],
) -> Report {
    let mut report = Report::default();
    let image = match admit(image, memory) {
        Ok(image) => image,
        Err(refusal) => return report.refused(refusal),
    };
    if orders.len() != ORDER_BYTES * image.line_count() {
        return report.refused(Refusal::of_call(Code::Order));
    }
    let orders = orders.chunks_exact(ORDER_BYTES);
    for (number, (words, order)) in image.lines().zip(orders).enumerate() {
        // A spent limit comes before the line's tests.
        if report.steps == limit {
            return report;
        }
        let line = checked_line(words);
        if let Err((code, slot)) = test_ordered_line(&line, order, state, memory.len()) {
            return report.refused(Refusal::in_line(code, number, slot));
        }
        let steps = &order[..2 * line.slots().len()];
        let left = usize::try_from(limit - report.steps).unwrap_or(usize::MAX);
        let made = steps.len().min(left);
        perform(&line, &steps[..made], state, memory);
        report.steps += made as u64;
        if made < steps.len() {
            return report;
        }
        report.lines_done += 1;
    }
    report
}

fn test_ordered_line(
    line: &Line,
    order: &[u8],
    state: &State,
    memory_words: usize,
) -> Result<(), (Code, usize)> {
    test_line(line, state, memory_words)?;
    if !admissible(line, order, state) {
        return Err((Code::Order, 0));
    }
    Ok(())
}

/// Makes steps of a line from its start: any sequence, admissible or not. Step 2s is slot s's
/// fetch, 2s + 1 its store; a byte that names no step of the line does nothing.
pub fn perform(line: &Line, steps: &[u8], state: &mut State, memory: &mut [u32]) {
    let mut held: [Option<Held>; LINE_SLOTS] = [None; LINE_SLOTS];
    for step in steps {
        let number = usize::from(step / 2);
        let Some(slot) = line.slots().get(number) else {
            continue;
        };
        if step % 2 == 0 {
            held[number] = slot.fetch(line, state, memory);
        } else if let Some(held) = &held[number] {
            held.store(state, memory);
        }
    }
}

/// Whether an order's eight bytes are admissible for a line, by the state before it.
pub fn admissible(line: &Line, order: &[u8], state: &State) -> bool {
    let slots = line.slots().len();
    let Some(position) = step_positions(order, slots) else {
        return false;
    };
    for s in 0..slots {
        let fetch = position[2 * s];
        if fetch > position[2 * s + 1] {
            return false;
        }
        for t in 0..slots {
            if t != s && position[2 * t + 1] < fetch && must_precede(line, s, t, state) {
                return false;
            }
        }
    }
    true
}

/// Whether slot s's fetch must come before slot t's store, for it reads a place that t stores.
pub fn must_precede(line: &Line, s: usize, t: usize, state: &State) -> bool {
    let slots = line.slots();
    reads(&slots[s], line, state).meets(&stores(&slots[t], line, state))
}

/// At which byte each step stands; nothing unless each step of the line stands there once and the
/// rest is filled up.
fn step_positions(order: &[u8], slots: usize) -> Option<[usize; ORDER_BYTES]> {
    let (steps, rest) = order.split_at(2 * slots);
    if rest.iter().any(|&byte| byte != NO_STEP) {
        return None;
    }
    let mut positions = [ORDER_BYTES; ORDER_BYTES];
    for (position, &step) in steps.iter().enumerate() {
        let place = positions[..2 * slots].get_mut(usize::from(step))?;
        if *place != ORDER_BYTES {
            return None;
        }
        *place = position;
    }
    Some(positions)
}
