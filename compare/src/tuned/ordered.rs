//! The ordered run: a line's steps are made in place, one by one, in the order that its bytes give.

use super::fetch::fetch;
use super::held::Held;
use super::order::admissible;
use super::run::{admit, line};
use super::state::{Machine, State};
use super::touched::touched;
use crate::emulator::image::LINE_SLOTS;
use crate::emulator::order::ORDER_BYTES;
use crate::emulator::{Code, Refusal, Report};

pub fn run_ordered(
    image: &[u32],
    orders: &[u8],
    limit: u64,
    state: &mut State,
    memory: &mut [u32],
) -> Report {
    let mut report = Report::default();
    let pairs = match admit(image, memory) {
        Ok(pairs) => pairs,
        Err(refusal) => return report.refused(refusal),
    };
    if orders.len() != ORDER_BYTES * pairs.len() {
        return report.refused(Refusal::of_call(Code::Order));
    }
    let mut machine = Machine::new(state, memory);
    let mut held = [Held::NOTHING; LINE_SLOTS];
    for (pair, order) in pairs.iter().zip(orders.as_chunks().0) {
        // A spent limit comes before the line's tests.
        if report.steps == limit {
            return report;
        }
        machine.line = line(image, pair);
        if let Some((code, slot)) = refused(order, &machine) {
            let number = report.lines_done as usize;
            return report.refused(Refusal::in_line(code, number, slot));
        }
        let steps = 2 * machine.line.len() as u64;
        let made = steps.min(limit - report.steps);
        perform(&order[..made as usize], &mut machine, &mut held);
        report.steps += made;
        if made < steps {
            return report;
        }
        report.lines_done += 1;
    }
    report
}

/// The refusal of a line and its order, by the machine before the line.
#[inline(always)]
fn refused(order: &[u8; ORDER_BYTES], machine: &Machine) -> Option<(Code, usize)> {
    match touched(machine) {
        Ok(touched) if admissible(machine.line, order, &touched) => None,
        Ok(_) => Some((Code::Order, 0)),
        Err(refusal) => Some(refusal),
    }
}

/// Makes steps of an admissible order. Each fetch is made here, from what the steps before it left;
/// nothing of the line's tests is kept.
#[inline(always)]
fn perform(steps: &[u8], machine: &mut Machine, held: &mut [Held; LINE_SLOTS]) {
    for &step in steps {
        let number = usize::from(step / 2) % LINE_SLOTS;
        if step % 2 == 0 {
            fetch(&machine.line[number], machine, &mut held[number]);
        } else {
            held[number].store(machine);
        }
    }
}
