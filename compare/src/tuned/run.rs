//! The plain run: each line's slots read the state before the line, then all their stores apply.

use super::faults::refusal;
use super::fetch::{fetch, Slot, STORES};
use super::held::Held;
use super::image::{check_image, pairs};
use super::state::{Machine, State};
use crate::emulator::image::LINE_SLOTS;
use crate::emulator::machine::MEMORY_WORDS;
use crate::emulator::{Code, Refusal, Report};

pub fn run(image: &[u32], state: &mut State, memory: &mut [u32]) -> Report {
    let mut report = Report::default();
    let pairs = match admit(image, memory) {
        Ok(pairs) => pairs,
        Err(refusal) => return report.refused(refusal),
    };
    let mut machine = Machine::new(state, memory);
    let mut held = [Held::NOTHING; LINE_SLOTS];
    for pair in pairs {
        machine.line = line(image, pair);
        if let Some((code, slot)) = run_line(&mut machine, &mut held) {
            let number = report.lines_done as usize;
            return report.refused(Refusal::in_line(code, number, slot));
        }
        report.lines_done += 1;
        report.steps += 2 * machine.line.len() as u64;
    }
    report
}

/// What both runs test before they change anything; the answer is the directory's pairs.
pub fn admit<'a>(image: &'a [u32], memory: &[u32]) -> Result<&'a [[u32; 2]], Refusal> {
    if memory.len() > MEMORY_WORDS {
        return Err(Refusal::of_call(Code::TooLong));
    }
    check_image(image)?;
    Ok(pairs(image).unwrap_or_default())
}

/// The line that a pair of a checked image names.
#[inline(always)]
pub fn line<'a>(image: &'a [u32], &[offset, length]: &[u32; 2]) -> &'a [Slot] {
    image[offset as usize..][..length as usize].as_chunks().0
}

/// Fetches change nothing, so a line can be refused after them.
#[inline(always)]
fn run_line(machine: &mut Machine, held: &mut [Held; LINE_SLOTS]) -> Option<(Code, usize)> {
    let mut outcome = 0;
    for (slot, held) in machine.line.iter().zip(&mut *held) {
        outcome += fetch(slot, machine, held);
    }
    if outcome > STORES {
        let refused = refusal(machine);
        if refused.is_some() {
            return refused;
        }
    }
    for (_, held) in machine.line.iter().zip(held) {
        held.store(machine);
    }
    None
}
