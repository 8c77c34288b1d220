//! Looks at orders, and at what refuses a line while it runs.

use super::conditions::late_pairs;
use super::dab::Common;
use super::observe::{circular_index, circular_parts};
use super::{Coverage, Feature};
use crate::emulator::image::Line;
use crate::emulator::machine::PlaceFile;
use crate::emulator::order::{must_precede, NO_STEP, ORDER_BYTES};
use crate::emulator::places::{reads, stores};
use crate::emulator::slot::{Action, Slot, SLOT_WORDS};
use crate::emulator::{Code, Report, State};
use crate::generate::intent::BufferFault;
use crate::generate::Case;

impl Coverage {
    /// Why a plain run is refused at a line.
    pub fn observe_refusal(
        &mut self,
        report: Report,
        line: &Line,
        words: &[u32],
        state: &State,
        memory_words: usize,
    ) {
        let slots = line.slots();
        let live = || slots.iter().filter(|slot| slot.is_live(state));
        let outside_buffer = live().any(|slot| !slot.action.keeps_buffer(state, memory_words));
        let outside_memory = live().any(|slot| !slot.action.keeps_memory(state, memory_words));
        self.note_if(outside_buffer && outside_memory, Feature::TwoTests);
        self.observe_quad_start(line, state, memory_words);
        let number = report.slot as usize;
        self.observe_live_refusal(report.code, &slots[number]);
        self.observe_refused_dab_load(report.code, &slots[number], state);
        if report.code == Code::Access as u32 {
            if let Action::Access(access) = slots[number].action {
                let aligned = access
                    .address(state)
                    .is_multiple_of(u32::from(access.width));
                self.note_if(!aligned, Feature::Unaligned);
                self.note_if(aligned, Feature::PastMemory);
            }
        }
        if report.code == Code::Buffer as u32 {
            let faults = buffer_faults(&slots[number], state, memory_words);
            let op = circular_index(words[SLOT_WORDS * number + 1]);
            // Only a fault that stands alone shows that it is tested.
            if let [fault] = faults[..] {
                self.buffer[op][fault as usize] += 1;
            }
        }
    }

    /// An order of a line that the plain run did.
    pub fn observe_order(
        &mut self,
        case: &Case,
        ordered: Report,
        number: usize,
        line: &Line,
        state: &State,
    ) {
        let Some(order) = case.orders.chunks_exact(ORDER_BYTES).nth(number) else {
            return;
        };
        let steps = &order[..2 * line.slots().len()];
        if number < ordered.lines_done as usize {
            self.note_if(is_crossed(steps), Feature::Crossed);
            for (words, slot) in line_slots(case, number).zip(line.slots()) {
                if slot.is_live(state) {
                    self.ordered_ops[words[0] as usize][words[1] as usize] += 1;
                }
            }
            let late = late_pairs(steps, line);
            self.observe_ordered_conditions(&late, line, state);
            self.observe_ordered_dab_loads(&late, line, state);
        }
        let refused = ordered.code == Code::Order as u32 && number == ordered.line as usize;
        if !refused || number != ordered.lines_done as usize {
            return;
        }
        let rest = &order[steps.len()..];
        let tail = rest.iter().any(|&byte| byte != NO_STEP);
        let unknown = steps.iter().any(|&byte| usize::from(byte) >= steps.len());
        let missing = (0..steps.len() as u8).any(|step| !steps.contains(&step));
        match (tail, unknown, missing) {
            (true, false, false) => self.note(Feature::Tail),
            (false, true, _) => self.note(Feature::UnknownStep),
            (false, false, true) => self.note(Feature::Repeated),
            (false, false, false) => self.observe_conflict(steps, line, state),
            _ => {}
        }
    }

    /// An order that holds each step once, and is not admissible all the same.
    fn observe_conflict(&mut self, steps: &[u8], line: &Line, state: &State) {
        let at = |step: usize| steps.iter().position(|&byte| usize::from(byte) == step);
        let slots = line.slots();
        let is_own = (0..slots.len()).any(|s| at(2 * s) > at(2 * s + 1));
        self.note_if(is_own, Feature::StoreFirst);
        let mut pairs = late_pairs(steps, line);
        pairs.retain(|&(s, t)| must_precede(line, s, t, state));
        for &(s, t) in &pairs {
            let read = reads(&slots[s], line, state);
            let stored = stores(&slots[t], line, state);
            let common = Common {
                registers: read.common_registers(&stored),
                memory: read.shares_memory(&stored),
            };
            for (file, feature) in [
                (PlaceFile::R, Feature::ConflictR),
                (PlaceFile::Tr, Feature::ConflictTr),
                (PlaceFile::Thr, Feature::ConflictThr),
                (PlaceFile::Ialu, Feature::ConflictIalu),
            ] {
                self.note_if(common.has(file), feature);
            }
            self.note_if(common.memory, Feature::ConflictMemory);
            self.observe_dab_conflict(&slots[s], &slots[t], &common);
        }
        // Only a reason that stands alone shows that it is tested.
        if let (&[(s, t)], false) = (&pairs[..], is_own) {
            self.observe_late_flags(&slots[s], &slots[t], line, state);
        }
    }
}

/// Every reason for which rule 9 refuses a slot.
fn buffer_faults(slot: &Slot, state: &State, memory_words: usize) -> Vec<BufferFault> {
    let Some((side, index, modifier, width)) = circular_parts(slot) else {
        return Vec::new();
    };
    let at = state.ialu(side, index);
    let modifier = state.operand(side, modifier) as i32;
    let buffer = state.buffer(side, index);
    let end = buffer.end();
    let reasons = [
        (at < buffer.base, BufferFault::BelowBase),
        (u64::from(at) >= end, BufferFault::PastBuffer),
        (
            modifier.unsigned_abs() > buffer.length,
            BufferFault::Modifier,
        ),
        (end > memory_words as u64, BufferFault::PastMemory),
        (!buffer.base.is_multiple_of(width), BufferFault::Base),
        (!buffer.length.is_multiple_of(width), BufferFault::Length),
    ];
    let broken = reasons.into_iter().filter(|(is_so, _)| *is_so);
    broken.map(|(_, fault)| fault).collect()
}

/// Whether a store comes before another slot's fetch.
fn is_crossed(steps: &[u8]) -> bool {
    let first_store = steps.iter().position(|step| step % 2 == 1);
    let last_fetch = steps.iter().rposition(|step| step % 2 == 0);
    first_store < last_fetch
}

/// The slots of a line as their words.
fn line_slots(case: &Case, number: usize) -> impl Iterator<Item = &[u32]> {
    let offset = case.image[1 + 2 * number] as usize;
    let length = case.image[2 + 2 * number] as usize;
    case.image[offset..offset + length].chunks_exact(SLOT_WORDS)
}
