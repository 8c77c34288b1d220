//! Looks at the ends of circular buffers: those that come in, and those that a run leaves.

use super::observe::circular_parts;
use super::{Answers, Coverage, Feature};
use crate::emulator::image::{Image, Line};
use crate::emulator::machine::STATE_WORDS;
use crate::emulator::order::ORDER_BYTES;
use crate::emulator::State;
use crate::generate::Case;

impl Coverage {
    /// What each run answers where an end comes in false.
    pub fn observe_ends(&mut self, case: &Case, answers: &Answers) {
        if !case.has_false_end() {
            self.note(Feature::TrueEnds);
            return;
        }
        let codes = [answers.plain.code, answers.ordered.code];
        for (run, code) in codes.into_iter().enumerate() {
            self.false_ends[run][code as usize] += 1;
        }
        let before_lines = answers.ordered.code == 11 && has_wrong_orders(case);
        self.note_if(before_lines, Feature::FalseEndOrders);
    }

    /// A call with `lengths` of state and report.
    pub fn observe_wrong_lengths(&mut self, case: &Case, lengths: [usize; 2]) {
        self.note(Feature::WrongLength);
        let whole = lengths[0] == STATE_WORDS;
        self.note_if(whole && case.has_false_end(), Feature::FalseEndKept);
    }

    /// The first line runs on the buffers that come in.
    pub fn observe_first_line(&mut self, case: &Case, line: &Line) {
        let live = line.slots().iter().filter(|slot| slot.is_live(&case.state));
        let mut circular = live.filter_map(circular_parts);
        let is_used = circular.any(|(side, index, ..)| {
            let buffer = case.state.buffer(side, index);
            let brought = case.ends[usize::from(4 * side + index)];
            buffer.length > 0 && brought != buffer.end()
        });
        self.note_if(is_used, Feature::FalseEndUsed);
    }

    /// By the state that the plain run leaves.
    pub fn observe_ends_left(&mut self, case: &Case, left: &State) {
        let ends = left.ends();
        self.note_if(ends != case.state.ends(), Feature::EndRenewed);
        let is_high = |&end: &u64| end > u64::from(u32::MAX);
        self.note_if(ends.iter().any(is_high), Feature::HighEnd);
    }
}

/// Whether the orders are not eight bytes for each line of an accepted image.
fn has_wrong_orders(case: &Case) -> bool {
    let image = Image::read(&case.image).expect("code 11 comes after the check");
    case.orders.len() != ORDER_BYTES * image.line_count()
}
