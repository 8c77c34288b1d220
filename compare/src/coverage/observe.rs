//! Looks at a case and at what it did.

use super::dab::has_live_dab_load;
use super::{Answers, Coverage, Feature, PLAIN};
use crate::emulator::dab::QUAD;
use crate::emulator::image::{Image, Line};
use crate::emulator::machine::MEMORY_WORDS;
use crate::emulator::order::ORDER_BYTES;
use crate::emulator::places::{reads, stores};
use crate::emulator::rules;
use crate::emulator::run::run_line;
use crate::emulator::slot::{
    Action, Addressing, Direction, File, Operand, Route, Slot, SLOT_WORDS,
};
use crate::emulator::word::ShiftOp;
use crate::emulator::State;
use crate::generate::intent::{DirectoryFault, Intent, DIRECTORY_FAULTS};
use crate::generate::slots::CIRCULAR_OPS;
use crate::generate::Case;

impl Coverage {
    /// Counts what a case reached.
    pub fn observe(&mut self, case: &Case, answers: &Answers) {
        self.cases += 1;
        let codes = [
            answers.bytes,
            answers.check.0,
            answers.plain.code,
            answers.ordered.code,
        ];
        for (call, code) in codes.into_iter().enumerate() {
            self.codes[call][code as usize] += 1;
        }
        self.observe_sizes(case, answers);
        self.observe_ends(case, answers);
        self.observe_check(case, answers.check);
        if answers.check.0 == 0 && case.memory.len() <= MEMORY_WORDS {
            self.observe_limit(case, answers);
            self.observe_lines(case, answers);
        }
    }

    fn observe_sizes(&mut self, case: &Case, answers: &Answers) {
        let accepted = answers.check.0 == 0;
        self.note_if(accepted && case.image[0] == 0, Feature::NoLines);
        self.note_if(accepted && case.has_gaps, Feature::Gaps);
        self.note_if(accepted && case.image.len() == 16_384, Feature::FullImage);
        self.note_if(case.image.len() > 16_384, Feature::LongImage);
        self.note_if(case.memory.len() > MEMORY_WORDS, Feature::LongMemory);
        self.note_if(case.memory.is_empty(), Feature::NoMemory);
        self.note_if(case.memory.len() == MEMORY_WORDS, Feature::FullMemory);
        let bytes = case.bytes().len();
        let broken = bytes < 65_536 && !bytes.is_multiple_of(4);
        self.note_if(broken, Feature::BrokenWord);
        self.note_if(bytes == 65_536 && answers.bytes == 0, Feature::FullBytes);
        self.note_if(bytes > 65_536, Feature::LongBytes);
    }

    fn observe_check(&mut self, case: &Case, (code, line, slot): (u32, u32, u32)) {
        if let (Some((unit, op, field)), 3) = (case.spoilt_field, code) {
            self.fields[unit as usize][op as usize][field] += 1;
        }
        if let (Intent::Directory(fault), 2) = (case.intent, code) {
            self.directory[directory_index(fault)] += 1;
        }
        if matches!(code, 0..=2) {
            return;
        }
        let image = Image::read(&case.image).expect("codes 1 and 2 come before");
        let words = image.lines().nth(line as usize).expect("the line exists");
        self.observe_bad_conditions(words, code, slot as usize);
        self.observe_bad_modifiers(words, code, slot as usize);
        if matches!(code, 4..=7) {
            self.observe_broken_rule(words, code, slot as usize);
        }
    }

    /// A line that is refused for one of rules 4 to 7.
    fn observe_broken_rule(&mut self, words: &[u32], code: u32, slot: usize) {
        let line = Line::read(words).expect("codes 3 and 15 come before");
        let broken = broken_rules(&line).into_iter();
        let count = broken.filter(|&is_broken| is_broken).count();
        self.note_if(count > 1, Feature::TwoRules);
        let wide = line.slots().iter().filter(|slot| slot.is_wide()).count();
        self.note_if(code == 4 && wide > 1, Feature::SecondWide);
        self.note_if(code == 4 && wide == 1, Feature::FivePositions);
        if code == 7 {
            self.observe_common_stores(&line);
            let words = &words[SLOT_WORDS * slot..][..SLOT_WORDS];
            let alone = Line::read(words).expect("codes 3 and 15 come before");
            let by_one = rules::register_stored_twice(&alone).is_some();
            self.note_if(by_one, Feature::TwiceByOne);
            self.note_if(!by_one, Feature::TwiceByTwo);
        }
    }

    fn observe_limit(&mut self, case: &Case, answers: &Answers) {
        let steps = answers.plain.steps;
        if answers.ordered.code != 0 || answers.plain.code != 0 {
            return;
        }
        self.note_if(case.limit == 0, Feature::LimitZero);
        self.note_if(case.limit == steps, Feature::LimitSteps);
        self.note_if(case.limit == steps + 1, Feature::LimitAbove);
        self.note_if(
            case.limit.checked_add(1) == Some(steps),
            Feature::LimitBelow,
        );
        self.note_if(case.limit > u64::from(u32::MAX), Feature::LimitHigh);
    }

    /// Walks the lines that the plain run did, and the one that a run was refused at.
    fn observe_lines(&mut self, case: &Case, answers: &Answers) {
        let image = Image::read(&case.image).expect("the image was accepted");
        let mut state = case.state;
        let mut memory = case.memory.clone();
        if case.orders.len() != ORDER_BYTES * image.line_count() {
            let short = case.orders.len() < ORDER_BYTES * image.line_count();
            self.note_if(short, Feature::ShortOrders);
            self.note_if(!short, Feature::LongOrders);
        }
        let mut steps = 0;
        for (number, words) in image.lines().enumerate() {
            let line = Line::read(words).expect("the image was accepted");
            let done = number < answers.plain.lines_done as usize;
            if !done {
                self.observe_refusal(answers.plain, &line, words, &state, memory.len());
                break;
            }
            if number == 0 {
                self.observe_first_line(case, &line);
            }
            self.observe_order(case, answers.ordered, number, &line, &state);
            self.observe_line(words, &line, &state);
            self.observe_dab_loads(PLAIN, &line, &state);
            self.observe_spared(&line, &state, memory.len());
            let inside = steps < answers.ordered.steps
                && answers.ordered.steps < steps + 2 * line.slots().len() as u64;
            self.note_if(inside, Feature::LimitInside);
            let is_dab = inside && has_live_dab_load(&line, &state);
            self.note_if(is_dab, Feature::LimitInsideDab);
            steps += 2 * line.slots().len() as u64;
            let before = state;
            run_line(&line, &mut state, &mut memory);
            self.observe_results(words, &line, &before, &state);
        }
        self.observe_ends_left(case, &state);
    }

    /// What a line that runs is made of, by the state before it.
    fn observe_line(&mut self, words: &[u32], line: &Line, state: &State) {
        for (words, slot) in live_slots(words, line, state) {
            self.ops[words[0] as usize][words[1] as usize] += 1;
            self.observe_operands(words, slot);
            self.observe_circular(words[1], slot, state);
            self.observe_shift(slot, state);
            if let Action::Access(access) = &slot.action {
                let file = match access.file {
                    File::Block(side) => usize::from(side),
                    File::Ialu(side) => 2 + usize::from(side),
                };
                let direction = usize::from(access.direction == Direction::Store);
                let width = usize::from(access.width / 2);
                self.accesses[usize::from(access.side)][direction][file][width] += 1;
            }
        }
        self.observe_pairs(line, state);
    }

    fn observe_operands(&mut self, words: &[u32], slot: &Slot) {
        let &[unit, op, target, first, second, ..] = words else {
            return;
        };
        if !matches!(unit, 7 | 8) {
            return;
        }
        self.note_if(slot.is_wide(), Feature::Wide);
        self.note_if(second == 32 && !slot.is_wide(), Feature::Narrow);
        self.note_if(op <= 14 && target == 31, Feature::Target31);
        self.note_if(op <= 16 && first == 31, Feature::First31);
        self.note_if(op >= 17 && first == 31, Feature::Index31);
        self.note_if(second == 31, Feature::Second31);
    }

    fn observe_circular(&mut self, op: u32, slot: &Slot, state: &State) {
        let Some((side, index, modifier, _)) = circular_parts(slot) else {
            return;
        };
        if let Some(kind) = circular_kind(slot, state) {
            self.circular[circular_index(op)][kind] += 1;
        }
        let modifier = state.operand(side, modifier) as i32;
        let length = state.buffer(side, index).length;
        let whole = length > 0 && modifier.unsigned_abs() == length;
        self.note_if(whole, Feature::WholeLength);
    }

    fn observe_shift(&mut self, slot: &Slot, state: &State) {
        let Action::Shift(shift) = &slot.action else {
            return;
        };
        let Some(second) = shift.second else {
            return;
        };
        if matches!(shift.op, ShiftOp::Logical | ShiftOp::Arithmetic) {
            let left = state.r[usize::from(shift.side)][usize::from(second)] as i32;
            self.note_if(left >= 32, Feature::FarLeft);
            self.note_if(left <= -32, Feature::FarRight);
            self.note_if(left == i32::MIN, Feature::FarthestRight);
        }
    }

    /// Slots that meet: a THR load beside DESPREAD, a load beside a store of its word.
    fn observe_pairs(&mut self, line: &Line, state: &State) {
        let live = || line.slots().iter().filter(|slot| slot.is_live(state));
        for slot in live() {
            for other in live() {
                match (&slot.action, &other.action) {
                    (Action::Despread(despread), Action::Transfer(load)) => {
                        let wins = load.route == Route::ToThrPair
                            && load.side == despread.side
                            && load.target == despread.codes;
                        self.note_if(wins, Feature::LoadWins);
                    }
                    (Action::Access(load), Action::Access(store))
                        if load.direction == Direction::Load
                            && store.direction == Direction::Store =>
                    {
                        let read = reads(slot, line, state);
                        let meet = read.shares_memory(&stores(other, line, state));
                        self.note_if(meet && load.side == 1, Feature::KLoadJStore);
                        self.note_if(meet && load.side == 0, Feature::JLoadKStore);
                    }
                    _ => {}
                }
            }
        }
    }

    /// What shows in the flags that a line leaves.
    fn observe_results(&mut self, words: &[u32], line: &Line, before: &State, state: &State) {
        for (words, slot) in live_slots(words, line, before) {
            let flags = state.flags.get(words[0] as usize - 1).copied().unwrap_or(0);
            match (&slot.action, words[1]) {
                (Action::Alu(_), op @ 11..=12) if flags & 4 != 0 => {
                    let low = flags & 2 != 0;
                    self.note(match (op, low) {
                        (11, false) => Feature::AddHigh,
                        (11, true) => Feature::AddLow,
                        (_, false) => Feature::SubtractHigh,
                        (_, true) => Feature::SubtractLow,
                    });
                }
                (Action::Select(_) | Action::Tmax(_) | Action::Despread(_), op) => {
                    if flags & 1 != 0 {
                        self.saturated[op as usize] += 1;
                    }
                    self.note_if(flags & 3 == 2, Feature::TrsovKept);
                }
                _ => {}
            }
        }
    }
}

/// The live slots of a line, each with its words.
fn live_slots<'a>(
    words: &'a [u32],
    line: &'a Line,
    state: &'a State,
) -> impl Iterator<Item = (&'a [u32], &'a Slot)> {
    let slots = words.chunks_exact(SLOT_WORDS).zip(line.slots());
    slots.filter(|(_, slot)| slot.is_live(state))
}

fn directory_index(fault: DirectoryFault) -> usize {
    let position = DIRECTORY_FAULTS.iter().position(|&known| known == fault);
    position.expect("every fault is listed")
}

pub fn circular_index(op: u32) -> usize {
    let position = CIRCULAR_OPS.iter().position(|&known| known == op);
    position.expect("only circular ops are asked for")
}

/// How the index of a circular op turns, as the kinds are numbered.
pub fn circular_kind(slot: &Slot, state: &State) -> Option<usize> {
    let (side, index, modifier, _) = circular_parts(slot)?;
    let buffer = state.buffer(side, index);
    let modifier = state.operand(side, modifier) as i32;
    let sum = i64::from(state.ialu(side, index)) + i64::from(modifier);
    let base = i64::from(buffer.base);
    Some(if buffer.length == 0 {
        0
    } else if sum >= base + i64::from(buffer.length) {
        2
    } else if sum < base {
        3
    } else {
        1
    })
}

/// What a line breaks of rules 4 to 7.
pub fn broken_rules(line: &Line) -> [bool; 4] {
    [
        rules::too_wide(line),
        rules::unit_twice(line),
        rules::block_overfull(line),
        rules::register_stored_twice(line),
    ]
    .map(|slot| slot.is_some())
}

/// IALU, index, modifier and width of a circular op.
pub fn circular_parts(slot: &Slot) -> Option<(u8, u8, Operand, u32)> {
    match &slot.action {
        Action::CircularAdd(add) => Some((add.side, add.index, add.modifier, 1)),
        Action::Access(access) if access.addressing == Addressing::Circular => Some((
            access.side,
            access.index,
            access.modifier,
            u32::from(access.width),
        )),
        Action::DabLoad(load) => Some((
            load.side,
            load.index,
            Operand::Immediate(load.modifier),
            QUAD,
        )),
        _ => None,
    }
}
