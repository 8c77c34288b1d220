//! Looks at the conditions of slots: those that hold, those that fail, and what fails with them.

use super::observe::broken_rules;
use super::{Coverage, Feature, ORDERED, PLAIN};
use crate::emulator::condition::{Condition, When};
use crate::emulator::image::Line;
use crate::emulator::machine::{overlap, Places};
use crate::emulator::places::{live_reads, live_stores, reads, stores, thr_load};
use crate::emulator::slot::{Slot, SLOT_WORDS};
use crate::emulator::{Code, State};

impl Coverage {
    /// What else a line breaks that breaks rule 15, and where. The line is refused at a slot.
    pub fn observe_bad_conditions(&mut self, words: &[u32], code: u32, slot: usize) {
        let bad = bad_conditions(words);
        if code == Code::Field as u32 {
            self.note_if(!bad.is_empty(), Feature::FieldAndCondition);
            let is_earlier = bad.first().is_some_and(|&bad| bad < slot);
            self.note_if(is_earlier, Feature::ConditionBeforeField);
        } else if code == Code::SlotCondition as u32 {
            self.note_if(slot > 0, Feature::LateCondition);
            self.note_if(bad.len() > 1, Feature::TwoConditions);
            let features = [
                Feature::ConditionAndPositions,
                Feature::ConditionAndUnit,
                Feature::ConditionAndBlock,
                Feature::ConditionAndTwice,
            ];
            let broken = broken_rules(&unconditional(words));
            for (is_broken, feature) in broken.into_iter().zip(features) {
                self.note_if(is_broken, feature);
            }
        }
    }

    /// The conditions of a line that a run did, by the state before it.
    pub fn observe_conditions(&mut self, run: usize, line: &Line, state: &State) {
        for slot in line.slots() {
            if let When::If(condition) = slot.when {
                let holds = usize::from(condition.holds(state));
                self.conditions[run][condition.number()][holds] += 1;
            }
            self.observe_conditional_load(run, slot, line, state);
        }
    }

    fn observe_conditional_load(&mut self, run: usize, slot: &Slot, line: &Line, state: &State) {
        let Some(load) = thr_load(slot, line).filter(|_| slot.is_live(state)) else {
            return;
        };
        let When::If(condition) = load.when else {
            return;
        };
        let is_live = usize::from(condition.holds(state));
        let mut slots = line.slots().iter();
        let are_stored = slots.any(|slot| stores(slot, line, state).meets(&flags(condition)));
        self.loads[run][is_live][usize::from(are_stored)] += 1;
    }

    /// What a line that the plain run did owes to its conditions.
    pub fn observe_spared(&mut self, line: &Line, state: &State, memory_words: usize) {
        self.observe_conditions(PLAIN, line, state);
        for slot in line.slots() {
            let When::If(condition) = slot.when else {
                continue;
            };
            let is_live = condition.holds(state);
            let is_own = live_stores(slot, line, state).meets(&flags(condition));
            self.note_if(is_own && is_live, Feature::OwnFlags);
            self.note_if(is_own && !is_live, Feature::SparedFlags);
            let outside_buffer = !slot.action.keeps_buffer(state, memory_words);
            let outside_memory = !slot.action.keeps_memory(state, memory_words);
            let at_quad_start = slot.action.is_at_quad_start(state);
            self.note_if(outside_buffer, Feature::SparedBuffer);
            self.note_if(at_quad_start, Feature::SparedQuadStart);
            self.note_if(outside_memory, Feature::SparedAccess);
        }
        let slots = line.slots().iter();
        let stored = slots.filter_map(|slot| slot.action.stored_words(state));
        if let [a, b] = &stored.collect::<Vec<_>>()[..] {
            self.note_if(overlap(a, b), Feature::SparedClash);
        }
    }

    /// The slot that a run is refused for; it is live, and may have a condition.
    pub fn observe_live_refusal(&mut self, code: u32, slot: &Slot) {
        if slot.when == When::Always {
            return;
        }
        for (refusal, feature) in [
            (Code::Access, Feature::LiveAccess),
            (Code::Buffer, Feature::LiveBuffer),
            (Code::QuadStart, Feature::LiveQuadStart),
            (Code::StoreClash, Feature::LiveClash),
        ] {
            self.note_if(code == refusal as u32, feature);
        }
    }

    /// What the order of a line that the ordered run did owes to slots that are not live.
    /// `late` has each pair of which the first fetches after the second stores.
    pub fn observe_ordered_conditions(
        &mut self,
        late: &[(usize, usize)],
        line: &Line,
        state: &State,
    ) {
        self.observe_conditions(ORDERED, line, state);
        for &(s, t) in late {
            let (reader, storer) = (&line.slots()[s], &line.slots()[t]);
            let stored = live_stores(storer, line, state);
            match (reader.is_live(state), storer.is_live(state)) {
                (false, true) => {
                    let would_read = live_reads(reader, line, state).meets(&stored);
                    self.note_if(would_read, Feature::LateFetch);
                }
                (true, false) => {
                    let reads_it = reads(reader, line, state).meets(&stored);
                    self.note_if(reads_it, Feature::EarlyStore);
                    let is_load = thr_load(reader, line).is_some_and(|load| load == storer);
                    self.note_if(is_load, Feature::EarlyLoad);
                }
                _ => {}
            }
        }
    }

    /// An order that is refused for one late fetch, which reads nothing of what was stored but a
    /// flag group.
    pub fn observe_late_flags(&mut self, reader: &Slot, storer: &Slot, line: &Line, state: &State) {
        let read = reads(reader, line, state);
        let stored = stores(storer, line, state);
        if read.shares_memory(&stored) {
            return;
        }
        let common = read.common_registers(&stored);
        let of_load = thr_load(reader, line).and_then(|load| load.when.condition());
        for (whose, condition) in [reader.when.condition(), of_load].into_iter().enumerate() {
            let Some(condition) = condition.filter(|&condition| common == flags(condition)) else {
                continue;
            };
            let (holds, side) = (condition.holds(state), condition.side());
            self.late_flags[whose][usize::from(holds)][usize::from(side)] += 1;
            // Where both read the same flags, they are the slot's own condition's.
            return;
        }
    }
}

/// The slots whose seventh word is above 12.
fn bad_conditions(words: &[u32]) -> Vec<usize> {
    let (slots, _) = words.as_chunks::<SLOT_WORDS>();
    let numbers = 0..slots.len();
    numbers
        .filter(|&number| When::read(slots[number][6]).is_none())
        .collect()
}

/// The line without its conditions.
fn unconditional(words: &[u32]) -> Line {
    let mut words = words.to_vec();
    for slot in words.as_chunks_mut::<SLOT_WORDS>().0 {
        slot[6] = 0;
    }
    Line::read(&words).expect("code 3 comes before")
}

/// The flag group that a condition reads.
fn flags(condition: Condition) -> Places {
    let mut places = Places::default();
    places.add_flags(7 + condition.side());
    places
}

/// Each pair of slots of which the first fetches after the second has stored.
pub fn late_pairs(steps: &[u8], line: &Line) -> Vec<(usize, usize)> {
    let at = |step: usize| steps.iter().position(|&byte| usize::from(byte) == step);
    let slots = line.slots().len();
    let mut pairs = Vec::new();
    for s in 0..slots {
        for t in (0..slots).filter(|&t| t != s) {
            if at(2 * t + 1) < at(2 * s) {
                pairs.push((s, t));
            }
        }
    }
    pairs
}
