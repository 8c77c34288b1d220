//! Looks at accesses through the data alignment buffers: those done, and what they are refused for.

use super::observe::{broken_rules, circular_kind};
use super::{Coverage, Feature, ORDERED};
use crate::emulator::dab::QUAD;
use crate::emulator::image::Line;
use crate::emulator::machine::{PlaceFile, Places};
use crate::emulator::places::add_stored_registers;
use crate::emulator::run::first_live;
use crate::emulator::slot::{Action, DabLoad, Slot, SLOT_WORDS};
use crate::emulator::{Code, State};

impl Coverage {
    /// The accesses of a line that a run did, by the state before it.
    pub fn observe_dab_loads(&mut self, run: usize, line: &Line, state: &State) {
        for slot in line.slots() {
            let Some(load) = dab_load(slot) else {
                continue;
            };
            let [side, block] = [load.side, load.block].map(usize::from);
            if slot.is_live(state) {
                let kind = circular_kind(slot, state).expect("such accesses are circular");
                self.dab_loads[run][side][block][load.position(state) - 1][kind] += 1;
            } else {
                self.idle_dab_loads[run][side][block] += 1;
            }
        }
    }

    /// Where the steps of the accesses stand among those of the other live slots, on a line that
    /// the ordered run did. `late` has each pair of which the first fetches after the second stores.
    pub fn observe_ordered_dab_loads(
        &mut self,
        late: &[(usize, usize)],
        line: &Line,
        state: &State,
    ) {
        self.observe_dab_loads(ORDERED, line, state);
        for &(s, t) in late {
            let (reader, storer) = (&line.slots()[s], &line.slots()[t]);
            if reader.is_live(state) && storer.is_live(state) {
                self.note_if(dab_load(reader).is_some(), Feature::DabFetchLate);
                self.note_if(dab_load(storer).is_some(), Feature::DabStoreEarly);
            }
        }
    }

    /// What else a line breaks that breaks rule 16, and where. The line is refused at a slot.
    pub fn observe_bad_modifiers(&mut self, words: &[u32], code: u32, slot: usize) {
        let bad = bad_modifiers(words);
        let Some(&(first, modifier)) = bad.first() else {
            return;
        };
        let is_earlier = first < slot;
        if code == Code::Field as u32 {
            self.note(Feature::FieldAndModifier);
            self.note_if(is_earlier, Feature::ModifierBeforeField);
        } else if code == Code::SlotCondition as u32 {
            self.note(Feature::ConditionAndModifier);
            self.note_if(is_earlier, Feature::ModifierBeforeCondition);
        } else if code == Code::Modifier as u32 {
            self.note_if(slot > 0, Feature::LateModifier);
            self.note_if(bad.len() > 1, Feature::TwoModifiers);
            self.note_if(modifier == QUAD.wrapping_neg(), Feature::StepBack);
            let line = Line::read(words).expect("codes 3 and 15 come before");
            self.note_if(line.slots()[slot].is_wide(), Feature::WideModifier);
            let features = [
                Feature::ModifierAndPositions,
                Feature::ModifierAndUnit,
                Feature::ModifierAndBlock,
                Feature::ModifierAndTwice,
            ];
            for (is_broken, feature) in broken_rules(&line).into_iter().zip(features) {
                self.note_if(is_broken, feature);
            }
        }
    }

    /// What two slots of a line that is refused with 7 store both. Only a reason that stands alone
    /// shows that it is tested.
    pub fn observe_common_stores(&mut self, line: &Line) {
        let slots = line.slots();
        let mut pairs = Vec::new();
        for t in 0..slots.len() {
            let earlier = (0..t).map(|s| (s, t));
            pairs.extend(earlier.filter(|&(s, t)| stored(&slots[s]).meets(&stored(&slots[t]))));
        }
        let [(s, t)] = pairs[..] else {
            return;
        };
        let common = stored(&slots[s]).common_registers(&stored(&slots[t]));
        let loads = [&slots[s], &slots[t]].map(dab_load);
        match loads {
            [Some(load), Some(_)] => {
                let mut buffer = Places::default();
                buffer.add_dab(load.block);
                self.note_if(common == buffer, Feature::TwiceByBuffer);
            }
            [Some(load), None] | [None, Some(load)] => {
                let mut quad = Places::default();
                quad.add(PlaceFile::R, load.block, load.target, 4);
                self.note_if(common.meets(&quad), Feature::TwiceByQuad);
            }
            [None, None] => {}
        }
    }

    /// The tests beside 17 that a line breaks while it runs, and where.
    pub fn observe_quad_start(&mut self, line: &Line, state: &State, memory_words: usize) {
        let at_start = first_live(line, state, |action| action.is_at_quad_start(state));
        let Some(at_start) = at_start else {
            return;
        };
        let outside_buffer = first_live(line, state, |action| {
            !action.keeps_buffer(state, memory_words)
        });
        let outside_memory = first_live(line, state, |action| {
            !action.keeps_memory(state, memory_words)
        });
        if let Some(slot) = outside_buffer {
            self.note(Feature::BufferAndQuadStart);
            self.note_if(at_start < slot, Feature::QuadStartBeforeBuffer);
        } else if let Some(slot) = outside_memory {
            self.note(Feature::QuadStartAndAccess);
            self.note_if(slot < at_start, Feature::AccessBeforeQuadStart);
        }
    }

    /// The access that a run is refused for.
    pub fn observe_refused_dab_load(&mut self, code: u32, slot: &Slot, state: &State) {
        let Some(load) = dab_load(slot) else {
            return;
        };
        let length = state.buffer(load.side, load.index).length;
        if code == Code::QuadStart as u32 {
            self.note_if(length == 0, Feature::QuadStartLinear);
            self.note_if(length > 0, Feature::QuadStartCircular);
        }
        let is_short = code == Code::Buffer as u32 && length < QUAD;
        self.note_if(is_short, Feature::ShortBuffer);
        self.note_if(code == Code::Access as u32, Feature::QuadPastMemory);
    }

    /// An order that is refused, among others for two slots which have these places in common.
    pub fn observe_dab_conflict(&mut self, reader: &Slot, storer: &Slot, common: &Common) {
        // No other slot may store the index or the buffer, so that only a word can come too late.
        if dab_load(reader).is_some() {
            self.note_if(common.memory, Feature::DabWordLate);
        }
        if dab_load(storer).is_some() {
            self.note_if(common.has(PlaceFile::R), Feature::DabQuadStored);
            self.note_if(common.has(PlaceFile::Ialu), Feature::DabIndexStored);
        }
    }
}

/// What a slot reads of what another stores.
pub struct Common {
    pub registers: Places,
    pub memory: bool,
}

impl Common {
    pub fn has(&self, file: PlaceFile) -> bool {
        self.registers.meets(&whole_file(file))
    }
}

/// All registers of a file on both sides.
fn whole_file(file: PlaceFile) -> Places {
    let count = match file {
        PlaceFile::R | PlaceFile::Tr | PlaceFile::Ialu => 32,
        PlaceFile::Thr | PlaceFile::Base | PlaceFile::Length => 4,
        PlaceFile::Flags => 8,
        PlaceFile::Dab => 1,
    };
    let mut places = Places::default();
    for side in 0..2 {
        places.add(file, side, 0, count);
    }
    places
}

pub fn has_live_dab_load(line: &Line, state: &State) -> bool {
    let mut slots = line.slots().iter();
    slots.any(|slot| dab_load(slot).is_some() && slot.is_live(state))
}

fn dab_load(slot: &Slot) -> Option<&DabLoad> {
    match &slot.action {
        Action::DabLoad(load) => Some(load),
        _ => None,
    }
}

/// The registers that a slot stores; THR priority leaves codes out.
fn stored(slot: &Slot) -> Places {
    let mut places = Places::default();
    add_stored_registers(&mut places, slot, false);
    places
}

/// The slots whose modifier breaks rule 16, each with it.
fn bad_modifiers(words: &[u32]) -> Vec<(usize, u32)> {
    let (slots, _) = words.as_chunks::<SLOT_WORDS>();
    let read = slots.iter().map(Slot::read).enumerate();
    let modifiers = read.filter_map(|(number, slot)| Some((number, dab_load(&slot?)?.modifier)));
    modifiers
        .filter(|&(_, modifier)| modifier != QUAD)
        .collect()
}
