//! The two steps of a slot: its fetch takes values from the state and memory, its store makes
//! results from them and puts those in their places.

use super::access::{AccessOperands, IndexOperands};
use super::clu;
use super::dab::DabOperands;
use super::image::Line;
use super::machine::State;
use super::places::shifts_codes;
use super::slot::{
    Access, Action, Alu, BufferRegister, CircularAdd, DabLoad, Despread, Despreading, Ialu, Route,
    Select, SetBuffer, Shift, Slot, TestBit, Tmax, Transfer,
};
use super::word;

/// What a slot's fetch took, together with the slot: all that its store needs.
#[derive(Clone, Copy, Debug)]
pub enum Held<'a> {
    Alu(&'a Alu, [u32; 2]),
    Shift(&'a Shift, [u32; 2]),
    TestBit(&'a TestBit, [u32; 2]),
    Select(&'a Select, SelectOperands),
    Tmax(&'a Tmax, [u32; 2], u32),
    Despread(&'a Despread, DespreadOperands),
    Transfer(&'a Transfer, [u32; 2]),
    Ialu(&'a Ialu, [u32; 2]),
    CircularAdd(&'a CircularAdd, IndexOperands),
    SetBuffer(&'a SetBuffer, u32),
    Access(&'a Access, AccessOperands),
    DabLoad(&'a DabLoad, DabOperands),
}

#[derive(Clone, Copy, Debug)]
pub struct SelectOperands {
    first: [u32; 2],
    second: [u32; 2],
    quad: [u32; 4],
    flags: u32,
}

#[derive(Clone, Copy, Debug)]
pub struct DespreadOperands {
    data: [u32; 4],
    codes: [u32; 2],
    shifts: bool,
    old: [u32; 2],
    flags: u32,
}

impl Slot {
    /// What the slot holds after its fetch. Where its condition fails that is nothing, and a store
    /// with nothing held does nothing.
    pub fn fetch(&self, line: &Line, state: &State, memory: &[u32]) -> Option<Held<'_>> {
        self.is_live(state).then(|| self.held(line, state, memory))
    }

    fn held(&self, line: &Line, state: &State, memory: &[u32]) -> Held<'_> {
        match &self.action {
            Action::Alu(slot) => Held::Alu(slot, slot.fetch(state)),
            Action::Shift(slot) => Held::Shift(slot, slot.fetch(state)),
            Action::TestBit(slot) => Held::TestBit(slot, slot.fetch(state)),
            Action::Select(slot) => Held::Select(slot, slot.fetch(state)),
            Action::Tmax(slot) => {
                let flags = state.flags[clu_flags(slot.side)];
                Held::Tmax(slot, slot.fetch(state), flags)
            }
            Action::Despread(slot) => {
                let shifts = shifts_codes(self, line, state);
                Held::Despread(slot, slot.fetch(shifts, state))
            }
            Action::Transfer(slot) => Held::Transfer(slot, slot.fetch(state)),
            Action::Ialu(slot) => Held::Ialu(slot, slot.fetch(state)),
            Action::CircularAdd(slot) => Held::CircularAdd(slot, slot.fetch(state)),
            Action::SetBuffer(slot) => Held::SetBuffer(slot, state.ialu(slot.side, slot.first)),
            Action::Access(slot) => Held::Access(slot, slot.fetch(state, memory)),
            Action::DabLoad(slot) => Held::DabLoad(slot, slot.fetch(state, memory)),
        }
    }
}

impl Held<'_> {
    pub fn store(&self, state: &mut State, memory: &mut [u32]) {
        match self {
            Held::Alu(slot, operands) => slot.store(*operands, state),
            Held::Shift(slot, operands) => slot.store(*operands, state),
            Held::TestBit(slot, operands) => slot.store(*operands, state),
            Held::Select(slot, operands) => slot.store(operands, state),
            Held::Tmax(slot, operands, flags) => slot.store(*operands, *flags, state),
            Held::Despread(slot, operands) => slot.store(operands, state),
            Held::Transfer(slot, operands) => slot.store(*operands, state),
            Held::Ialu(slot, operands) => slot.store(*operands, state),
            Held::CircularAdd(slot, operands) => slot.store(operands, state),
            Held::SetBuffer(slot, value) => slot.store(*value, state),
            Held::Access(slot, operands) => slot.store(operands, state, memory),
            Held::DabLoad(slot, operands) => slot.store(operands, state),
        }
    }
}

/// N registers of a file, the lowest first.
fn take<const N: usize>(file: &[u32], first: u8) -> [u32; N] {
    let first = usize::from(first);
    let mut words = [0; N];
    words.copy_from_slice(&file[first..first + N]);
    words
}

fn block_operands(state: &State, side: u8, first: u8, second: Option<u8>) -> [u32; 2] {
    let file = &state.r[usize::from(side)];
    let second = second.map_or(0, |number| file[usize::from(number)]);
    [file[usize::from(first)], second]
}

fn alu_flags(side: u8) -> usize {
    usize::from(side)
}

fn shifter_flags(side: u8) -> usize {
    2 + usize::from(side)
}

fn clu_flags(side: u8) -> usize {
    4 + usize::from(side)
}

pub fn ialu_flags(side: u8) -> usize {
    6 + usize::from(side)
}

impl Alu {
    fn fetch(&self, state: &State) -> [u32; 2] {
        block_operands(state, self.side, self.first, self.second)
    }

    fn store(&self, [first, second]: [u32; 2], state: &mut State) {
        let (value, flags) = word::alu(self.op, first, second);
        state.r[usize::from(self.side)][usize::from(self.target)] = value;
        state.flags[alu_flags(self.side)] = flags;
    }
}

impl Shift {
    fn fetch(&self, state: &State) -> [u32; 2] {
        block_operands(state, self.side, self.first, self.second)
    }

    fn store(&self, [first, second]: [u32; 2], state: &mut State) {
        let (value, flags) = word::shift(self.op, first, second);
        state.r[usize::from(self.side)][usize::from(self.target)] = value;
        state.flags[shifter_flags(self.side)] = flags;
    }
}

impl TestBit {
    fn fetch(&self, state: &State) -> [u32; 2] {
        block_operands(state, self.side, self.first, Some(self.second))
    }

    fn store(&self, [first, second]: [u32; 2], state: &mut State) {
        state.flags[shifter_flags(self.side)] = word::test_bit(first, second);
    }
}

impl Select {
    fn fetch(&self, state: &State) -> SelectOperands {
        let side = usize::from(self.side);
        SelectOperands {
            first: take(&state.tr[side], self.first),
            second: take(&state.tr[side], self.second),
            quad: take(&state.r[side], self.quad),
            flags: state.flags[clu_flags(self.side)],
        }
    }

    /// The quad's high half goes with first, its low half with second.
    fn store(&self, operands: &SelectOperands, state: &mut State) {
        let side = usize::from(self.side);
        let mut overflow = false;
        for i in 0..2 {
            let terms = [
                operands.first[i],
                operands.quad[2 + i],
                operands.second[i],
                operands.quad[i],
            ];
            let (value, saturated) = clu::select(self.lanes, self.choice, self.subtract, terms);
            state.tr[side][usize::from(self.target) + i] = value;
            overflow |= saturated;
        }
        state.flags[clu_flags(self.side)] = clu::flags(operands.flags, overflow);
    }
}

impl Tmax {
    fn fetch(&self, state: &State) -> [u32; 2] {
        let file = &state.tr[usize::from(self.side)];
        [
            file[usize::from(self.first)],
            file[usize::from(self.second)],
        ]
    }

    fn store(&self, [first, second]: [u32; 2], flags: u32, state: &mut State) {
        let (value, overflow) = clu::tmax(self.lanes, first, second);
        state.r[usize::from(self.side)][usize::from(self.target)] = value;
        state.flags[clu_flags(self.side)] = clu::flags(flags, overflow);
    }
}

impl Despread {
    /// How many TR registers it reads and stores.
    pub fn width(&self) -> u8 {
        match self.form {
            Despreading::Accumulate | Despreading::Replace { .. } => 1,
            Despreading::ReplacePair { .. } => 2,
        }
    }

    fn fetch(&self, shifts: bool, state: &State) -> DespreadOperands {
        let side = usize::from(self.side);
        let width = usize::from(self.width());
        let target = usize::from(self.target);
        let mut old = [0; 2];
        old[..width].copy_from_slice(&state.tr[side][target..target + width]);
        DespreadOperands {
            data: take(&state.r[side], self.data),
            codes: take(&state.thr[side], self.codes),
            shifts,
            old,
            flags: state.flags[clu_flags(self.side)],
        }
    }

    fn store(&self, operands: &DespreadOperands, state: &mut State) {
        let side = usize::from(self.side);
        let target = usize::from(self.target);
        let overflow = match self.form {
            Despreading::Accumulate => {
                let sums = clu::despread(operands.data, operands.codes[0], 0, 8);
                let (value, overflow) = clu::add_shorts(operands.old[0], sums);
                state.tr[side][target] = value;
                overflow
            }
            Despreading::Replace { old } => {
                state.r[side][usize::from(old)] = operands.old[0];
                state.tr[side][target] = clu::despread(operands.data, operands.codes[0], 0, 8);
                false
            }
            Despreading::ReplacePair { old } => {
                state.r[side][usize::from(old)..][..2].copy_from_slice(&operands.old);
                state.tr[side][target] = clu::despread(operands.data, operands.codes[0], 0, 4);
                state.tr[side][target + 1] = clu::despread(operands.data, operands.codes[0], 4, 8);
                false
            }
        };
        if operands.shifts {
            let shifted = clu::shift_codes(operands.codes);
            state.thr[side][usize::from(self.codes)..][..2].copy_from_slice(&shifted);
        }
        state.flags[clu_flags(self.side)] = clu::flags(operands.flags, overflow);
    }
}

impl Transfer {
    fn fetch(&self, state: &State) -> [u32; 2] {
        let side = usize::from(self.side);
        let first = usize::from(self.first);
        match self.route {
            Route::ToTr => [state.r[side][first], 0],
            Route::ToThrPair => take(&state.r[side], self.first),
            Route::FromTr => [state.tr[side][first], 0],
        }
    }

    fn store(&self, words: [u32; 2], state: &mut State) {
        let side = usize::from(self.side);
        let target = usize::from(self.target);
        match self.route {
            Route::ToTr => state.tr[side][target] = words[0],
            Route::ToThrPair => state.thr[side][target..target + 2].copy_from_slice(&words),
            Route::FromTr => state.r[side][target] = words[0],
        }
    }
}

impl Ialu {
    fn fetch(&self, state: &State) -> [u32; 2] {
        [
            state.ialu(self.side, self.first),
            state.operand(self.side, self.second),
        ]
    }

    fn store(&self, [first, second]: [u32; 2], state: &mut State) {
        let (value, flags) = word::ialu(self.op, first, second);
        state.set_ialu(self.side, self.target, value);
        state.flags[ialu_flags(self.side)] = flags;
    }
}

impl SetBuffer {
    fn store(&self, value: u32, state: &mut State) {
        let file = match self.register {
            BufferRegister::Base => &mut state.base,
            BufferRegister::Length => &mut state.length,
        };
        file[usize::from(self.side)][usize::from(self.target)] = value;
    }
}
