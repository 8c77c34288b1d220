//! Reads a slot from its words: rule 3, whether each field is one that the op can have.

use super::clu::{Choice, Lanes};
use super::condition::When;
use super::slot::{
    Access, Action, Addressing, Alu, BufferRegister, CircularAdd, DabLoad, Despread, Despreading,
    Direction, File, Ialu, Operand, Route, Select, SetBuffer, Shift, Slot, TestBit, Tmax, Transfer,
    SLOT_WORDS,
};
use super::word::{AluOp, IaluOp, ShiftOp};

impl Slot {
    /// The slot that the first six words are; nothing when they break rule 3. The seventh is read
    /// by itself, after rule 3 over the whole line.
    pub fn read(words: &[u32; SLOT_WORDS]) -> Option<Slot> {
        let &[unit, op, target, first, second, imm, _] = words;
        let fields = Fields {
            side: (unit.wrapping_sub(1) % 2) as u8,
            op,
            target,
            first,
            second,
            imm,
        };
        let action = match unit {
            1 | 2 => fields.alu(),
            3 | 4 => fields.shifter(),
            5 | 6 => fields.clu(),
            7 | 8 => fields.ialu_unit(),
            9 | 10 => fields.transfer(),
            _ => None,
        }?;
        Some(Slot {
            unit: unit as u8,
            when: When::Always,
            action,
        })
    }
}

/// The words that rule 3 is about after the unit, with the side that the unit names.
struct Fields {
    side: u8,
    op: u32,
    target: u32,
    first: u32,
    second: u32,
    imm: u32,
}

impl Fields {
    fn alu(&self) -> Option<Action> {
        let op = AluOp::numbered(self.op)?;
        unused(self.imm)?;
        Some(Action::Alu(Alu {
            side: self.side,
            op,
            target: register(self.target)?,
            first: register(self.first)?,
            second: self.second_unless(matches!(self.op, 8..=10))?,
        }))
    }

    fn shifter(&self) -> Option<Action> {
        if self.op == 7 {
            return self.test_bit();
        }
        let op = ShiftOp::numbered(self.op)?;
        unused(self.imm)?;
        Some(Action::Shift(Shift {
            side: self.side,
            op,
            target: register(self.target)?,
            first: register(self.first)?,
            second: self.second_unless(matches!(self.op, 8 | 9))?,
        }))
    }

    fn test_bit(&self) -> Option<Action> {
        unused(self.target)?;
        unused(self.imm)?;
        Some(Action::TestBit(TestBit {
            side: self.side,
            first: register(self.first)?,
            second: register(self.second)?,
        }))
    }

    fn clu(&self) -> Option<Action> {
        match self.op {
            1..=8 => self.select(),
            9 => self.tmax(Lanes::Word),
            10 => self.tmax(Lanes::Shorts),
            11 => {
                unused(self.imm)?;
                self.despread(Despreading::Accumulate, register(self.target)?)
            }
            12 => {
                let old = register(self.imm)?;
                self.despread(Despreading::Replace { old }, register(self.target)?)
            }
            13 => {
                let old = aligned(self.imm, 2)?;
                self.despread(Despreading::ReplacePair { old }, aligned(self.target, 2)?)
            }
            _ => None,
        }
    }

    fn select(&self) -> Option<Action> {
        let (lanes, op) = if self.op <= 4 {
            (Lanes::Word, self.op)
        } else {
            (Lanes::Shorts, self.op - 4)
        };
        Some(Action::Select(Select {
            side: self.side,
            lanes,
            choice: if op <= 2 { Choice::Tmax } else { Choice::Max },
            subtract: op.is_multiple_of(2),
            target: aligned(self.target, 2)?,
            first: aligned(self.first, 2)?,
            second: aligned(self.second, 2)?,
            quad: aligned(self.imm, 4)?,
        }))
    }

    fn tmax(&self, lanes: Lanes) -> Option<Action> {
        unused(self.imm)?;
        Some(Action::Tmax(Tmax {
            side: self.side,
            lanes,
            target: register(self.target)?,
            first: register(self.first)?,
            second: register(self.second)?,
        }))
    }

    fn despread(&self, form: Despreading, target: u8) -> Option<Action> {
        Some(Action::Despread(Despread {
            side: self.side,
            form,
            target,
            data: aligned(self.first, 4)?,
            codes: thr_pair(self.second)?,
        }))
    }

    fn transfer(&self) -> Option<Action> {
        unused(self.second)?;
        unused(self.imm)?;
        let (route, target, first) = match self.op {
            1 => (Route::ToTr, register(self.target)?, register(self.first)?),
            2 => (
                Route::ToThrPair,
                thr_pair(self.target)?,
                aligned(self.first, 2)?,
            ),
            3 => (Route::FromTr, register(self.target)?, register(self.first)?),
            _ => return None,
        };
        Some(Action::Transfer(Transfer {
            side: self.side,
            route,
            target,
            first,
        }))
    }

    fn ialu_unit(&self) -> Option<Action> {
        match self.op {
            1..=12 | 14 => self.ialu(),
            13 => Some(Action::CircularAdd(CircularAdd {
                side: self.side,
                target: register(self.target)?,
                index: buffer_number(self.first)?,
                modifier: self.operand()?,
            })),
            15 => self.set_buffer(BufferRegister::Base),
            16 => self.set_buffer(BufferRegister::Length),
            17..=23 => self.access(),
            24 => self.dab_load(0),
            25 => self.dab_load(1),
            _ => None,
        }
    }

    fn ialu(&self) -> Option<Action> {
        let op = IaluOp::numbered(self.op)?;
        let second = if matches!(self.op, 8..=12) {
            self.no_operand()?
        } else {
            self.operand()?
        };
        Some(Action::Ialu(Ialu {
            side: self.side,
            op,
            target: register(self.target)?,
            first: register(self.first)?,
            second,
        }))
    }

    fn set_buffer(&self, register_kind: BufferRegister) -> Option<Action> {
        self.no_operand()?;
        Some(Action::SetBuffer(SetBuffer {
            side: self.side,
            register: register_kind,
            target: buffer_number(self.target)?,
            first: register(self.first)?,
        }))
    }

    fn access(&self) -> Option<Action> {
        let (direction, addressing) = match self.op {
            17 => (Direction::Load, Addressing::PostModify),
            18 => (Direction::Load, Addressing::PreModify),
            19 => (Direction::Store, Addressing::PostModify),
            20 => (Direction::Store, Addressing::PreModify),
            21 => (Direction::Load, Addressing::Circular),
            22 => (Direction::Store, Addressing::Circular),
            23 => (Direction::Load, Addressing::BitReversed),
            _ => return None,
        };
        let index = match addressing {
            // Register 31 cannot take the updated index.
            Addressing::PostModify => register(self.first).filter(|&index| index != 31)?,
            Addressing::PreModify => register(self.first)?,
            Addressing::Circular | Addressing::BitReversed => buffer_number(self.first)?,
        };
        let (width, file, number) = encoded_range(self.target)?;
        Some(Action::Access(Access {
            side: self.side,
            direction,
            addressing,
            index,
            modifier: self.operand()?,
            width,
            file,
            number,
        }))
    }

    /// An immediate modifies the index; whether it is 4 is rule 16's to tell.
    fn dab_load(&self, block: u8) -> Option<Action> {
        let Operand::Immediate(modifier) = self.operand()? else {
            return None;
        };
        Some(Action::DabLoad(DabLoad {
            side: self.side,
            block,
            target: aligned(self.target, 4)?,
            index: buffer_number(self.first)?,
            modifier,
        }))
    }

    /// The second register of a block's slot; where `unused_here`, it must be 0.
    fn second_unless(&self, unused_here: bool) -> Option<Option<u8>> {
        if unused_here {
            unused(self.second)?;
            Some(None)
        } else {
            register(self.second).map(Some)
        }
    }

    fn operand(&self) -> Option<Operand> {
        if self.second == 32 {
            return Some(Operand::Immediate(self.imm));
        }
        unused(self.imm)?;
        register(self.second).map(Operand::Register)
    }

    fn no_operand(&self) -> Option<Operand> {
        unused(self.second)?;
        unused(self.imm)?;
        Some(Operand::Absent)
    }
}

fn unused(word: u32) -> Option<()> {
    (word == 0).then_some(())
}

fn register(word: u32) -> Option<u8> {
    (word < 32).then_some(word as u8)
}

fn aligned(word: u32, width: u32) -> Option<u8> {
    register(word).filter(|_| word.is_multiple_of(width))
}

fn thr_pair(word: u32) -> Option<u8> {
    matches!(word, 0 | 2).then_some(word as u8)
}

fn buffer_number(word: u32) -> Option<u8> {
    (word < 4).then_some(word as u8)
}

/// The registers at the other end of an access: 65,536 x width + 256 x file + number.
fn encoded_range(target: u32) -> Option<(u8, File, u8)> {
    let (width, file, number) = (target >> 16, target >> 8 & 0xFF, target & 0xFF);
    if !matches!(width, 1 | 2 | 4) {
        return None;
    }
    let number = aligned(number, width)?;
    let file = match file {
        0 | 1 => File::Block(file as u8),
        2 | 3 => File::Ialu(file as u8 - 2),
        _ => return None,
    };
    // IALU register 31 is no place to load or store.
    if matches!(file, File::Ialu(_)) && u32::from(number) + width > 31 {
        return None;
    }
    Some((width as u8, file, number))
}
