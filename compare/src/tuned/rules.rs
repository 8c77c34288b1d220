//! Rules 3, 15, 16 and 4 to 7 in one pass over a line's slots: sets of stored registers, and packed
//! counts. Conditions count as met.

use super::condition::HIGHEST;
use super::counts::{
    START, TOO_MANY, TOO_MANY_OF_BLOCK, TOO_MANY_OF_UNIT, TOO_MANY_POSITIONS, WIDER,
};
use super::image::Word;
use super::places::encoded_range;
use super::shape::{pair, shape, Family, Shape, DAB, FILES, IALU, R};
use crate::emulator::slot::SLOT_WORDS;
use crate::emulator::Code;

/// What the slots so far add up to.
struct Total {
    counts: u64,
    /// The registers stored, a set a file.
    stored: [u64; FILES],
}

/// A rule that a slot breaks by itself or by the registers that it stores. Where it breaks several,
/// the first of these is named.
#[derive(PartialEq, Eq)]
enum Fault {
    Field,
    Modifier,
    StoredTwice,
}

/// Whether a line keeps all rules.
#[inline(always)]
pub fn passes<W: Word>(line: &[W]) -> bool {
    let mut total = Total::NOTHING;
    let mut rest = line;
    while let Some((slot, others)) = rest.split_first_chunk() {
        if total.add(slot).is_err() || !has_condition(slot) {
            return false;
        }
        rest = others;
    }
    total.counts & TOO_MANY == 0
}

/// The first rule that a line breaks, each tested over the whole line before the next, and the
/// first slot s such that slots 0 to s already break it.
#[cold]
pub fn broken_rule<W: Word>(line: &[W]) -> (Code, usize) {
    type Test<W> = fn(&[W; SLOT_WORDS], &Total, Result<(), Fault>) -> bool;
    let rules: [(Code, Test<W>); 7] = [
        (Code::Field, |_, _, added| added == Err(Fault::Field)),
        (Code::SlotCondition, |slot, _, _| !has_condition(slot)),
        (Code::Modifier, |_, _, added| added == Err(Fault::Modifier)),
        (Code::Positions, |_, total, _| {
            total.counts & TOO_MANY_POSITIONS != 0
        }),
        (Code::Unit, |_, total, _| {
            total.counts & TOO_MANY_OF_UNIT != 0
        }),
        (Code::Block, |_, total, _| {
            total.counts & TOO_MANY_OF_BLOCK != 0
        }),
        (Code::StoredTwice, |_, _, added| {
            added == Err(Fault::StoredTwice)
        }),
    ];
    for (code, is_broken) in rules {
        let mut total = Total::NOTHING;
        let broken = line.as_chunks().0.iter().position(|slot| {
            let added = total.add(slot);
            is_broken(slot, &total, added)
        });
        if let Some(slot) = broken {
            return (code, slot);
        }
    }
    unreachable!("a line that does not pass breaks a rule")
}

/// Whether the seventh word is 0 or that of a condition.
#[inline(always)]
fn has_condition<W: Word>(&[.., word]: &[W; SLOT_WORDS]) -> bool {
    word.number() <= HIGHEST
}

impl Total {
    const NOTHING: Total = Total {
        counts: START,
        stored: [0; FILES],
    };

    #[inline(always)]
    fn add<W: Word>(&mut self, slot: &[W; SLOT_WORDS]) -> Result<(), Fault> {
        let [unit, op, target, first, second, imm, _] = *slot;
        let shape = shape(unit.number(), op.number()).ok_or(Fault::Field)?;
        let (target, first) = (target.number(), first.number());
        let (second, imm) = (second.number(), imm.number());
        self.counts += shape.weight;
        require(pair(target, first) & shape.barred[0] == 0, Fault::Field)?;
        match shape.family {
            Family::Plain => {
                require(pair(second, imm) & shape.barred[1] == 0, Fault::Field)?;
                self.store(shape.file, registers(shape.ones, shape.side, target))
            }
            Family::Ialu => {
                self.add_operand(shape, second, imm)?;
                // Register 31 is no place, but no other slot could name it.
                self.store(IALU, registers(1, shape.side, target))
            }
            Family::Special if shape.old != 0 => {
                require(pair(second, imm) & shape.barred[1] == 0, Fault::Field)?;
                self.store(R, registers(shape.old, shape.side, imm))?;
                self.store(shape.file, registers(shape.ones, shape.side, target))
            }
            Family::Special if shape.aligns => {
                require(second == 32, Fault::Field)?;
                require(imm == 4, Fault::Modifier)?;
                let op = op.number();
                self.store(DAB, registers(1, 0, op % 2))?;
                self.add_access(shape, encoded_range(op, target), first)
            }
            Family::Special => {
                self.add_operand(shape, second, imm)?;
                self.add_access(shape, target, first)
            }
        }
    }

    /// Second is a register, or 32 and then imm an immediate.
    #[inline(always)]
    fn add_operand(&mut self, shape: &Shape, second: u32, imm: u32) -> Result<(), Fault> {
        let barred = shape.barred[1] as u32;
        if second != 32 {
            return require(second & (barred | 32) | imm == 0, Fault::Field);
        }
        if i8::try_from(imm as i32).is_err() {
            self.counts += WIDER;
        }
        require(barred & 32 == 0, Fault::Field)
    }

    #[inline(always)]
    fn add_access(&mut self, shape: &Shape, target: u32, first: u32) -> Result<(), Fault> {
        let width = target >> 16;
        require(matches!(width, 1 | 2 | 4), Fault::Field)?;
        // The number's bits below the width; and a range up to 32 in files 2 and 3, which have bit
        // 9 set.
        let wrong = target & (width - 1) | (target + width) & target >> 4 & 32;
        require(wrong == 0, Fault::Field)?;
        if shape.updates {
            require(first != 31, Fault::Field)?;
            self.store(IALU, registers(1, shape.side, first))?;
        }
        if !shape.loads {
            return Ok(());
        }
        // Bit 8 of the target tells the file's side, bit 9 the kind of file.
        let loaded = ((1 << width) - 1) << (target & 31 | target >> 3 & 32);
        let file = if target & 0x200 == 0 { R } else { IALU };
        self.store(file, loaded)
    }

    #[inline(always)]
    fn store(&mut self, file: u8, registers: u64) -> Result<(), Fault> {
        let stored = &mut self.stored[usize::from(file) % FILES];
        require(*stored & registers == 0, Fault::StoredTwice)?;
        *stored |= registers;
        Ok(())
    }
}

#[inline(always)]
fn require(holds: bool, fault: Fault) -> Result<(), Fault> {
    if holds {
        Ok(())
    } else {
        Err(fault)
    }
}

/// Registers of a side from a number on, as a set.
#[inline(always)]
fn registers(ones: u8, side: u8, number: u32) -> u64 {
    u64::from(ones) << ((u32::from(side) | number) % 64)
}
