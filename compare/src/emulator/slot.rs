//! Slots as they run: when each is done, and what each unit's slots name.

use super::clu::{Choice, Lanes};
use super::condition::When;
use super::machine::State;
use super::word::{AluOp, IaluOp, ShiftOp};

pub const SLOT_WORDS: usize = 7;

/// A slot: its unit's number, 1 to 10, when it is done, and what it does there.
#[derive(Clone, Copy, PartialEq, Eq, Debug)]
pub struct Slot {
    pub unit: u8,
    pub when: When,
    pub action: Action,
}

/// What a slot does. `side` is 0 for block X or IALU J, 1 for block Y or IALU K.
#[derive(Clone, Copy, PartialEq, Eq, Debug)]
pub enum Action {
    Alu(Alu),
    Shift(Shift),
    TestBit(TestBit),
    Select(Select),
    Tmax(Tmax),
    Despread(Despread),
    Transfer(Transfer),
    Ialu(Ialu),
    CircularAdd(CircularAdd),
    SetBuffer(SetBuffer),
    Access(Access),
    DabLoad(DabLoad),
}

/// `second` is absent where the op uses first only.
#[derive(Clone, Copy, PartialEq, Eq, Debug)]
pub struct Alu {
    pub side: u8,
    pub op: AluOp,
    pub target: u8,
    pub first: u8,
    pub second: Option<u8>,
}

#[derive(Clone, Copy, PartialEq, Eq, Debug)]
pub struct Shift {
    pub side: u8,
    pub op: ShiftOp,
    pub target: u8,
    pub first: u8,
    pub second: Option<u8>,
}

#[derive(Clone, Copy, PartialEq, Eq, Debug)]
pub struct TestBit {
    pub side: u8,
    pub first: u8,
    pub second: u8,
}

/// CLU ops 1-8 on a pair of TR registers and an R quad.
#[derive(Clone, Copy, PartialEq, Eq, Debug)]
pub struct Select {
    pub side: u8,
    pub lanes: Lanes,
    pub choice: Choice,
    pub subtract: bool,
    pub target: u8,
    pub first: u8,
    pub second: u8,
    pub quad: u8,
}

/// CLU ops 9 and 10.
#[derive(Clone, Copy, PartialEq, Eq, Debug)]
pub struct Tmax {
    pub side: u8,
    pub lanes: Lanes,
    pub target: u8,
    pub first: u8,
    pub second: u8,
}

/// What DESPREAD does with its sums.
#[derive(Clone, Copy, PartialEq, Eq, Debug)]
pub enum Despreading {
    /// Op 11: adds them to TR target.
    Accumulate,
    /// Op 12: puts them in TR target, whose old value goes to R `old`.
    Replace { old: u8 },
    /// Op 13: the same on pairs.
    ReplacePair { old: u8 },
}

/// CLU ops 11-13: data is an R quad, codes a THR pair.
#[derive(Clone, Copy, PartialEq, Eq, Debug)]
pub struct Despread {
    pub side: u8,
    pub form: Despreading,
    pub target: u8,
    pub data: u8,
    pub codes: u8,
}

#[derive(Clone, Copy, PartialEq, Eq, Debug)]
pub enum Route {
    ToTr,
    ToThrPair,
    FromTr,
}

#[derive(Clone, Copy, PartialEq, Eq, Debug)]
pub struct Transfer {
    pub side: u8,
    pub route: Route,
    pub target: u8,
    pub first: u8,
}

/// The second operand of an IALU slot.
#[derive(Clone, Copy, PartialEq, Eq, Debug)]
pub enum Operand {
    Absent,
    Register(u8),
    Immediate(u32),
}

#[derive(Clone, Copy, PartialEq, Eq, Debug)]
pub struct Ialu {
    pub side: u8,
    pub op: IaluOp,
    pub target: u8,
    pub first: u8,
    pub second: Operand,
}

#[derive(Clone, Copy, PartialEq, Eq, Debug)]
pub struct CircularAdd {
    pub side: u8,
    pub target: u8,
    pub index: u8,
    pub modifier: Operand,
}

#[derive(Clone, Copy, PartialEq, Eq, Debug)]
pub enum BufferRegister {
    Base,
    Length,
}

#[derive(Clone, Copy, PartialEq, Eq, Debug)]
pub struct SetBuffer {
    pub side: u8,
    pub register: BufferRegister,
    pub target: u8,
    pub first: u8,
}

#[derive(Clone, Copy, PartialEq, Eq, Debug)]
pub enum Direction {
    Load,
    Store,
}

/// How an access finds its address and updates its index; only pre-modify leaves it as it is.
#[derive(Clone, Copy, PartialEq, Eq, Debug)]
pub enum Addressing {
    PostModify,
    PreModify,
    Circular,
    BitReversed,
}

/// The register file at the other end of a memory access.
#[derive(Clone, Copy, PartialEq, Eq, Debug)]
pub enum File {
    Block(u8),
    Ialu(u8),
}

#[derive(Clone, Copy, PartialEq, Eq, Debug)]
pub struct Access {
    pub side: u8,
    pub direction: Direction,
    pub addressing: Addressing,
    pub index: u8,
    pub modifier: Operand,
    pub width: u8,
    pub file: File,
    pub number: u8,
}

/// IALU ops 24 and 25: a quad of any alignment into R of a block, through the block's data
/// alignment buffer. The modifier is 4 in every line that keeps rule 16.
#[derive(Clone, Copy, PartialEq, Eq, Debug)]
pub struct DabLoad {
    pub side: u8,
    pub block: u8,
    pub target: u8,
    pub index: u8,
    pub modifier: u32,
}

impl Slot {
    /// Whether its condition holds. A slot that is not live reads no place but the condition's
    /// flags, stores none, and is refused for nothing in a run.
    pub fn is_live(&self, state: &State) -> bool {
        self.when.holds(state)
    }

    /// A wide slot takes two positions: its immediate does not fit in a signed byte.
    pub fn is_wide(&self) -> bool {
        let operand = match &self.action {
            Action::Ialu(slot) => slot.second,
            Action::CircularAdd(slot) => slot.modifier,
            Action::Access(slot) => slot.modifier,
            Action::DabLoad(slot) => Operand::Immediate(slot.modifier),
            _ => return false,
        };
        match operand {
            Operand::Immediate(imm) => i8::try_from(imm as i32).is_err(),
            Operand::Absent | Operand::Register(_) => false,
        }
    }
}
