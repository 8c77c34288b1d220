//! Counts what the cases reach: codes, ops, fields, conditions, wraps, alignment buffers, orders and
//! the corners that matter.

mod conditions;
mod dab;
mod ends;
mod observe;
mod refusals;
mod table;

use crate::emulator::condition::CONDITIONS;
use crate::emulator::Report;
use crate::generate::intent::DIRECTORY_FAULTS;
use crate::generate::slots::CIRCULAR_OPS;

/// The calls whose codes are counted.
pub const CALLS: [&str; 4] = [
    "check of bytes",
    "check of words",
    "plain run",
    "ordered run",
];
/// The codes of all calls together.
const CODES: [usize; 15] = [0, 1, 2, 3, 4, 5, 6, 7, 8, 9, 10, 11, 15, 16, 17];
const HIGHEST_CODE: usize = 17;
/// The highest code of each call but 15 and 16, which all have, and 17, which runs have.
const HIGHEST_OTHER: [usize; 4] = [7, 7, 10, 11];
/// The calls from this one on are the runs.
const FIRST_RUN: usize = 2;
pub const PLAIN: usize = 0;
pub const ORDERED: usize = 1;
/// One more than the highest op of a unit.
const OP_NUMBERS: usize = 26;
const CIRCULAR_KINDS: [&str; 4] = [
    "length 0",
    "inside",
    "wraps at the end",
    "wraps at the base",
];
/// The kinds of an index that steps forward: all but the last.
const FORWARD_KINDS: usize = 3;
const FIELDS: [&str; 6] = ["unit", "op", "target", "first", "second", "imm"];

macro_rules! features {
    ($($name:ident: $text:expr,)+) => {
        /// Something that must occur, counted by itself.
        #[derive(Clone, Copy, PartialEq, Eq, Debug)]
        pub enum Feature { $($name,)+ }
        const FEATURES: &[&str] = &[$($text,)+];
    };
}

features! {
    NoLines: "image without lines",
    Gaps: "gaps in the image",
    FullImage: "image of 16,384 words, accepted",
    LongImage: "image too long",
    LongMemory: "memory too long",
    NoMemory: "memory of 0 words",
    FullMemory: "memory of 16,384 words",
    BrokenWord: "bytes that end in a broken word",
    FullBytes: "65,536 bytes, accepted",
    LongBytes: "over 65,536 bytes",
    WrongLength: "state or report of a wrong length",
    SecondWide: "4: second wide slot",
    FivePositions: "4: one wide slot and three others",
    TwiceByTwo: "7: register stored by two slots",
    TwiceByOne: "7: register stored twice by one slot",
    TwiceByBuffer: "7: one alignment buffer, J and K",
    TwiceByQuad: "7: R of an alignment buffer's quad",
    TwoRules: "line that breaks two of rules 4 to 7",
    FieldAndCondition: "line that breaks 3 and 15",
    ConditionBeforeField: "the same, 15 in an earlier slot",
    ConditionAndPositions: "line that breaks 15 and 4",
    ConditionAndUnit: "line that breaks 15 and 5",
    ConditionAndBlock: "line that breaks 15 and 6",
    ConditionAndTwice: "line that breaks 15 and 7",
    LateCondition: "15: not in slot 0",
    TwoConditions: "15: in two slots",
    FieldAndModifier: "line that breaks 3 and 16",
    ModifierBeforeField: "the same, 16 in an earlier slot",
    ConditionAndModifier: "line that breaks 15 and 16",
    ModifierBeforeCondition: "the same, 16 in an earlier slot than 15",
    ModifierAndPositions: "line that breaks 16 and 4",
    ModifierAndUnit: "line that breaks 16 and 5",
    ModifierAndBlock: "line that breaks 16 and 6",
    ModifierAndTwice: "line that breaks 16 and 7",
    LateModifier: "16: not in slot 0",
    TwoModifiers: "16: in two slots",
    StepBack: "16: modifier -4",
    WideModifier: "16: a wide modifier",
    QuadStartLinear: "17: length 0",
    QuadStartCircular: "17: length above 0",
    BufferAndQuadStart: "line that breaks both 9 and 17",
    QuadStartBeforeBuffer: "the same, 17 in an earlier slot",
    QuadStartAndAccess: "line that breaks both 17 and 8",
    AccessBeforeQuadStart: "the same, 8 in an earlier slot",
    QuadPastMemory: "8: quad for an alignment buffer past memory",
    ShortBuffer: "9: ops 24 and 25, length below 4",
    Unaligned: "8: not aligned",
    PastMemory: "8: past memory",
    TwoTests: "line that breaks both 9 and 8",
    Wide: "wide slot",
    Narrow: "narrow immediate",
    LoadWins: "THR load beside DESPREAD",
    LiveAccess: "8: the slot's condition holds",
    LiveBuffer: "9: the slot's condition holds",
    LiveQuadStart: "17: the slot's condition holds",
    LiveClash: "10: the slot's condition holds",
    OwnFlags: "slot that stores its condition's flags",
    SparedAccess: "not live: would be 8",
    SparedBuffer: "not live: would be 9",
    SparedQuadStart: "not live: would be 17",
    SparedClash: "not live: would be 10",
    SparedFlags: "not live: would store its condition's flags",
    LateFetch: "not live: operand stored before its fetch",
    EarlyStore: "not live: its place fetched after its store",
    EarlyLoad: "not live: THR load stored before DESPREAD",
    KLoadJStore: "K load beside J store of the word",
    JLoadKStore: "J load beside K store of the word",
    WholeLength: "circular modifier as long as the buffer",
    Target31: "IALU result sent to register 31",
    First31: "IALU register 31 as first",
    Second31: "IALU register 31 as second",
    Index31: "IALU register 31 as index",
    AddHigh: "saturating add, high",
    AddLow: "saturating add, low",
    SubtractHigh: "saturating subtract, high",
    SubtractLow: "saturating subtract, low",
    TrsovKept: "TRSOV kept while TROV is 0",
    FarLeft: "shift left by 32 or more",
    FarRight: "shift right by 32 or more",
    FarthestRight: "shift right by 2^31",
    Crossed: "crossed order, line done",
    DabFetchLate: "24 or 25 fetched after another slot's store",
    DabStoreEarly: "24 or 25 stored before another slot's fetch",
    LimitZero: "limit 0",
    LimitInside: "limit inside a line",
    LimitInsideDab: "limit inside a line with 24 or 25",
    LimitSteps: "limit at the plain run's steps",
    LimitAbove: "limit one above them",
    LimitBelow: "limit one below them",
    LimitHigh: "limit above 32 bits",
    ShortOrders: "11: too few order bytes",
    LongOrders: "11: too many order bytes",
    Repeated: "11: a step that is missing or repeated",
    UnknownStep: "11: a byte that names no step",
    Tail: "11: a tail that is not 255",
    StoreFirst: "11: a store before its own fetch",
    ConflictR: "11: a fetch after a store of its R",
    ConflictTr: "11: a fetch after a store of its TR",
    ConflictThr: "11: a fetch after a store of its THR",
    ConflictIalu: "11: a fetch after a store of its J or K",
    ConflictMemory: "11: a fetch after a store of its word",
    DabWordLate: "11: 24 or 25 after a store of its word",
    DabQuadStored: "11: a fetch after 24 or 25 stored its R",
    DabIndexStored: "11: a fetch after 24 or 25 stored its index",
    TrueEnds: "ends that all come in true",
    FalseEndUsed: "false end of a buffer that line 0 uses",
    FalseEndOrders: "11: wrong length of orders, a false end",
    FalseEndKept: "255 with a false end, which is kept",
    EndRenewed: "end changed by the lines of a run",
    HighEnd: "end above 32 bits after a run",
}

pub struct Coverage {
    cases: u64,
    codes: [[u64; HIGHEST_CODE + 1]; 4],
    /// By run and code, the cases in which an end comes in false.
    false_ends: [[u64; HIGHEST_CODE + 1]; 2],
    /// By run and number, conditions that fail and that hold.
    conditions: [[[u64; 2]; CONDITIONS]; 2],
    /// By run, a live DESPREAD beside a conditional load that is not live or live, without and with
    /// a store of the load's flags on the line.
    loads: [[[u64; 2]; 2]; 2],
    /// Orders refused for a flag group alone: by whose condition reads it, the slot's or that of
    /// DESPREAD's load, whether that one fails or holds, and the IALU.
    late_flags: [[[u64; 2]; 2]; 2],
    /// Accesses through an alignment buffer: by run, IALU, block, position of the index from 1 to 3,
    /// and how the index turns.
    dab_loads: [[[[[u64; FORWARD_KINDS]; 3]; 2]; 2]; 2],
    /// Those that are not live: by run, IALU and block.
    idle_dab_loads: [[[u64; 2]; 2]; 2],
    ops: [[u64; OP_NUMBERS]; 11],
    ordered_ops: [[u64; OP_NUMBERS]; 11],
    fields: [[[u64; 6]; OP_NUMBERS]; 11],
    directory: [u64; DIRECTORY_FAULTS.len()],
    circular: [[u64; CIRCULAR_KINDS.len()]; CIRCULAR_OPS.len()],
    buffer: [[u64; 6]; CIRCULAR_OPS.len()],
    /// By IALU, direction, file and width.
    accesses: [[[[u64; 3]; 4]; 2]; 2],
    /// CLU ops 1-11 whose sum saturates.
    saturated: [u64; 12],
    features: [u64; FEATURES.len()],
}

impl Default for Coverage {
    fn default() -> Coverage {
        Coverage {
            cases: 0,
            codes: [[0; HIGHEST_CODE + 1]; 4],
            false_ends: [[0; HIGHEST_CODE + 1]; 2],
            conditions: [[[0; 2]; CONDITIONS]; 2],
            loads: [[[0; 2]; 2]; 2],
            late_flags: [[[0; 2]; 2]; 2],
            dab_loads: [[[[[0; FORWARD_KINDS]; 3]; 2]; 2]; 2],
            idle_dab_loads: [[[0; 2]; 2]; 2],
            ops: [[0; OP_NUMBERS]; 11],
            ordered_ops: [[0; OP_NUMBERS]; 11],
            fields: [[[0; 6]; OP_NUMBERS]; 11],
            directory: [0; DIRECTORY_FAULTS.len()],
            circular: [[0; CIRCULAR_KINDS.len()]; CIRCULAR_OPS.len()],
            buffer: [[0; 6]; CIRCULAR_OPS.len()],
            accesses: [[[[0; 3]; 4]; 2]; 2],
            saturated: [0; 12],
            features: [0; FEATURES.len()],
        }
    }
}

/// The codes that a call can answer.
fn codes_of(call: usize) -> impl Iterator<Item = usize> {
    let has = move |&code: &usize| match code {
        15 | 16 => true,
        17 => call >= FIRST_RUN,
        _ => code <= HIGHEST_OTHER[call],
    };
    CODES.into_iter().filter(has)
}

/// What the emulator's four calls answered.
pub struct Answers {
    pub bytes: u32,
    pub check: (u32, u32, u32),
    pub plain: Report,
    pub ordered: Report,
}

impl Coverage {
    pub fn note(&mut self, feature: Feature) {
        self.features[feature as usize] += 1;
    }

    fn note_if(&mut self, condition: bool, feature: Feature) {
        if condition {
            self.note(feature);
        }
    }
}
