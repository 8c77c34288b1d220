//! One table of all ops for the check: what their fields may be, and which registers they store.

use super::counts::weight;

/// How a slot's fields are looked at.
#[derive(Clone, Copy, PartialEq, Eq)]
pub enum Family {
    /// Barred bits say all; at most the target is stored.
    Plain,
    /// Second and imm are an operand; target is a register of the IALU.
    Ialu,
    /// An access, whose target is a range of any file or has an alignment buffer before it, or
    /// DESPREAD where imm is stored too.
    Special,
}

/// The files of which a line may store no register twice, as numbers.
pub const R: u8 = 0;
pub const TR: u8 = 1;
pub const IALU: u8 = 2;
/// The data alignment buffers, one a block.
pub const DAB: u8 = 3;
/// Of a slot that stores no register which another slot of its line could store, and so has no ones
/// to put in a set. So it is with bases and lengths, and with THR, since DESPREAD stores none that
/// its line loads.
const OTHER: u8 = DAB;
pub const FILES: usize = 4;

#[derive(Clone, Copy)]
pub struct Shape {
    /// The bits that must be 0: of target and first, and of second and imm, each time the former in
    /// the low half.
    pub barred: [u64; 2],
    /// What the slot adds to its line's counts.
    pub weight: u64,
    pub family: Family,
    /// The file of the target, and as many ones as registers of it are stored.
    pub file: u8,
    pub ones: u8,
    /// As many ones as registers of R are stored from imm on.
    pub old: u8,
    /// 0 for X and J, 32 for Y and K: where the side's registers begin in a set.
    pub side: u8,
    /// Of an access.
    pub loads: bool,
    pub updates: bool,
    /// Of an access through an alignment buffer: second is 32, and imm has a rule of its own.
    pub aligns: bool,
}

const REGISTER: u32 = !31;
const EVEN: u32 = !30;
const QUAD: u32 = !28;
const THR_PAIR: u32 = !2;
const BUFFER: u32 = !3;
const UNUSED: u32 = !0;
/// A register or 32; whether imm is then an immediate is looked at apart.
const OPERAND: u32 = !63;
const IMMEDIATE: u32 = 0;
/// Of an encoded target, all but the width, two bits of file and five of number.
const ENCODED: u32 = 0x0000_FCE0;

const UNITS: usize = 16;
const OPS: usize = 32;

static SHAPES: [Shape; UNITS * OPS] = shapes();

/// The shape of an op. Some unknown ops have one too, which no fields fit.
#[inline(always)]
pub fn shape(unit: u32, op: u32) -> Option<&'static Shape> {
    // One test for both: units from 16 on and ops from 32 on are unknown.
    if unit | op >> 1 >= UNITS as u32 {
        return None;
    }
    Some(&SHAPES[(unit << 5 | op) as usize % SHAPES.len()])
}

const fn shapes() -> [Shape; UNITS * OPS] {
    let mut shapes = [UNKNOWN; UNITS * OPS];
    let mut unit = 1;
    while unit <= 10 {
        let mut op = 0;
        while op < OPS {
            let shape = match unit {
                1 | 2 => alu(op),
                3 | 4 => shifter(op),
                5 | 6 => clu(op),
                7 | 8 => ialu(op),
                _ => transfer(op),
            };
            shapes[unit * OPS + op] = Shape {
                side: if unit % 2 == 0 { 32 } else { 0 },
                weight: weight(unit),
                ..shape
            };
            op += 1;
        }
        unit += 1;
    }
    shapes
}

/// An access whose target must be 0, which is no access's target.
const UNKNOWN: Shape = Shape {
    barred: [u64::MAX; 2],
    weight: 0,
    family: Family::Special,
    file: OTHER,
    ones: 0,
    old: 0,
    side: 0,
    loads: false,
    updates: false,
    aligns: false,
};

/// Two fields as one number.
#[inline(always)]
pub const fn pair(low: u32, high: u32) -> u64 {
    low as u64 | (high as u64) << 32
}

const fn fields(family: Family, [target, first, second, imm]: [u32; 4]) -> Shape {
    Shape {
        barred: [pair(target, first), pair(second, imm)],
        family,
        ..UNKNOWN
    }
}

const fn plain(barred: [u32; 4]) -> Shape {
    fields(Family::Plain, barred)
}

const fn storing(file: u8, ones: u8, shape: Shape) -> Shape {
    Shape {
        file,
        ones,
        ..shape
    }
}

const TWO_OPERANDS: Shape = storing(R, 1, plain([REGISTER, REGISTER, REGISTER, UNUSED]));
const ONE_OPERAND: Shape = storing(R, 1, plain([REGISTER, REGISTER, UNUSED, UNUSED]));

const fn alu(op: usize) -> Shape {
    match op {
        1..=7 | 11 | 12 => TWO_OPERANDS,
        8..=10 => ONE_OPERAND,
        _ => UNKNOWN,
    }
}

const fn shifter(op: usize) -> Shape {
    match op {
        1..=6 => TWO_OPERANDS,
        7 => plain([UNUSED, REGISTER, REGISTER, UNUSED]),
        8 | 9 => ONE_OPERAND,
        _ => UNKNOWN,
    }
}

const fn clu(op: usize) -> Shape {
    match op {
        1..=8 => storing(TR, 0b11, plain([EVEN, EVEN, EVEN, QUAD])),
        9 | 10 => TWO_OPERANDS,
        11 => storing(TR, 1, plain([REGISTER, QUAD, THR_PAIR, UNUSED])),
        12 => despread(1, [REGISTER, QUAD, THR_PAIR, REGISTER]),
        13 => despread(0b11, [EVEN, QUAD, THR_PAIR, EVEN]),
        _ => UNKNOWN,
    }
}

/// As many old sums go to R as new ones to TR.
const fn despread(ones: u8, barred: [u32; 4]) -> Shape {
    Shape {
        old: ones,
        ..storing(TR, ones, fields(Family::Special, barred))
    }
}

const fn transfer(op: usize) -> Shape {
    match op {
        1 => storing(TR, 1, ONE_OPERAND),
        2 => plain([THR_PAIR, EVEN, UNUSED, UNUSED]),
        3 => ONE_OPERAND,
        _ => UNKNOWN,
    }
}

const fn ialu(op: usize) -> Shape {
    match op {
        1..=7 | 14 => on_ialu([REGISTER, REGISTER, OPERAND, IMMEDIATE]),
        8..=12 => on_ialu([REGISTER, REGISTER, UNUSED, UNUSED]),
        13 => on_ialu([REGISTER, BUFFER, OPERAND, IMMEDIATE]),
        15 | 16 => plain([BUFFER, REGISTER, UNUSED, UNUSED]),
        17..=20 => access(op, REGISTER),
        21..=23 => access(op, BUFFER),
        24 | 25 => DAB_LOAD,
        _ => UNKNOWN,
    }
}

const DAB_LOAD: Shape = Shape {
    loads: true,
    updates: true,
    aligns: true,
    ..fields(Family::Special, [QUAD, BUFFER, OPERAND, IMMEDIATE])
};

const fn on_ialu(barred: [u32; 4]) -> Shape {
    storing(IALU, 1, fields(Family::Ialu, barred))
}

const fn access(op: usize, first: u32) -> Shape {
    Shape {
        loads: matches!(op, 17 | 18 | 21 | 23),
        updates: matches!(op, 17 | 19 | 21..=23),
        ..fields(Family::Special, [ENCODED, first, OPERAND, IMMEDIATE])
    }
}
