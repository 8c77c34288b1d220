//! One table of all ops for the orders: which registers their fields name. Left out are those on
//! which no order can turn: bases, lengths and a block's flags, which only one unit uses, alignment
//! buffers, which only one slot of a line uses, and the THR pair that DESPREAD stores. The flags of
//! an IALU, which conditions read, are a part of their own.

use super::fetch::Slot;

/// The registers that an op's fields name in the unit's own part, as ones to be shifted to the
/// number in the field. A block's R are the low bits and its TR the high ones.
#[derive(Clone, Copy)]
pub struct Names {
    reads: Fields,
    stores: Fields,
    pub access: Access,
    /// Of a THR pair: second's, or target's.
    pub reads_codes: bool,
    pub stores_codes: bool,
}

#[derive(Clone, Copy)]
struct Fields {
    target: u64,
    first: u64,
    second: u64,
    imm: u64,
}

#[derive(Clone, Copy, PartialEq, Eq)]
pub enum Access {
    None,
    Load,
    Store,
}

impl Names {
    #[inline(always)]
    pub fn reads(&self, &[_, _, target, first, second, imm, _]: &Slot) -> u64 {
        let names = &self.reads;
        names.target << (target % 64)
            | names.first << (first % 64)
            | names.second << (second % 64)
            | names.imm << (imm % 64)
    }

    #[inline(always)]
    pub fn stores(&self, &[_, _, target, first, _, imm, _]: &Slot) -> u64 {
        let names = &self.stores;
        names.target << (target % 64) | names.first << (first % 64) | names.imm << (imm % 64)
    }
}

const KINDS: usize = 8;
const OPS: usize = 32;

static NAMES: [Names; KINDS * OPS] = table();

/// The units of both sides share their names.
#[inline(always)]
pub fn names(&[unit, op, ..]: &Slot) -> &'static Names {
    &NAMES[(unit.div_ceil(2) << 5 | op) as usize % NAMES.len()]
}

const fn table() -> [Names; KINDS * OPS] {
    let mut table = [NOTHING; KINDS * OPS];
    let mut op = 0;
    while op < OPS {
        table[OPS + op] = alu(op);
        table[2 * OPS + op] = shifter(op);
        table[3 * OPS + op] = clu(op);
        table[4 * OPS + op] = ialu(op);
        table[5 * OPS + op] = transfer(op);
        op += 1;
    }
    table
}

const NO_FIELDS: Fields = Fields {
    target: 0,
    first: 0,
    second: 0,
    imm: 0,
};

const NOTHING: Names = Names {
    reads: NO_FIELDS,
    stores: NO_FIELDS,
    access: Access::None,
    reads_codes: false,
    stores_codes: false,
};

const R1: u64 = 0b1;
const R2: u64 = 0b11;
const R4: u64 = 0b1111;
const TR1: u64 = R1 << 32;
const TR2: u64 = R2 << 32;
/// Register 31 may stand in these sets, for no range holds it.
const IALU1: u64 = 0b1;

const fn operands(first: u64, second: u64) -> Fields {
    Fields {
        first,
        second,
        ..NO_FIELDS
    }
}

const fn target(target: u64) -> Fields {
    Fields {
        target,
        ..NO_FIELDS
    }
}

const fn names_of(reads: Fields, stores: Fields) -> Names {
    Names {
        reads,
        stores,
        ..NOTHING
    }
}

const fn alu(op: usize) -> Names {
    let second = if matches!(op, 8..=10) { 0 } else { R1 };
    names_of(operands(R1, second), target(R1))
}

const fn shifter(op: usize) -> Names {
    match op {
        7 => names_of(operands(R1, R1), NO_FIELDS),
        8 | 9 => names_of(operands(R1, 0), target(R1)),
        _ => names_of(operands(R1, R1), target(R1)),
    }
}

const fn clu(op: usize) -> Names {
    match op {
        9 | 10 => names_of(operands(TR1, TR1), target(R1)),
        11 => despread(TR1, 0),
        12 => despread(TR1, R1),
        13 => despread(TR2, R2),
        _ => {
            let reads = Fields {
                imm: R4,
                ..operands(TR2, TR2)
            };
            names_of(reads, target(TR2))
        }
    }
}

const fn despread(sums: u64, imm: u64) -> Names {
    let reads = Fields {
        first: R4,
        ..target(sums)
    };
    let stores = Fields {
        imm,
        ..target(sums)
    };
    Names {
        reads_codes: true,
        ..names_of(reads, stores)
    }
}

const fn transfer(op: usize) -> Names {
    match op {
        1 => names_of(operands(R1, 0), target(TR1)),
        2 => Names {
            stores_codes: true,
            ..names_of(operands(R2, 0), NO_FIELDS)
        },
        _ => names_of(operands(TR1, 0), target(R1)),
    }
}

const fn ialu(op: usize) -> Names {
    let second = match op {
        8..=12 | 15 | 16 | 24 | 25 => 0,
        _ => IALU1,
    };
    let stores = match op {
        1..=14 => target(IALU1),
        17 | 19 | 21..=25 => operands(IALU1, 0),
        _ => NO_FIELDS,
    };
    let access = match op {
        17 | 18 | 21 | 23..=25 => Access::Load,
        19 | 20 | 22 => Access::Store,
        _ => Access::None,
    };
    Names {
        access,
        ..names_of(operands(IALU1, second), stores)
    }
}
