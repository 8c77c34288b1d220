//! Random slots that keep rule 3, with addresses that mostly suit the state before their line.

use super::values;
use crate::emulator::slot::SLOT_WORDS;
use crate::emulator::State;
use crate::prng::Rng;

pub type SlotWords = [u32; SLOT_WORDS];

/// How many ops each unit has; unit 0 does not exist.
pub const OPS: [u32; 11] = [0, 12, 12, 9, 9, 13, 13, 25, 25, 3, 3];
/// The IALUs' ops that rule 9 is about.
pub const CIRCULAR_OPS: [u32; 5] = [13, 21, 22, 24, 25];
/// The last of the IALUs' ops that need no alignment buffer.
const LAST_WITHOUT_DAB: u32 = 23;

/// What lines are drawn for: the machine before them, how many slots of a hundred get a condition,
/// and how many of an IALU go through an alignment buffer.
#[derive(Clone, Copy)]
pub struct Setting<'a> {
    pub state: &'a State,
    pub memory_words: usize,
    pub conditions: u32,
    pub dab_loads: u32,
}

/// What the slots of a line are chosen by.
pub struct Scene<'a> {
    pub state: &'a State,
    pub memory_words: usize,
    pub conditions: u32,
    pub dab_loads: u32,
    /// The quad that a crowded line takes its registers from, so that its slots meet.
    pub crowd: Option<u32>,
}

impl Scene<'_> {
    /// Any slot of a unit.
    pub fn slot_of(&self, rng: &mut Rng, unit: u32) -> SlotWords {
        let op = if matches!(unit, 7 | 8) {
            self.ialu_op(rng)
        } else {
            rng.between(1, OPS[unit as usize])
        };
        self.slot(rng, unit, op)
    }

    /// Accesses need care, so that they are drawn more often than other ops.
    fn ialu_op(&self, rng: &mut Rng) -> u32 {
        if self.dab_loads > 0 && rng.chance(self.dab_loads) {
            rng.between(LAST_WITHOUT_DAB + 1, 25)
        } else if rng.chance(40) {
            rng.between(17, LAST_WITHOUT_DAB)
        } else {
            rng.between(1, LAST_WITHOUT_DAB)
        }
    }

    /// A slot without a condition.
    pub fn slot(&self, rng: &mut Rng, unit: u32, op: u32) -> SlotWords {
        let [target, first, second, imm] = match unit {
            1 | 2 => self.alu(rng, op),
            3 | 4 => self.shifter(rng, op),
            5 | 6 => self.clu(rng, op),
            7 | 8 => self.ialu(rng, unit as usize - 7, op),
            _ => self.transfer(rng, op),
        };
        [unit, op, target, first, second, imm, 0]
    }

    /// A register number that is a multiple of `width`.
    pub fn register(&self, rng: &mut Rng, width: u32) -> u32 {
        match self.crowd {
            Some(quad) => quad + width * rng.below(4 / width),
            None => width * rng.below(32 / width),
        }
    }

    fn alu(&self, rng: &mut Rng, op: u32) -> [u32; 4] {
        let [target, first, second] = [(); 3].map(|()| self.register(rng, 1));
        match op {
            8..=10 => [target, first, 0, 0],
            _ => [target, first, second, 0],
        }
    }

    fn shifter(&self, rng: &mut Rng, op: u32) -> [u32; 4] {
        let [target, first, second] = [(); 3].map(|()| self.register(rng, 1));
        match op {
            7 => [0, first, second, 0],
            8 | 9 => [target, first, 0, 0],
            _ => [target, first, second, 0],
        }
    }

    fn clu(&self, rng: &mut Rng, op: u32) -> [u32; 4] {
        let codes = 2 * rng.below(2);
        match op {
            1..=8 => [2, 2, 2, 4].map(|width| self.register(rng, width)),
            9 | 10 => {
                let [target, first, second] = [(); 3].map(|()| self.register(rng, 1));
                [target, first, second, 0]
            }
            11 => [self.register(rng, 1), self.register(rng, 4), codes, 0],
            12 => {
                let [target, old] = [(); 2].map(|()| self.register(rng, 1));
                [target, self.register(rng, 4), codes, old]
            }
            _ => {
                let [target, old] = [(); 2].map(|()| self.register(rng, 2));
                [target, self.register(rng, 4), codes, old]
            }
        }
    }

    fn transfer(&self, rng: &mut Rng, op: u32) -> [u32; 4] {
        if op == 2 {
            return [2 * rng.below(2), self.register(rng, 2), 0, 0];
        }
        [self.register(rng, 1), self.register(rng, 1), 0, 0]
    }

    fn ialu(&self, rng: &mut Rng, side: usize, op: u32) -> [u32; 4] {
        let target = self.ialu_target(rng);
        let first = self.ialu_source(rng);
        match op {
            8..=12 => [target, first, 0, 0],
            13 => {
                let [index, second, imm] = self.circular(rng, side, 1);
                [target, index, second, imm]
            }
            15 | 16 => [rng.below(4), first, 0, 0],
            17..=23 => self.access(rng, side, op),
            24 | 25 => self.dab_load(rng, side),
            _ => {
                let [second, imm] = self.operand(rng);
                [target, first, second, imm]
            }
        }
    }

    /// Mostly a high register, for the low ones hold addresses.
    fn ialu_target(&self, rng: &mut Rng) -> u32 {
        match (self.crowd, rng.below(10)) {
            (_, 0) => 31,
            (Some(quad), 1..=6) => quad + rng.below(4),
            (_, 7) => rng.below(31),
            _ => rng.between(12, 30),
        }
    }

    fn ialu_source(&self, rng: &mut Rng) -> u32 {
        match (self.crowd, rng.below(10)) {
            (_, 0) => 31,
            (Some(quad), 1..=6) => quad + rng.below(4),
            _ => rng.below(32),
        }
    }

    /// A register, or an immediate, which is sometimes wide.
    fn operand(&self, rng: &mut Rng) -> [u32; 2] {
        match rng.below(10) {
            0..=3 => [self.ialu_source(rng), 0],
            4..=5 => [32, rng.signed(-128, 127)],
            6..=7 => [32, rng.pick(&[1, 2, 4, 8, 16, 0, 127, 0xFFFF_FF80])],
            8 => [32, rng.pick(&[128, 129, 0xFFFF_FF7F, 255, 1 << 31, 4096])],
            _ => [32, values::word(rng)],
        }
    }

    fn access(&self, rng: &mut Rng, side: usize, op: u32) -> [u32; 4] {
        let width = rng.pick(&[1, 2, 4]);
        let target = self.range(rng, width);
        let [first, second, imm] = match op {
            17 | 19 => self.post_modify(rng, side, width, 31),
            18 | 20 => self.pre_modify(rng, side, width),
            21 | 22 => self.circular(rng, side, width),
            _ => self.bit_reversed(rng, side, width),
        };
        [target, first, second, imm]
    }

    /// The registers of an access, encoded.
    pub fn range(&self, rng: &mut Rng, width: u32) -> u32 {
        let file = rng.below(4);
        let number = if file < 2 {
            self.register(rng, width)
        } else if rng.chance(50) {
            width * rng.below(4 / width)
        } else {
            width * rng.below(31 / width)
        };
        // A crowded quad may be the last one, whose end is register 31.
        let number = if file >= 2 && number + width > 31 {
            0
        } else {
            number
        };
        65_536 * width + 256 * file + number
    }

    pub fn fits(&self, address: u32, width: u32) -> bool {
        address.is_multiple_of(width) && (address as usize + width as usize) <= self.memory_words
    }

    /// An index below `bound` that holds a valid address, if a few draws find one.
    fn index(&self, rng: &mut Rng, side: usize, width: u32, bound: u32) -> u32 {
        let mut index = rng.below(bound);
        for _ in 0..8 {
            if self.fits(self.state.ialu(side as u8, index as u8), width) {
                break;
            }
            index = rng.below(bound);
        }
        index
    }

    fn post_modify(&self, rng: &mut Rng, side: usize, width: u32, bound: u32) -> [u32; 3] {
        let index = self.index(rng, side, width, bound);
        let [second, imm] = if rng.chance(70) {
            [32, rng.signed(-3, 3).wrapping_mul(width)]
        } else {
            self.operand(rng)
        };
        [index, second, imm]
    }

    /// An immediate that leads to a valid address, or two registers whose sum is one.
    fn pre_modify(&self, rng: &mut Rng, side: usize, width: u32) -> [u32; 3] {
        let value = |register: u32| self.state.ialu(side as u8, register as u8);
        if rng.chance(50) {
            for _ in 0..12 {
                let [first, second] = [(); 2].map(|()| rng.below(32));
                if self.fits(value(first).wrapping_add(value(second)), width) {
                    return [first, second, 0];
                }
            }
        }
        let index = if rng.chance(40) {
            31
        } else {
            self.index(rng, side, width, 31)
        };
        let address = values::address(rng, self.memory_words) / width * width;
        [index, 32, address.wrapping_sub(value(index))]
    }

    /// A circular index and a modifier within its buffer.
    fn circular(&self, rng: &mut Rng, side: usize, width: u32) -> [u32; 3] {
        let mut choice = [0; 3];
        for _ in 0..8 {
            let index = rng.below(4);
            let length = self.state.length[side][index as usize];
            let [second, imm] = self.circular_modifier(rng, length, width);
            choice = [index, second, imm];
            let modifier = if second == 32 {
                imm
            } else {
                self.state.ialu(side as u8, second as u8)
            };
            let at = self.state.ialu(side as u8, index as u8);
            let buffer = self.state.buffer(side as u8, index as u8);
            if buffer.allows(at, modifier, width, self.memory_words) && self.fits(at, width) {
                break;
            }
        }
        choice
    }

    fn circular_modifier(&self, rng: &mut Rng, length: u32, width: u32) -> [u32; 2] {
        let steps = (length / width).min(1000) as i32;
        match rng.below(10) {
            0..=1 => [self.ialu_source(rng), 0],
            2 => [32, length],
            3 => [32, length.wrapping_neg()],
            4..=8 => [32, rng.signed(-steps, steps).wrapping_mul(width)],
            _ => self.operand(rng),
        }
    }

    fn bit_reversed(&self, rng: &mut Rng, side: usize, width: u32) -> [u32; 3] {
        let index = self.index(rng, side, width, 4);
        let [second, imm] = if rng.chance(60) {
            [32, 1 << rng.below(14)]
        } else {
            self.operand(rng)
        };
        [index, second, imm]
    }
}
