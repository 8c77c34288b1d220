//! The machine's state, and sets of its places.

use super::address::Buffer;
use super::slot::{File, Operand};
use std::ops::Range;

pub const MEMORY_WORDS: usize = 16_384;
pub const STATE_WORDS: usize = 246;
/// Both IALUs' circular buffers.
pub const BUFFERS: usize = 8;
/// The ends of the buffers stand behind the flags: low word, then high word.
pub const END: usize = 222;
pub const END_WORDS: usize = 2 * BUFFERS;
/// The data alignment buffers are the last words of a state: X's four, then Y's.
pub const DAB: usize = END + END_WORDS;

/// Registers and flags. The first index of a file is the side: block X or Y, IALU J or K.
/// Flag groups: X ALU, Y ALU, X shifter, Y shifter, X CLU, Y CLU, J, K; flags from the low bit up.
#[derive(Clone, Copy, PartialEq, Eq, Debug)]
pub struct State {
    pub r: [[u32; 32]; 2],
    pub tr: [[u32; 32]; 2],
    pub thr: [[u32; 4]; 2],
    pub ialu: [[u32; 31]; 2],
    pub base: [[u32; 4]; 2],
    pub length: [[u32; 4]; 2],
    pub flags: [u32; 8],
    /// The data alignment buffers: the quad that each block read last through its own.
    pub dab: [[u32; 4]; 2],
}

impl State {
    pub const ZERO: State = State {
        r: [[0; 32]; 2],
        tr: [[0; 32]; 2],
        thr: [[0; 4]; 2],
        ialu: [[0; 31]; 2],
        base: [[0; 4]; 2],
        length: [[0; 4]; 2],
        flags: [0; 8],
        dab: [[0; 4]; 2],
    };

    /// IALU register 31 is none: it reads as 0.
    pub fn ialu(&self, side: u8, number: u8) -> u32 {
        let file = &self.ialu[usize::from(side)];
        file.get(usize::from(number)).copied().unwrap_or(0)
    }

    /// A result sent to IALU register 31 is dropped.
    pub fn set_ialu(&mut self, side: u8, number: u8, value: u32) {
        let file = &mut self.ialu[usize::from(side)];
        if let Some(register) = file.get_mut(usize::from(number)) {
            *register = value;
        }
    }

    pub fn operand(&self, side: u8, operand: Operand) -> u32 {
        match operand {
            Operand::Absent => 0,
            Operand::Register(number) => self.ialu(side, number),
            Operand::Immediate(imm) => imm,
        }
    }

    pub fn buffer(&self, side: u8, index: u8) -> Buffer {
        let (side, index) = (usize::from(side), usize::from(index));
        Buffer {
            base: self.base[side][index],
            length: self.length[side][index],
        }
    }

    pub fn file(&self, file: File) -> &[u32] {
        match file {
            File::Block(side) => &self.r[usize::from(side)],
            File::Ialu(side) => &self.ialu[usize::from(side)],
        }
    }

    pub fn file_mut(&mut self, file: File) -> &mut [u32] {
        match file {
            File::Block(side) => &mut self.r[usize::from(side)],
            File::Ialu(side) => &mut self.ialu[usize::from(side)],
        }
    }

    /// The ends of J's buffers and then of K's. They are not held: a run returns each as base plus
    /// length of what it leaves.
    pub fn ends(&self) -> [u64; BUFFERS] {
        std::array::from_fn(|number| self.buffer(number as u8 / 4, number as u8 % 4).end())
    }

    /// The state as words, file after file with the ends among them, as they cross to other
    /// languages.
    pub fn to_words(&self) -> [u32; STATE_WORDS] {
        let mut state = *self;
        let mut words = [0; STATE_WORDS];
        let mut rest = &mut words[..];
        for file in state.files() {
            let (part, others) = rest.split_at_mut(file.len());
            part.copy_from_slice(file);
            rest = others;
        }
        words[END..DAB].copy_from_slice(&end_words(self.ends()));
        words[DAB..].copy_from_slice(self.dab.as_flattened());
        words
    }

    /// The words of the ends are not read.
    pub fn from_words(words: &[u32; STATE_WORDS]) -> State {
        let mut state = State::ZERO;
        let mut rest = &words[..];
        for file in state.files() {
            let (part, others) = rest.split_at(file.len());
            file.copy_from_slice(part);
            rest = others;
        }
        let buffers = state.dab.as_flattened_mut();
        buffers.copy_from_slice(&words[DAB..]);
        state
    }

    /// All that stands before the ends.
    fn files(&mut self) -> [&mut [u32]; 13] {
        let [rx, ry] = &mut self.r;
        let [trx, try_] = &mut self.tr;
        let [thrx, thry] = &mut self.thr;
        let [j, k] = &mut self.ialu;
        let [bj, bk] = &mut self.base;
        let [lj, lk] = &mut self.length;
        [
            rx,
            ry,
            trx,
            try_,
            thrx,
            thry,
            j,
            k,
            bj,
            bk,
            lj,
            lk,
            &mut self.flags,
        ]
    }
}

/// Ends as they stand in a state's words.
pub fn end_words(ends: [u64; BUFFERS]) -> [u32; END_WORDS] {
    std::array::from_fn(|word| (ends[word / 2] >> (32 * (word % 2))) as u32)
}

/// The register files of which places are told apart in a set, with the set's word and the bit at
/// which each file begins. Files of one word do not overlap.
#[derive(Clone, Copy, PartialEq, Eq, Debug)]
pub enum PlaceFile {
    R,
    Tr,
    Ialu,
    Thr,
    Base,
    Length,
    Flags,
    /// A buffer of four words is one place: number 0 of its block.
    Dab,
}

impl PlaceFile {
    fn position(self, side: u8, number: u8) -> (usize, u32) {
        let (side, number) = (u32::from(side), u32::from(number));
        match self {
            PlaceFile::R => (0, 32 * side + number),
            PlaceFile::Tr => (1, 32 * side + number),
            PlaceFile::Ialu => (2, 32 * side + number),
            PlaceFile::Thr => (3, 4 * side + number),
            PlaceFile::Base => (3, 8 + 4 * side + number),
            PlaceFile::Length => (3, 16 + 4 * side + number),
            PlaceFile::Flags => (3, 24 + number),
            PlaceFile::Dab => (3, 32 + side),
        }
    }
}

/// The places that a slot reads or stores: registers and flag groups as bits, memory words as a
/// range, for a slot touches at most one run of them.
#[derive(Clone, PartialEq, Eq, Debug, Default)]
pub struct Places {
    registers: [u64; 4],
    memory: Range<usize>,
}

impl Places {
    /// Adds registers of a file; answers whether none of them was there before.
    pub fn add(&mut self, file: PlaceFile, side: u8, number: u8, count: u8) -> bool {
        let (word, bit) = file.position(side, number);
        let mask = ((1 << count) - 1) << bit;
        let is_new = self.registers[word] & mask == 0;
        self.registers[word] |= mask;
        is_new
    }

    /// IALU register 31 is no place.
    pub fn add_ialu(&mut self, side: u8, number: u8) -> bool {
        number == 31 || self.add(PlaceFile::Ialu, side, number, 1)
    }

    /// The data alignment buffer of a block.
    pub fn add_dab(&mut self, block: u8) -> bool {
        self.add(PlaceFile::Dab, block, 0, 1)
    }

    /// The flag group of a unit that has one.
    pub fn add_flags(&mut self, unit: u8) -> bool {
        self.add(PlaceFile::Flags, 0, unit - 1, 1)
    }

    pub fn add_memory(&mut self, words: Range<usize>) {
        self.memory = words;
    }

    pub fn meets(&self, other: &Places) -> bool {
        let registers = self.registers.iter().zip(&other.registers);
        registers.into_iter().any(|(a, b)| a & b != 0) || self.shares_memory(other)
    }

    /// The registers and flag groups that both sets hold.
    pub fn common_registers(&self, other: &Places) -> Places {
        let mut common = Places::default();
        for (word, (a, b)) in self.registers.iter().zip(&other.registers).enumerate() {
            common.registers[word] = a & b;
        }
        common
    }

    pub fn shares_memory(&self, other: &Places) -> bool {
        overlap(&self.memory, &other.memory)
    }
}

/// Whether two ranges of memory words share one; an empty range starts at 0 and shares none.
pub fn overlap(a: &Range<usize>, b: &Range<usize>) -> bool {
    a.start < b.end && b.start < a.end
}
