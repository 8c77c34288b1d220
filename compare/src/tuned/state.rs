//! The machine: every register and flag group has its place in one array.

use super::fetch::Slot;
use crate::emulator::address::Buffer;
use crate::emulator::machine::{self, end_words, BUFFERS, STATE_WORDS};

/// Where the files begin. Both sides of a file stand together, block X or IALU J first.
const R: usize = 0;
const TR: usize = 64;
const IALU: usize = 128;
const THR: usize = 192;
const BASE: usize = 200;
const LENGTH: usize = 208;
const FLAGS: usize = 216;
const DAB: usize = 224;
/// Takes results that are dropped, and is never read; so is the place before it.
pub const NOWHERE: u8 = 255;

/// How many places one side of R, TR and the IALU registers has. IALU register 31 has one too,
/// which nothing stores, so that it stays 0.
const REGISTERS: usize = 32;
/// The same of THR, bases, lengths and alignment buffers.
const FEW: usize = 4;

pub const fn r(side: usize) -> usize {
    R + REGISTERS * side
}

pub const fn tr(side: usize) -> usize {
    TR + REGISTERS * side
}

pub const fn ialu(side: usize) -> usize {
    IALU + REGISTERS * side
}

pub const fn thr(side: usize) -> usize {
    THR + FEW * side
}

pub const fn base(side: usize) -> usize {
    BASE + FEW * side
}

pub const fn length(side: usize) -> usize {
    LENGTH + FEW * side
}

/// The first place of a block's alignment buffer.
pub const fn dab(block: usize) -> u8 {
    (DAB + FEW * block) as u8
}

/// The place of a unit's flags; transfers have none.
pub const fn flags(unit: usize) -> u8 {
    (FLAGS + unit - 1) as u8
}

/// The places of the words of a state as it crosses to other languages, up to the ends.
const FILES: [(usize, usize); 8] = [
    (R, 64),
    (TR, 64),
    (THR, 8),
    (IALU, 31),
    (IALU + REGISTERS, 31),
    (BASE, 8),
    (LENGTH, 8),
    (FLAGS, 8),
];

/// Registers and flags. A place is numbered by a byte, so that its index needs no test.
#[derive(Clone, Copy, Debug)]
pub struct State {
    places: [u32; 256],
}

impl State {
    /// The words of the ends are not read.
    pub fn from_words(words: &[u32; STATE_WORDS]) -> State {
        let mut places = [0; 256];
        let mut rest = &words[..];
        for (start, count) in FILES {
            let (file, others) = rest.split_at(count);
            places[start..start + count].copy_from_slice(file);
            rest = others;
        }
        places[DAB..DAB + 2 * FEW].copy_from_slice(&words[machine::DAB..]);
        State { places }
    }

    pub fn to_words(&self) -> [u32; STATE_WORDS] {
        let mut words = [0; STATE_WORDS];
        let mut rest = &mut words[..];
        for (start, count) in FILES {
            let (file, others) = rest.split_at_mut(count);
            file.copy_from_slice(&self.places[start..start + count]);
            rest = others;
        }
        words[machine::END..machine::DAB].copy_from_slice(&end_words(self.ends()));
        words[machine::DAB..].copy_from_slice(&self.places[DAB..DAB + 2 * FEW]);
        words
    }

    /// The ends of J's buffers and then of K's, which have no places.
    fn ends(&self) -> [u64; BUFFERS] {
        std::array::from_fn(|number| {
            let [base, length] = [BASE, LENGTH].map(|file| self.places[file + number]);
            Buffer { base, length }.end()
        })
    }

    #[inline(always)]
    pub fn at(&self, place: u8) -> u32 {
        self.places[usize::from(place)]
    }

    /// A register of one side of R, TR or the IALUs. Its number has been checked; the remainder
    /// only tells the compiler so.
    #[inline(always)]
    pub fn register(&self, file: usize, number: u32) -> u32 {
        self.places[file + number as usize % REGISTERS]
    }

    /// A register of one side of THR, bases or lengths.
    #[inline(always)]
    pub fn few(&self, file: usize, number: u32) -> u32 {
        self.places[file + number as usize % FEW]
    }

    /// Two words from an even place on.
    #[inline(always)]
    pub fn pair(&self, place: u8) -> [u32; 2] {
        let start = usize::from(place & !1);
        [self.places[start], self.places[start + 1]]
    }

    /// Four words from a place on that is a multiple of 4.
    #[inline(always)]
    pub fn quad(&self, place: u8) -> [u32; 4] {
        let [a, b] = self.pair(place & !3);
        let [c, d] = self.pair(place | 2);
        [a, b, c, d]
    }

    #[inline(always)]
    pub fn set(&mut self, place: u8, word: u32) {
        self.places[usize::from(place)] = word;
    }

    #[inline(always)]
    pub fn set_pair(&mut self, place: u8, words: [u32; 2]) {
        let start = usize::from(place & !1);
        self.places[start..start + 2].copy_from_slice(&words);
    }

    #[inline(always)]
    pub fn set_quad(&mut self, place: u8, words: [u32; 4]) {
        let start = usize::from(place & !3);
        self.places[start..start + 4].copy_from_slice(&words);
    }
}

/// The place of a register whose number has been checked.
#[inline(always)]
pub fn place(file: usize, number: u32) -> u8 {
    (file as u32 + number) as u8
}

/// What a run works on, and the line that it has come to.
pub struct Machine<'a> {
    pub state: &'a mut State,
    pub memory: &'a mut [u32],
    pub line: &'a [Slot],
}

impl<'a> Machine<'a> {
    pub fn new(state: &'a mut State, memory: &'a mut [u32]) -> Machine<'a> {
        Machine {
            state,
            memory,
            line: &[],
        }
    }
}
