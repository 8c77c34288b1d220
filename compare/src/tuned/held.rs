//! What a slot's fetch leaves for its store: the results, which need nothing but what it fetched.

use super::state::{flags, Machine, NOWHERE};

/// What a store puts where, if not one word in one place.
#[derive(Clone, Copy)]
enum Kind {
    Pair,
    Quad,
    Memory1,
    Memory2,
    Memory4,
    /// The sum of a DESPREAD, with an old sum and its codes.
    Sum,
    /// The same with two sums.
    Sums,
    /// Four words delivered from an alignment buffer, and the quad that it keeps.
    Delivered,
}

/// Results and their places. Only what the kind names has a meaning.
#[derive(Clone, Copy)]
pub struct Held {
    /// Most slots leave one word, so this is kept apart from the other kinds and asked first.
    is_one: bool,
    kind: Kind,
    place: u8,
    beside_place: u8,
    old_place: u8,
    kept_place: u8,
    address: u32,
    beside: u32,
    words: [u32; 4],
    /// The codes of a DESPREAD, or the quad of an alignment buffer.
    kept: [u32; 4],
}

/// One more word that a slot stores: its flags, or the index after an access.
#[derive(Clone, Copy)]
pub struct Beside {
    pub place: u8,
    pub word: u32,
}

impl Beside {
    pub const NOTHING: Beside = Beside {
        place: NOWHERE,
        word: 0,
    };

    #[inline(always)]
    pub fn flags(unit: usize, word: u32) -> Beside {
        Beside {
            place: flags(unit),
            word,
        }
    }
}

impl Held {
    pub const NOTHING: Held = Held {
        is_one: true,
        kind: Kind::Pair,
        place: NOWHERE,
        beside_place: NOWHERE,
        old_place: NOWHERE,
        kept_place: NOWHERE,
        address: 0,
        beside: 0,
        words: [0; 4],
        kept: [0; 4],
    };

    #[inline(always)]
    fn set_kind(&mut self, kind: Kind) {
        self.is_one = false;
        self.kind = kind;
    }

    #[inline(always)]
    fn set_beside(&mut self, beside: Beside) {
        self.beside_place = beside.place;
        self.beside = beside.word;
    }

    #[inline(always)]
    pub fn set_one(&mut self, place: u8, word: u32, beside: Beside) {
        self.is_one = true;
        self.place = place;
        self.words[0] = word;
        self.set_beside(beside);
    }

    #[inline(always)]
    pub fn set_pair(&mut self, place: u8, [a, b]: [u32; 2], beside: Beside) {
        self.set_kind(Kind::Pair);
        self.place = place;
        self.words[0] = a;
        self.words[1] = b;
        self.set_beside(beside);
    }

    #[inline(always)]
    pub fn set_quad(&mut self, place: u8, words: [u32; 4], beside: Beside) {
        self.set_kind(Kind::Quad);
        self.place = place;
        self.words = words;
        self.set_beside(beside);
    }

    /// The store will do nothing.
    #[inline(always)]
    pub fn set_nothing(&mut self) {
        self.set_one(NOWHERE, 0, Beside::NOTHING);
    }

    /// 1, 2 or 4 words for memory.
    #[inline(always)]
    pub fn set_memory<const N: usize>(&mut self, address: u32, words: [u32; N], beside: Beside) {
        self.set_kind(match N {
            1 => Kind::Memory1,
            2 => Kind::Memory2,
            _ => Kind::Memory4,
        });
        self.address = address;
        self.words[..N].copy_from_slice(&words);
        self.set_beside(beside);
    }

    /// One or two sums of a DESPREAD, as many old ones, and the codes after it.
    #[inline(always)]
    pub fn set_sums<const N: usize>(
        &mut self,
        (place, sums): (u8, [u32; N]),
        (old_place, old): (u8, [u32; N]),
        (codes_place, codes): (u8, [u32; 2]),
        flags: Beside,
    ) {
        self.set_kind(if N == 1 { Kind::Sum } else { Kind::Sums });
        self.place = place;
        self.words[..N].copy_from_slice(&sums);
        self.old_place = old_place;
        self.words[2..2 + N].copy_from_slice(&old);
        self.kept_place = codes_place;
        self.kept[..2].copy_from_slice(&codes);
        self.set_beside(flags);
    }

    /// Words for R, and a quad for an alignment buffer.
    #[inline(always)]
    pub fn set_delivered(
        &mut self,
        (place, words): (u8, [u32; 4]),
        (buffer, quad): (u8, [u32; 4]),
        index: Beside,
    ) {
        self.set_kind(Kind::Delivered);
        self.place = place;
        self.words = words;
        self.kept_place = buffer;
        self.kept = quad;
        self.set_beside(index);
    }

    #[inline(always)]
    pub fn store(&self, machine: &mut Machine) {
        let state = &mut *machine.state;
        let [a, b, c, d] = self.words;
        let [low, high, ..] = self.kept;
        state.set(self.beside_place, self.beside);
        if self.is_one {
            state.set(self.place, a);
            return;
        }
        match self.kind {
            Kind::Pair => state.set_pair(self.place, [a, b]),
            Kind::Quad => state.set_quad(self.place, [a, b, c, d]),
            Kind::Memory1 => put(machine.memory, self.address, [a]),
            Kind::Memory2 => put(machine.memory, self.address, [a, b]),
            Kind::Memory4 => put(machine.memory, self.address, [a, b, c, d]),
            Kind::Sum => {
                state.set(self.place, a);
                state.set(self.old_place, c);
                state.set_pair(self.kept_place, [low, high]);
            }
            Kind::Sums => {
                state.set_pair(self.place, [a, b]);
                state.set_pair(self.old_place, [c, d]);
                state.set_pair(self.kept_place, [low, high]);
            }
            Kind::Delivered => {
                state.set_quad(self.place, [a, b, c, d]);
                state.set_quad(self.kept_place, self.kept);
            }
        }
    }
}

/// The line's tests have found the words in memory.
#[inline(always)]
fn put<const N: usize>(memory: &mut [u32], address: u32, words: [u32; N]) {
    let address = address as usize;
    if let Some(place) = memory.get_mut(address..address + N) {
        place.copy_from_slice(&words);
    }
}
