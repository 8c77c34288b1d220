//! Words, states and memories that reach the corners: extremes, near misses, valid addresses.

use crate::emulator::address::Buffer;
use crate::emulator::machine::{BUFFERS, MEMORY_WORDS};
use crate::emulator::State;
use crate::prng::Rng;

const EXTREMES: [u32; 16] = [
    0,
    1,
    u32::MAX,
    0x7FFF_FFFF,
    0x8000_0000,
    0x7FFF_7FFF,
    0x8000_8000,
    0x7FFF_8000,
    0x8000_7FFF,
    0x0000_7FFF,
    0x0000_8000,
    0xFFFF_8000,
    0xFFFF_0000,
    0x0000_FFFF,
    0x7F7F_7F7F,
    0x8080_8080,
];

/// A word as operands should be: mostly near something that matters.
pub fn word(rng: &mut Rng) -> u32 {
    match rng.below(8) {
        0 => rng.signed(-8, 8),
        1 => rng.pick(&EXTREMES),
        2 => rng.pick(&EXTREMES).wrapping_add(rng.signed(-40, 40)),
        3 => 1 << rng.below(32),
        // Two such differ by about as much as the TMAX table is long.
        4 => rng.signed(-150, 150),
        5 => rng.signed(-150, 150) & 0xFFFF | rng.signed(-150, 150) << 16,
        6 => rng.signed(-70, 70),
        _ => rng.word(),
    }
}

/// An address inside memory, mostly aligned for every width.
pub fn address(rng: &mut Rng, memory_words: usize) -> u32 {
    let words = memory_words as u32;
    if words < 4 {
        return rng.below(words.max(1));
    }
    match rng.below(10) {
        0 => rng.below(words),
        1 => 2 * rng.below(words / 2),
        _ => 4 * rng.below(words / 4),
    }
}

/// Memory of some length up to the longest, holding words and addresses.
pub fn memory(rng: &mut Rng) -> Vec<u32> {
    let words = match rng.weighted(&[30, 30, 30, 4, 20, 3, 2]) {
        0 => rng.between(16, 64),
        1 => 128,
        2 => 256,
        3 => 0,
        4 => rng.between(1, 300),
        5 => 2048,
        _ => MEMORY_WORDS as u32,
    } as usize;
    let mut memory = Vec::with_capacity(words);
    for _ in 0..words {
        let value = if rng.chance(30) {
            address(rng, words)
        } else {
            word(rng)
        };
        memory.push(value);
    }
    memory
}

/// A state whose IALU registers are mostly valid addresses and whose buffers mostly hold their
/// indices.
pub fn state(rng: &mut Rng, memory_words: usize) -> State {
    let mut state = State::ZERO;
    let blocks = state.r.iter_mut().chain(&mut state.tr).flatten();
    for register in blocks.chain(state.thr.iter_mut().flatten()) {
        *register = word(rng);
    }
    for register in state.ialu.iter_mut().flatten() {
        *register = if rng.chance(70) {
            address(rng, memory_words)
        } else {
            word(rng)
        };
    }
    for side in 0..2 {
        for index in 0..4 {
            buffer(rng, &mut state, side, index, memory_words);
        }
    }
    for group in &mut state.flags {
        *group = if rng.chance(20) {
            rng.word()
        } else {
            rng.below(16)
        };
    }
    state
}

/// Sets up one circular buffer: valid, switched off, or anything.
fn buffer(rng: &mut Rng, state: &mut State, side: usize, index: usize, memory_words: usize) {
    let quads = memory_words as u32 / 4;
    match rng.below(10) {
        0..=5 if quads > 0 => {
            let length = rng.between(1, quads.min(6));
            let base = rng.below(quads - length + 1);
            state.base[side][index] = 4 * base;
            state.length[side][index] = 4 * length;
            state.ialu[side][index] = 4 * (base + rng.below(length));
        }
        6..=8 => state.base[side][index] = word(rng),
        _ => {
            state.base[side][index] = address(rng, memory_words);
            state.length[side][index] = if rng.chance(50) {
                rng.below(24)
            } else {
                word(rng)
            };
        }
    }
}

/// The ends that a caller brings in with a state: true, left 0, or each by itself and mostly false.
pub fn ends(rng: &mut Rng, state: &State) -> [u64; BUFFERS] {
    match rng.below(10) {
        0 => state.ends(),
        1 => [0; BUFFERS],
        _ => std::array::from_fn(|number| {
            let [side, index] = [number as u8 / 4, number as u8 % 4];
            let other = rng.below(4) as u8;
            end(rng, state.buffer(side, index), state.buffer(side, other))
        }),
    }
}

/// An end: true, near it, stale from before the base or the length was set, with a wrong high word,
/// or anything.
fn end(rng: &mut Rng, buffer: Buffer, before: Buffer) -> u64 {
    let end = buffer.end();
    let Buffer { base, length } = before;
    match rng.below(7) {
        0 => end,
        1 => end.wrapping_add_signed(i64::from(rng.signed(-8, 8) as i32)),
        2 => Buffer { base, ..buffer }.end(),
        3 => Buffer { length, ..buffer }.end(),
        4 => end ^ 1 << 32,
        5 => u64::from(word(rng)),
        _ => rng.long(),
    }
}
