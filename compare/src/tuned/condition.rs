//! Whether a slot is live: its seventh word, looked up in a table.

use super::fetch::Slot;
use super::state::{flags, State};

/// The highest seventh word: 12 conditions, each by its number plus 1.
pub const HIGHEST: u32 = 12;

/// The parts of the machine that hold the flags of J and of K, as bits beside those of the
/// registers.
pub const J_FLAGS: u8 = 32;
pub const K_FLAGS: u8 = 64;
pub const FLAGS: u8 = J_FLAGS | K_FLAGS;

/// For each seventh word, a bit for each Z + 2 N: always, then EQ LT LE NEQ NLT NLE of J and of K.
static HOLDS: [u8; 16] = [15, 10, 12, 14, 5, 3, 1, 10, 12, 14, 5, 3, 1, 0, 0, 0];

/// For each seventh word, the part that it reads.
static PARTS: [u8; 16] = parts();

const fn parts() -> [u8; 16] {
    let mut parts = [0; 16];
    let mut word = 1;
    while word <= HIGHEST as usize {
        parts[word] = if word <= 6 { J_FLAGS } else { K_FLAGS };
        word += 1;
    }
    parts
}

/// Whether a slot's condition holds in a state.
#[inline(always)]
pub fn is_live(&[.., word]: &Slot, state: &State) -> bool {
    if word == 0 {
        return true;
    }
    let unit = if word <= 6 { 7 } else { 8 };
    HOLDS[word as usize % HOLDS.len()] >> (state.at(flags(unit)) % 4) & 1 != 0
}

/// The part that a slot's condition reads; none where there is no condition.
#[inline(always)]
pub fn condition_part(&[.., word]: &Slot) -> u8 {
    PARTS[word as usize % PARTS.len()]
}
