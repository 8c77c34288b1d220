//! Whether a slot reads a register or flags that another slot of its line stores.

use super::condition::{J_FLAGS, K_FLAGS};
use super::fetch::Slot;
use super::names::{names, Access};

/// The parts of the machine as bits, in the order in which an access numbers their files: X, Y, J,
/// K; then memory, and the flags of J and of K.
pub const MEMORY: u8 = 16;

/// The part of each unit, as read and, in the high byte, as stored; an IALU may store flags too.
static OWN: [u16; 16] = [
    0, 0x101, 0x202, 0x101, 0x202, 0x101, 0x202, J, K, 0x101, 0x202, 0, 0, 0, 0, 0,
];
const J: u16 = 0x404 | (J_FLAGS as u16) << 8;
const K: u16 = 0x808 | (K_FLAGS as u16) << 8;

#[inline(always)]
pub fn own_parts(unit: u32) -> u16 {
    OWN[unit as usize % OWN.len()]
}

#[inline(always)]
fn own_part(unit: u32) -> u8 {
    own_parts(unit) as u8
}

/// The range of an access as most ops encode it; ops 24 and 25 have the number of a quad of R alone,
/// of X and of Y.
#[inline(always)]
pub fn encoded_range(op: u32, target: u32) -> u32 {
    match op {
        24 | 25 => 4 << 16 | (op - 24) << 8 | target,
        _ => target,
    }
}

/// The part of an access's file.
#[inline(always)]
pub fn file_part(&[_, op, target, ..]: &Slot) -> u8 {
    1 << (encoded_range(op, target) >> 8 & 3)
}

#[inline(always)]
pub fn is_access(&[unit, op, ..]: &Slot) -> bool {
    matches!((unit, op), (7 | 8, 17..))
}

#[inline(always)]
pub fn is_load(slot: &Slot) -> bool {
    is_access(slot) && matches!(slot[1], 17 | 18 | 21 | 23..)
}

#[inline(always)]
pub fn is_dab_load(&[unit, op, ..]: &Slot) -> bool {
    matches!((unit, op), (7 | 8, 24..))
}

/// Whether a slot loads a THR pair of a side, live or not.
#[inline(always)]
pub fn loads_codes(&[unit, op, target, ..]: &Slot, side: usize, pair: u32) -> bool {
    unit as usize == 9 + side && op == 2 && target == pair
}

/// Whether a slot of an IALU stores its flags.
#[inline(always)]
pub fn stores_flags(&[_, op, ..]: &Slot) -> bool {
    op <= 14
}

/// Whether a live slot reads a register that another stores.
#[inline(always)]
pub fn reads_stored(reader: &Slot, storer: &Slot) -> bool {
    let (read, stored) = (names(reader), names(storer));
    if read.access != Access::None || stored.access != Access::None {
        return reads_range(reader, storer);
    }
    if own_part(reader[0]) != own_part(storer[0]) {
        return false;
    }
    // A THR pair is read by DESPREAD's second and stored by a transfer's target.
    read.reads(reader) & stored.stores(storer) != 0
        || read.reads_codes & stored.stores_codes && reader[4] == storer[2]
}

/// The same where one of them is an access; its range can lie in the other's part.
#[inline(never)]
fn reads_range(reader: &Slot, storer: &Slot) -> bool {
    let (read, stored) = (names(reader), names(storer));
    let (read_file, stored_file) = (file_part(reader), file_part(storer));
    let mut shared = 0;
    if stored.access == Access::Load && stored_file == own_part(reader[0]) {
        shared |= read.reads(reader) & range(storer);
    }
    if read.access == Access::Store && read_file == own_part(storer[0]) {
        shared |= range(reader) & stored.stores(storer);
    }
    if read.access == Access::Store && stored.access == Access::Load && read_file == stored_file {
        shared |= range(reader) & range(storer);
    }
    shared != 0
}

/// The registers of an access's range, in its file's part.
#[inline(always)]
fn range(&[_, op, target, ..]: &Slot) -> u64 {
    let target = encoded_range(op, target);
    ((1 << (target >> 16)) - 1) << (target % 32)
}
