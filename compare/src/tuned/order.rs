//! Whether an order is admissible: one pass over its bytes.

use super::condition::FLAGS;
use super::fetch::Slot;
use super::places::{reads_stored, stores_flags, MEMORY};
use super::touched::Touched;
use crate::emulator::order::ORDER_BYTES;

/// The order of a line of one slot.
const ONLY_ORDER: [u8; ORDER_BYTES] = [0, 1, 255, 255, 255, 255, 255, 255];
/// The bits that no byte of a step has.
const NO_STEP: u64 = 0xF8F8_F8F8_F8F8_F8F8;
/// The stores among a set of steps.
const STORES: u32 = 0b1010_1010;

/// By the machine before the line, of which only the memory words touched matter.
#[inline(always)]
pub fn admissible(line: &[Slot], order: &[u8; ORDER_BYTES], touched: &Touched) -> bool {
    if line.len() == 1 {
        return *order == ONLY_ORDER;
    }
    let steps = 2 * line.len();
    let mut rest = u64::from_le_bytes(*order);
    let used = u64::MAX >> (64 - 8 * steps);
    // Behind the line's steps all bytes are 255.
    if rest | used != u64::MAX || rest & used & NO_STEP != 0 {
        return false;
    }
    // The steps made so far, and the parts of the machine that the stores among them change.
    let (mut made, mut stored) = (0u32, 0);
    for _ in 0..steps {
        let step = rest as u32 % 8;
        let parts = touched.parts_of(step);
        if step.is_multiple_of(2) {
            // Places are compared only where the parts meet.
            if parts & stored != 0 && is_late(line, step, made, touched) {
                return false;
            }
        } else {
            // Its own fetch is the step before it in number.
            if made >> (step ^ 1) & 1 == 0 {
                return false;
            }
            stored |= parts;
        }
        made |= 1 << step;
        rest >>= 8;
    }
    // As many steps as there are, and none missing: so none came twice.
    made == (1 << steps) - 1
}

/// Whether a fetch comes after a store of a place that its slot reads.
#[inline(never)]
fn is_late(line: &[Slot], fetch: u32, made: u32, touched: &Touched) -> bool {
    let reader = &line[fetch as usize / 2];
    let mut stores = made & STORES;
    while stores != 0 {
        let store = stores.trailing_zeros();
        let parts = touched.parts_of(fetch) & touched.parts_of(store);
        let storer = &line[store as usize / 2];
        if parts & FLAGS != 0 && stores_flags(storer) {
            return true;
        }
        // Slots that are not live have no other parts.
        if parts & !FLAGS != 0 {
            let shares_words = parts & MEMORY != 0 && touched.share_words(reader, storer);
            if shares_words || reads_stored(reader, storer) {
                return true;
            }
        }
        stores &= stores - 1;
    }
    false
}
