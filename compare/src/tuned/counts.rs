//! What rules 4 to 6 count in a line, packed in one number.

/// Each count has a field and starts so that the field's top bit is set when there are too many:
/// positions, wide slots, slots of X, slots of Y, then slots of each unit from 1 up.
const POSITION: u64 = 1;
const WIDE: u64 = 1 << 4;
const BLOCKS: [u64; 2] = [1 << 7, 1 << 10];
const UNITS_FROM: usize = 13;
const UNIT_BITS: usize = 3;

pub const START: u64 = 3 * POSITION + 2 * WIDE + BLOCKS[0] + BLOCKS[1] + each_unit(2);
pub const TOO_MANY_POSITIONS: u64 = 8 * POSITION + 4 * WIDE;
pub const TOO_MANY_OF_UNIT: u64 = each_unit(4);
pub const TOO_MANY_OF_BLOCK: u64 = 4 * BLOCKS[0] + 4 * BLOCKS[1];
pub const TOO_MANY: u64 = TOO_MANY_POSITIONS | TOO_MANY_OF_UNIT | TOO_MANY_OF_BLOCK;

/// What a narrow slot of a unit adds.
pub const fn weight(unit: usize) -> u64 {
    let block = match unit {
        7 | 8 => 0,
        _ => BLOCKS[(unit - 1) % 2],
    };
    POSITION + block + unit_weight(unit)
}

/// What a wide slot adds more.
pub const WIDER: u64 = POSITION + WIDE;

const fn each_unit(count: u64) -> u64 {
    let mut counts = 0;
    let mut unit = 1;
    while unit <= 10 {
        counts += count * unit_weight(unit);
        unit += 1;
    }
    counts
}

const fn unit_weight(unit: usize) -> u64 {
    1 << (UNITS_FROM + UNIT_BITS * (unit - 1))
}
