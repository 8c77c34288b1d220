//! Arithmetic of the ALU, the shifter and the IALUs on 32-bit words: a value and its flags.

use super::address;

#[derive(Clone, Copy, PartialEq, Eq, Debug)]
pub enum AluOp {
    Add,
    Subtract,
    Max,
    Min,
    And,
    Or,
    Xor,
    Not,
    Pass,
    CountOnes,
    AddSaturating,
    SubtractSaturating,
}

#[derive(Clone, Copy, PartialEq, Eq, Debug)]
pub enum ShiftOp {
    Logical,
    Arithmetic,
    Rotate,
    SetBit,
    ClearBit,
    ToggleBit,
    LeadingZeros,
    LeadingOnes,
}

#[derive(Clone, Copy, PartialEq, Eq, Debug)]
pub enum IaluOp {
    Add,
    Subtract,
    Average,
    And,
    AndNot,
    Or,
    Xor,
    Not,
    ArithmeticShiftRight,
    LogicalShiftRight,
    RotateLeft,
    RotateRight,
    BitReversedAdd,
}

impl AluOp {
    /// The op that a slot of the ALU numbers so.
    pub const fn numbered(op: u32) -> Option<AluOp> {
        Some(match op {
            1 => AluOp::Add,
            2 => AluOp::Subtract,
            3 => AluOp::Max,
            4 => AluOp::Min,
            5 => AluOp::And,
            6 => AluOp::Or,
            7 => AluOp::Xor,
            8 => AluOp::Not,
            9 => AluOp::Pass,
            10 => AluOp::CountOnes,
            11 => AluOp::AddSaturating,
            12 => AluOp::SubtractSaturating,
            _ => return None,
        })
    }
}

impl ShiftOp {
    /// The op that a slot of the shifter numbers so; 7 tests a bit and gives no value.
    pub const fn numbered(op: u32) -> Option<ShiftOp> {
        Some(match op {
            1 => ShiftOp::Logical,
            2 => ShiftOp::Arithmetic,
            3 => ShiftOp::Rotate,
            4 => ShiftOp::SetBit,
            5 => ShiftOp::ClearBit,
            6 => ShiftOp::ToggleBit,
            8 => ShiftOp::LeadingZeros,
            9 => ShiftOp::LeadingOnes,
            _ => return None,
        })
    }
}

impl IaluOp {
    /// The op that a slot of the IALU numbers so; the others are circular, buffers or accesses.
    pub const fn numbered(op: u32) -> Option<IaluOp> {
        Some(match op {
            1 => IaluOp::Add,
            2 => IaluOp::Subtract,
            3 => IaluOp::Average,
            4 => IaluOp::And,
            5 => IaluOp::AndNot,
            6 => IaluOp::Or,
            7 => IaluOp::Xor,
            8 => IaluOp::Not,
            9 => IaluOp::ArithmeticShiftRight,
            10 => IaluOp::LogicalShiftRight,
            11 => IaluOp::RotateLeft,
            12 => IaluOp::RotateRight,
            14 => IaluOp::BitReversedAdd,
            _ => return None,
        })
    }
}

/// A value with the overflow and carry that go into its flags.
struct Outcome {
    value: u32,
    overflow: bool,
    carry: bool,
}

impl Outcome {
    fn plain(value: u32) -> Outcome {
        Outcome {
            value,
            overflow: false,
            carry: false,
        }
    }

    fn sum(a: u32, b: u32) -> Outcome {
        let (value, carry) = a.overflowing_add(b);
        let overflow = (a as i32).checked_add(b as i32).is_none();
        Outcome {
            value,
            overflow,
            carry,
        }
    }

    /// The carry is that of a + not b + 1, so it is set when nothing is borrowed.
    fn difference(a: u32, b: u32) -> Outcome {
        let (value, borrow) = a.overflowing_sub(b);
        let overflow = (a as i32).checked_sub(b as i32).is_none();
        Outcome {
            value,
            overflow,
            carry: !borrow,
        }
    }

    /// Where a sum or difference overflows, the exact result has the sign of its first operand.
    fn saturated(self, first: u32) -> Outcome {
        let limit = if (first as i32) < 0 {
            i32::MIN
        } else {
            i32::MAX
        };
        let value = if self.overflow {
            limit as u32
        } else {
            self.value
        };
        Outcome { value, ..self }
    }

    /// The four flags from the low bit up: zero, negative, overflow, carry.
    fn with_flags(self) -> (u32, u32) {
        let flags =
            zero_negative(self.value) | u32::from(self.overflow) << 2 | u32::from(self.carry) << 3;
        (self.value, flags)
    }
}

fn zero_negative(value: u32) -> u32 {
    u32::from(value == 0) | (value >> 31) << 1
}

/// Value and flags AZ AN AV AC.
pub fn alu(op: AluOp, a: u32, b: u32) -> (u32, u32) {
    let outcome = match op {
        AluOp::Add => Outcome::sum(a, b),
        AluOp::Subtract => Outcome::difference(a, b),
        AluOp::Max => Outcome::plain((a as i32).max(b as i32) as u32),
        AluOp::Min => Outcome::plain((a as i32).min(b as i32) as u32),
        AluOp::And => Outcome::plain(a & b),
        AluOp::Or => Outcome::plain(a | b),
        AluOp::Xor => Outcome::plain(a ^ b),
        AluOp::Not => Outcome::plain(!a),
        AluOp::Pass => Outcome::plain(a),
        AluOp::CountOnes => Outcome::plain(a.count_ones()),
        AluOp::AddSaturating => Outcome::sum(a, b).saturated(a),
        AluOp::SubtractSaturating => Outcome::difference(a, b).saturated(a),
    };
    outcome.with_flags()
}

/// Value and flags SZ SN.
pub fn shift(op: ShiftOp, a: u32, b: u32) -> (u32, u32) {
    let bit = 1 << (b % 32);
    let value = match op {
        ShiftOp::Logical => logical_shift(a, b as i32),
        ShiftOp::Arithmetic => arithmetic_shift(a, b as i32),
        ShiftOp::Rotate => a.rotate_left(b % 32),
        ShiftOp::SetBit => a | bit,
        ShiftOp::ClearBit => a & !bit,
        ShiftOp::ToggleBit => a ^ bit,
        ShiftOp::LeadingZeros => a.leading_zeros(),
        ShiftOp::LeadingOnes => a.leading_ones(),
    };
    (value, zero_negative(value))
}

/// The flags of a bit test: SZ is 1 when the bit is 0, SN is 0.
pub fn test_bit(a: u32, b: u32) -> u32 {
    !(a >> (b % 32)) & 1
}

fn logical_shift(value: u32, left: i32) -> u32 {
    let distance = left.unsigned_abs();
    if left >= 0 {
        value.checked_shl(distance).unwrap_or(0)
    } else {
        value.checked_shr(distance).unwrap_or(0)
    }
}

fn arithmetic_shift(value: u32, left: i32) -> u32 {
    if left >= 0 {
        logical_shift(value, left)
    } else {
        // The sign bit fills, so every distance from 31 up gives the same word.
        ((value as i32) >> left.unsigned_abs().min(31)) as u32
    }
}

/// Value and flags Z N V C.
pub fn ialu(op: IaluOp, a: u32, b: u32) -> (u32, u32) {
    let outcome = match op {
        IaluOp::Add => Outcome::sum(a, b),
        IaluOp::Subtract => Outcome::difference(a, b),
        IaluOp::Average => Outcome::plain(average(a, b)),
        IaluOp::And => Outcome::plain(a & b),
        IaluOp::AndNot => Outcome::plain(a & !b),
        IaluOp::Or => Outcome::plain(a | b),
        IaluOp::Xor => Outcome::plain(a ^ b),
        IaluOp::Not => Outcome::plain(!a),
        IaluOp::ArithmeticShiftRight => shifted_right(a, ((a as i32) >> 1) as u32),
        IaluOp::LogicalShiftRight => shifted_right(a, a >> 1),
        IaluOp::RotateLeft => Outcome::plain(a.rotate_left(1)),
        IaluOp::RotateRight => Outcome::plain(a.rotate_right(1)),
        IaluOp::BitReversedAdd => Outcome::plain(address::bit_reversed(a, b)),
    };
    outcome.with_flags()
}

/// The flags of a circular add: only zero and negative can be set.
pub fn result_flags(value: u32) -> u32 {
    zero_negative(value)
}

/// A shift right by one: the bit that falls out is the carry.
fn shifted_right(input: u32, value: u32) -> Outcome {
    Outcome {
        value,
        overflow: false,
        carry: input & 1 == 1,
    }
}

fn average(a: u32, b: u32) -> u32 {
    ((i64::from(a as i32) + i64::from(b as i32)) >> 1) as u32
}
