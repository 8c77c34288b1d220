//! When a slot is done: its seventh word, and the conditions on the flags of an IALU.

use super::machine::State;
use super::step::ialu_flags;

/// Always, or where a condition holds.
#[derive(Clone, Copy, PartialEq, Eq, Debug)]
pub enum When {
    Always,
    If(Condition),
}

/// A condition by its number: 0 to 5 ask J's flags, 6 to 11 K's.
#[derive(Clone, Copy, PartialEq, Eq, Debug)]
pub struct Condition(u8);

pub const CONDITIONS: usize = 12;

impl When {
    /// The seventh word is 0, or a condition's number plus 1; nothing when it is above 12.
    pub fn read(word: u32) -> Option<When> {
        match word {
            0 => Some(When::Always),
            1..=12 => Some(When::If(Condition(word as u8 - 1))),
            _ => None,
        }
    }

    pub fn holds(self, state: &State) -> bool {
        self.condition()
            .is_none_or(|condition| condition.holds(state))
    }

    pub fn condition(self) -> Option<Condition> {
        match self {
            When::Always => None,
            When::If(condition) => Some(condition),
        }
    }
}

impl Condition {
    pub fn number(self) -> usize {
        usize::from(self.0)
    }

    /// The IALU whose flags it asks: 0 for J, 1 for K.
    pub fn side(self) -> u8 {
        self.0 / 6
    }

    pub fn holds(self, state: &State) -> bool {
        let flags = state.flags[ialu_flags(self.side())];
        let (zero, negative) = (flags & 1 != 0, flags & 2 != 0);
        // EQ, LT, LE, and their opposites.
        match self.0 % 6 {
            0 => zero,
            1 => negative,
            2 => zero || negative,
            3 => !zero,
            4 => !negative,
            _ => !(zero || negative),
        }
    }
}
