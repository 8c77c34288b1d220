//! Rules 3, 15, 16 and 4 to 7: what the parallel slots of a line may be. A condition counts as met.

use super::dab::QUAD;
use super::image::{Image, Line, LINE_SLOTS};
use super::machine::Places;
use super::places::{add_stored_registers, thr_load};
use super::slot::{Action, Slot};
use super::{Code, Refusal};

/// Tests an image: codes 1 and 2, then the rules line by line.
pub fn check_image(words: &[u32]) -> Result<Image<'_>, Refusal> {
    let image = Image::read(words).map_err(Refusal::of_call)?;
    for (number, words) in image.lines().enumerate() {
        check_line(words).map_err(|(code, slot)| Refusal::in_line(code, number, slot))?;
    }
    Ok(image)
}

/// Each rule is tested over the whole line before the next. The slot of a refusal is the first s
/// such that slots 0 to s already break the rule.
pub fn check_line(words: &[u32]) -> Result<(), (Code, usize)> {
    let line = Line::read(words)?;
    require(Code::Modifier, modifier_not_quad(&line))?;
    require(Code::Positions, too_wide(&line))?;
    require(Code::Unit, unit_twice(&line))?;
    require(Code::Block, block_overfull(&line))?;
    require(Code::StoredTwice, register_stored_twice(&line))
}

/// Turns the slot that breaks a rule, if there is one, into a refusal.
pub fn require(code: Code, broken: Option<usize>) -> Result<(), (Code, usize)> {
    match broken {
        Some(slot) => Err((code, slot)),
        None => Ok(()),
    }
}

/// Rule 16: an access through an alignment buffer that steps by anything but a quad.
pub fn modifier_not_quad(line: &Line) -> Option<usize> {
    line.slots().iter().position(|slot| match &slot.action {
        Action::DabLoad(load) => load.modifier != QUAD,
        _ => false,
    })
}

/// Rule 4: over four positions, or a second wide slot.
pub fn too_wide(line: &Line) -> Option<usize> {
    let (mut positions, mut wide) = (0, 0);
    line.slots().iter().position(|slot| {
        positions += 1;
        if slot.is_wide() {
            positions += 1;
            wide += 1;
        }
        positions > LINE_SLOTS || wide > 1
    })
}

/// Rule 5: two slots on one unit.
pub fn unit_twice(line: &Line) -> Option<usize> {
    let mut units = 0u16;
    line.slots().iter().position(|slot| {
        let unit = 1 << slot.unit;
        let seen = units & unit != 0;
        units |= unit;
        seen
    })
}

/// Rule 6: over two slots for one block. The IALUs belong to no block.
pub fn block_overfull(line: &Line) -> Option<usize> {
    let mut counts = [0; 2];
    line.slots().iter().position(|slot| {
        let Some(block) = block(slot) else {
            return false;
        };
        counts[block] += 1;
        counts[block] > 2
    })
}

fn block(slot: &Slot) -> Option<usize> {
    let unit = slot.unit;
    (!matches!(unit, 7 | 8)).then_some(usize::from(unit - 1) % 2)
}

/// Rule 7: a register stored twice, by two slots or by one. Flag groups are in the set too, but
/// two slots that store one group are on one unit, which rule 5 bars. Whatever the conditions, THR
/// priority leaves the shifted codes of DESPREAD out where the line has a load of their pair.
pub fn register_stored_twice(line: &Line) -> Option<usize> {
    let mut places = Places::default();
    line.slots()
        .iter()
        .position(|slot| !add_stored_registers(&mut places, slot, thr_load(slot, line).is_none()))
}
