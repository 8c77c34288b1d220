//! The plain run: each line's slots read the state before the line, then all their stores apply.

use super::image::{Image, Line, LINE_SLOTS};
use super::machine::{overlap, State, MEMORY_WORDS};
use super::rules::{check_image, require};
use super::slot::Action;
use super::{Code, Refusal, Report};

pub fn run(image: &[u32], state: &mut State, memory: &mut [u32]) -> Report {
    let image = match admit(image, memory) {
        Ok(image) => image,
        Err(refusal) => return Report::default().refused(refusal),
    };
    let mut report = Report::default();
    for (number, words) in image.lines().enumerate() {
        let line = checked_line(words);
        if let Err((code, slot)) = test_line(&line, state, memory.len()) {
            return report.refused(Refusal::in_line(code, number, slot));
        }
        run_line(&line, state, memory);
        report.lines_done += 1;
        report.steps += 2 * line.slots().len() as u64;
    }
    report
}

/// What both runs test before they change anything.
pub fn admit<'a>(image: &'a [u32], memory: &[u32]) -> Result<Image<'a>, Refusal> {
    if memory.len() > MEMORY_WORDS {
        return Err(Refusal::of_call(Code::TooLong));
    }
    check_image(image)
}

/// A line of an image that has passed its check.
pub fn checked_line(words: &[u32]) -> Line {
    Line::read(words).expect("the image was checked before the run")
}

/// Tests what depends on the running state: codes 9, 17, 8 and 10, each over the whole line.
pub fn test_line(line: &Line, state: &State, memory_words: usize) -> Result<(), (Code, usize)> {
    let outside_buffer = first_live(line, state, |action| {
        !action.keeps_buffer(state, memory_words)
    });
    require(Code::Buffer, outside_buffer)?;
    let at_quad_start = first_live(line, state, |action| action.is_at_quad_start(state));
    require(Code::QuadStart, at_quad_start)?;
    let outside_memory = first_live(line, state, |action| {
        !action.keeps_memory(state, memory_words)
    });
    require(Code::Access, outside_memory)?;
    require(Code::StoreClash, word_stored_twice(line, state))
}

/// The first live slot that breaks a test, which the others are not put to.
pub fn first_live(
    line: &Line,
    state: &State,
    mut breaks: impl FnMut(&Action) -> bool,
) -> Option<usize> {
    let mut slots = line.slots().iter();
    slots.position(|slot| slot.is_live(state) && breaks(&slot.action))
}

/// The slot that stores a word which a slot before it stores. Only the two IALUs store words, so
/// there is at most one store before.
fn word_stored_twice(line: &Line, state: &State) -> Option<usize> {
    let mut earlier = 0..0;
    first_live(line, state, |action| {
        let Some(words) = action.stored_words(state) else {
            return false;
        };
        let shared = overlap(&earlier, &words);
        earlier = words;
        shared
    })
}

pub fn run_line(line: &Line, state: &mut State, memory: &mut [u32]) {
    let mut held = [None; LINE_SLOTS];
    for (held, slot) in held.iter_mut().zip(line.slots()) {
        *held = slot.fetch(line, state, memory);
    }
    for held in held.iter().flatten() {
        held.store(state, memory);
    }
}
