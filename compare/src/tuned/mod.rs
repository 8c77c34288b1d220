//! A second emulator of the instruction lines, tuned for speed. It answers as the plain one does,
//! and can take its place; its state has a form of its own.
//!
//! The check reads slots where they stand in the image, once; only a line that breaks a rule is
//! looked at again, for the code and the slot. A run does not test fields again. A slot's results
//! are made by its fetch, and its store puts them in their places.
#![forbid(unsafe_code)]

mod access;
mod block;
mod clu;
mod condition;
mod counts;
mod dab;
mod despread;
mod faults;
mod fetch;
mod held;
mod ialu;
mod image;
mod lanes;
mod names;
mod order;
mod ordered;
mod places;
mod rules;
mod run;
mod shape;
mod state;
mod touched;

pub use ordered::run_ordered;
pub use run::run;
pub use state::State;

use crate::emulator::image::IMAGE_WORDS;
use crate::emulator::Code;

/// Checks an image: code, line, slot.
pub fn check(image: &[u32]) -> (u32, u32, u32) {
    match image::check_image(image) {
        Ok(()) => (0, 0, 0),
        Err(refusal) => (
            refusal.code as u32,
            refusal.line as u32,
            refusal.slot as u32,
        ),
    }
}

/// Checks an image given as little-endian bytes: the code. Too many bytes come before a broken
/// word. The words are read where they stand, aligned or not.
pub fn check_bytes(bytes: &[u8]) -> u32 {
    if bytes.len() > 4 * IMAGE_WORDS {
        return Code::TooLong as u32;
    }
    let (words, broken) = bytes.as_chunks::<4>();
    if !broken.is_empty() {
        return Code::Directory as u32;
    }
    match image::check_image(words) {
        Ok(()) => 0,
        Err(refusal) => refusal.code as u32,
    }
}
