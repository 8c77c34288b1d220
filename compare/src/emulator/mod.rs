//! A plain emulator of the ADSP-TS201 instruction lines, by document 01 as document 02 changes it.

pub mod access;
pub mod address;
pub mod clu;
pub mod condition;
pub mod dab;
mod fields;
pub mod image;
pub mod machine;
pub mod order;
pub mod places;
pub mod rules;
pub mod run;
pub mod slot;
pub mod step;
pub mod word;

pub use machine::State;
pub use order::run_ordered;
pub use run::run;

/// Why an image, a line or an order is refused: the papers' codes.
#[derive(Clone, Copy, PartialEq, Eq, Debug)]
pub enum Code {
    TooLong = 1,
    Directory = 2,
    Field = 3,
    Positions = 4,
    Unit = 5,
    Block = 6,
    StoredTwice = 7,
    Access = 8,
    Buffer = 9,
    StoreClash = 10,
    Order = 11,
    SlotCondition = 15,
    Modifier = 16,
    QuadStart = 17,
}

/// A code and where it was found.
#[derive(Clone, Copy, PartialEq, Eq, Debug)]
pub struct Refusal {
    pub code: Code,
    pub line: usize,
    pub slot: usize,
}

impl Refusal {
    /// A refusal that names no line.
    pub fn of_call(code: Code) -> Refusal {
        Refusal {
            code,
            line: 0,
            slot: 0,
        }
    }

    pub fn in_line(code: Code, line: usize, slot: usize) -> Refusal {
        Refusal { code, line, slot }
    }
}

/// What a run reports; code 0 when nothing was refused.
#[derive(Clone, Copy, PartialEq, Eq, Debug, Default)]
pub struct Report {
    pub code: u32,
    pub line: u32,
    pub slot: u32,
    pub lines_done: u32,
    pub steps: u64,
}

impl Report {
    /// The report of the lines done so far, ended by a refusal.
    pub fn refused(self, refusal: Refusal) -> Report {
        Report {
            code: refusal.code as u32,
            line: refusal.line as u32,
            slot: refusal.slot as u32,
            ..self
        }
    }
}

/// Checks an image: code, line, slot.
pub fn check(image: &[u32]) -> (u32, u32, u32) {
    match rules::check_image(image) {
        Ok(_) => (0, 0, 0),
        Err(refusal) => (
            refusal.code as u32,
            refusal.line as u32,
            refusal.slot as u32,
        ),
    }
}

/// Checks an image given as little-endian bytes: the code. Too many bytes come before a broken
/// word.
pub fn check_bytes(bytes: &[u8]) -> u32 {
    if bytes.len() > 4 * image::IMAGE_WORDS {
        return Code::TooLong as u32;
    }
    let words = bytes.chunks_exact(4);
    if !words.remainder().is_empty() {
        return Code::Directory as u32;
    }
    let image: Vec<u32> = words
        .map(|word| u32::from_le_bytes([word[0], word[1], word[2], word[3]]))
        .collect();
    check(&image).0
}
