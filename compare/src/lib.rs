//! A plain emulator of the instruction lines, one tuned for speed, a plain decoder, and what it
//! takes to compare the proved code with them.

pub mod clock;
pub mod comparison;
pub mod coverage;
pub mod decoder;
pub mod emulator;
pub mod generate;
pub mod outcome;
pub mod prng;
pub mod proved;
pub mod sides;
pub mod timing;
pub mod tuned;
pub mod vectors;
pub mod workload;
