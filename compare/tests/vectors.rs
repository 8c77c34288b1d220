//! Replays a file of test vectors, whose path the environment variable TS201_VECTORS gives, through
//! both emulators and through the proved code.

use compare::outcome::{Outcome, Side};
use compare::vectors::{self, Vector};
use compare::{emulator, proved, tuned};

/// The file's cases; none, with a note, where no file is named.
fn vectors() -> Vec<Vector> {
    let Some(path) = std::env::var_os("TS201_VECTORS") else {
        eprintln!("TS201_VECTORS names no file of vectors: nothing is replayed");
        return Vec::new();
    };
    let bytes = std::fs::read(path).expect("TS201_VECTORS names a file that can be read");
    let vectors = vectors::read(&bytes).expect("the file holds vectors");
    println!("{} cases", vectors.len());
    vectors
}

/// All calls of one implementation on every case.
fn agrees<S: Side>() {
    for (number, vector) in vectors().iter().enumerate() {
        let inputs = vector.inputs();
        assert_eq!(
            S::check(&vector.image),
            vector.check,
            "case {number}, check"
        );
        let plain = Outcome::plain::<S>(&inputs);
        assert!(plain == vector.plain, "case {number}, plain run");
        let ordered = Outcome::ordered::<S>(&inputs);
        assert!(ordered == vector.ordered, "case {number}, ordered run");
    }
}

#[test]
fn the_emulator_agrees_with_every_vector() {
    agrees::<emulator::State>();
}

#[test]
fn the_tuned_emulator_agrees_with_every_vector() {
    agrees::<tuned::State>();
}

#[test]
fn the_proved_code_agrees_with_every_vector() {
    agrees::<proved::State>();
}
