//! The tuned emulator answers as the plain one: every op with many fields, and what no random case
//! is sure to reach.

use compare::emulator::machine::{DAB, END};
use compare::outcome::Outcome;
use compare::{emulator, generate, tuned};

/// Around the ends of what a field can be.
const FIELDS: [u32; 12] = [0, 1, 2, 3, 4, 6, 28, 30, 31, 32, 33, u32::MAX];

/// Encoded targets: widths, files and numbers around the ends of theirs.
fn encoded_targets() -> Vec<u32> {
    let mut targets = Vec::new();
    for width in [0, 1, 2, 3, 4, 5, 8, 65_535] {
        for file in [0, 1, 2, 3, 4, 255] {
            for number in [0, 1, 2, 4, 26, 28, 29, 30, 31, 32, 64, 255] {
                targets.push(width << 16 | file << 8 | number);
            }
        }
    }
    targets
}

/// An image of one line.
fn one_line(slots: &[[u32; 7]]) -> Vec<u32> {
    [vec![1, 3, 7 * slots.len() as u32], slots.concat()].concat()
}

fn assert_same_check(slots: &[[u32; 7]]) {
    let image = one_line(slots);
    assert_eq!(tuned::check(&image), emulator::check(&image), "{slots:?}");
}

/// All ways to choose four fields.
fn all_fields() -> impl Iterator<Item = [u32; 4]> {
    let choices = FIELDS.len();
    (0..choices.pow(4)).map(move |number| {
        [1, choices, choices.pow(2), choices.pow(3)]
            .map(|divisor| FIELDS[number / divisor % choices])
    })
}

#[test]
fn fields_of_every_op() {
    for unit in 0..=17 {
        for op in 0..=33 {
            for [target, first, second, imm] in all_fields() {
                assert_same_check(&[[unit, op, target, first, second, imm, 0]]);
            }
        }
    }
}

#[test]
fn encoded_fields_of_every_access() {
    let operands = [[0, 0], [31, 0], [31, 1], [32, 5], [33, 0], [64, 0]];
    for target in encoded_targets() {
        for op in 16..=26 {
            for first in FIELDS {
                for [second, imm] in operands {
                    assert_same_check(&[[7, op, target, first, second, imm, 0]]);
                    assert_same_check(&[[8, op, target, first, second, imm, 0]]);
                }
            }
        }
    }
}

#[test]
fn units_and_ops_of_many_bits() {
    for bit in 4..32 {
        assert_same_check(&[[1 << bit, 1, 0, 0, 0, 0, 0]]);
        assert_same_check(&[[1 << bit | 1, 1, 0, 0, 0, 0, 0]]);
        assert_same_check(&[[1, 1 << bit, 0, 0, 0, 0, 0]]);
        assert_same_check(&[[1, 1 << bit | 1, 0, 0, 0, 0, 0]]);
    }
}

/// Seventh words around 12, and some that look right when their high bits are lost.
const CONDITIONS: [u32; 9] = [0, 1, 12, 13, 16, 17, 256, 1 << 31, u32::MAX];

#[test]
fn seventh_words_beside_each_rule() {
    // Slot 1 keeps all rules beside slot 0, or breaks 3, 4, 5 or 7; three of X break 6.
    let first = [7, 1, 5, 0, 32, 1000, 0];
    let seconds = [
        [8, 1, 5, 0, 32, 100, 0],
        [8, 1, 5, 0, 33, 100, 0],
        [8, 1, 5, 0, 32, 1000, 0],
        [7, 1, 6, 0, 32, 100, 0],
        [8, 18, 65_536 + 512 + 5, 31, 32, 0, 0],
    ];
    for second in seconds {
        for a in CONDITIONS {
            for b in CONDITIONS {
                let [mut first, mut second] = [first, second];
                (first[6], second[6]) = (a, b);
                assert_same_check(&[first, second]);
                assert_same_check(&[second, first]);
            }
        }
    }
    let block = [
        [1, 8, 0, 0, 0, 0, 0],
        [3, 8, 1, 0, 0, 0, 0],
        [9, 3, 2, 0, 0, 0, 0],
    ];
    for (slot, condition) in (0..3).flat_map(|slot| CONDITIONS.map(|word| (slot, word))) {
        let mut block = block;
        block[slot][6] = condition;
        assert_same_check(&block);
    }
}

#[test]
fn lengths_of_a_line() {
    for length in 0..40 {
        let mut image = vec![0; 43];
        image[..3].copy_from_slice(&[1, 3, length]);
        image[3..].fill(1);
        assert_eq!(tuned::check(&image), emulator::check(&image), "{length}");
        let is_length = matches!(length, 7 | 14 | 21 | 28);
        assert_eq!(emulator::check(&image).0 == 2, !is_length, "{length}");
    }
}

#[test]
fn generated_cases() {
    for number in 0..20_000 {
        let case = generate::case(1, number);
        let inputs = case.inputs();
        assert_eq!(
            tuned::check_bytes(case.bytes()),
            emulator::check_bytes(case.bytes()),
            "{number}"
        );
        assert_eq!(
            tuned::check(&case.image),
            emulator::check(&case.image),
            "{number}"
        );
        let plain = Outcome::plain::<emulator::State>(&inputs);
        assert!(Outcome::plain::<tuned::State>(&inputs) == plain, "{number}");
        let ordered = Outcome::ordered::<emulator::State>(&inputs);
        assert!(
            Outcome::ordered::<tuned::State>(&inputs) == ordered,
            "{number}"
        );
    }
}

#[test]
fn bytes_that_are_no_words() {
    assert_eq!(tuned::check_bytes(&[]), 2);
    assert_eq!(tuned::check_bytes(&[0; 4]), 0);
    assert_eq!(tuned::check_bytes(&[0; 5]), 2);
    assert_eq!(tuned::check_bytes(&[0; 65_536]), 0);
    assert_eq!(tuned::check_bytes(&[0; 65_537]), 1);
}

#[test]
fn the_directory_is_judged_before_the_lines() {
    // Line 0 breaks rule 3, line 1's region starts inside line 0.
    let image = [2, 5, 7, 6, 7, 0, 0, 0, 0, 0, 0, 0, 0, 0];
    assert_eq!(tuned::check(&image), (2, 0, 0));
    assert_eq!(emulator::check(&image), (2, 0, 0));
}

#[test]
fn a_state_goes_through_its_words() {
    // High enough for ends above 32 bits.
    let words = std::array::from_fn(|number| (number as u32).wrapping_mul(0x0123_4567));
    let through = tuned::State::from_words(&words).to_words();
    assert_eq!(through[..END], words[..END]);
    assert_eq!(through[DAB..], words[DAB..]);
    assert_eq!(through, emulator::State::from_words(&words).to_words());
}
