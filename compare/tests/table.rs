//! The table of examples that document 01 gives, the errors it warns of, and its example image with
//! the slot of seven words.

use compare::emulator::address::{bit_reversed, Buffer};
use compare::emulator::clu::{despread, shift_codes, tmax, Lanes};
use compare::emulator::image::Line;
use compare::emulator::machine::{DAB, END, STATE_WORDS};
use compare::emulator::order::{admissible, perform};
use compare::emulator::word::{shift, ShiftOp};
use compare::emulator::{check, check_bytes, run, run_ordered, Report, State};

fn tmax_word(a: i32, b: i32) -> i32 {
    tmax(Lanes::Word, a as u32, b as u32).0 as i32
}

/// An image of one line after another, without gaps.
fn image(lines: &[&[u32]]) -> Vec<u32> {
    let mut words = vec![lines.len() as u32];
    let mut offset = 1 + 2 * lines.len();
    for line in lines {
        words.extend([offset as u32, line.len() as u32]);
        offset += line.len();
    }
    words.extend(lines.concat());
    words
}

#[test]
fn tmax_adds_the_table_entry() {
    assert_eq!(tmax_word(0, 0), 22);
    assert_eq!(tmax_word(2, 0), 23);
    assert_eq!(tmax_word(0, 2), 24);
    assert_eq!(tmax_word(127, 0), 128);
    assert_eq!(tmax_word(128, 0), 128);
    assert_eq!(tmax_word(0, 128), 129);
    assert_eq!(tmax_word(0, 129), 129);
}

#[test]
fn tmax_of_shorts_saturates() {
    let (value, overflow) = tmax(Lanes::Shorts, 32_767, 32_767);
    assert_eq!(value & 0xFFFF, 32_767);
    assert!(overflow);
}

#[test]
fn despread_of_ones() {
    assert_eq!(despread([0x0001_0001; 4], 0, 0, 8), 0x0008_0008);
    assert_eq!(
        shift_codes([0x1234_5678, 0x9ABC_DEF0]),
        [0xDEF0_1234, 0x9ABC]
    );
}

#[test]
fn addresses() {
    assert_eq!(bit_reversed(0x1000_0004, 4), 0x1000_0002);
    let buffer = Buffer {
        base: 16,
        length: 8,
    };
    assert_eq!(buffer.advance(22, 4), 18);
    assert_eq!(buffer.advance(16, 4u32.wrapping_neg()), 20);
    let at_zero = Buffer { base: 0, length: 8 };
    assert_eq!(at_zero.advance(2, 4u32.wrapping_neg()), 6);
}

#[test]
fn leading_zeros_of_zero() {
    assert_eq!(shift(ShiftOp::LeadingZeros, 0, 0), (32, 0));
}

/// R0 = R1 beside R1 = R0 rotated by R2, or R3 rotated in its place.
fn pass_and_rotate(rotated: u32) -> Line {
    Line::read(&[1, 9, 0, 1, 0, 0, 0, 3, 3, 1, rotated, 2, 0, 0]).expect("both slots are valid")
}

fn after_steps(line: &Line, steps: &[u8]) -> (u32, u32) {
    let mut state = State::ZERO;
    state.r[0][..3].copy_from_slice(&[1, 2, 0]);
    perform(line, steps, &mut state, &mut []);
    (state.r[0][0], state.r[0][1])
}

#[test]
fn pass_and_rotate_in_order() {
    let line = pass_and_rotate(0);
    let crossed = [0, 2, 1, 3, 255, 255, 255, 255];
    let in_turn = [0, 1, 2, 3, 255, 255, 255, 255];
    assert!(admissible(&line, &crossed, &State::ZERO));
    assert!(!admissible(&line, &in_turn, &State::ZERO));
    assert_eq!(after_steps(&line, &crossed), (2, 1));
    assert_eq!(after_steps(&line, &in_turn), (2, 2));
    assert!(admissible(&pass_and_rotate(3), &in_turn, &State::ZERO));
}

#[test]
fn any_sequence_of_steps() {
    let line = pass_and_rotate(0);
    // A store with nothing held, bytes that name no step, a second fetch that replaces the first.
    assert_eq!(after_steps(&line, &[1, 3, 255, 8]), (1, 2));
    assert_eq!(after_steps(&line, &[2, 0, 1, 2, 3]), (2, 2));
    // A load of four words of which two are past memory, and a store of them.
    let load = Line::read(&[7, 18, 4 * 65_536, 31, 32, 2, 0]).expect("the slot is valid");
    let mut state = State::ZERO;
    state.r[0] = [9; 32];
    perform(&load, &[0, 1], &mut state, &mut [1, 2, 3, 4]);
    assert_eq!(state.r[0][..5], [3, 4, 0, 0, 9]);
    let store = Line::read(&[7, 20, 4 * 65_536, 31, 32, 2, 0]).expect("the slot is valid");
    let mut memory = [1, 2, 3, 4];
    perform(&store, &[0, 1], &mut state, &mut memory);
    assert_eq!(memory, [1, 2, 3, 4]);
}

#[test]
fn the_load_of_a_thr_pair_wins() {
    // DESPREAD with codes THR0, THR1 beside THR0, THR1 = R8, R9.
    let words = image(&[&[5, 12, 0, 0, 0, 20, 0, 9, 2, 0, 8, 0, 0, 0]]);
    let mut state = State::ZERO;
    state.r[0][8..10].copy_from_slice(&[7, 8]);
    state.thr[0] = [0x10000, 0x20000, 3, 4];
    assert_eq!(run(&words, &mut state, &mut []).code, 0);
    assert_eq!(state.thr[0], [7, 8, 3, 4]);
}

#[test]
fn a_load_does_not_see_a_store_of_its_line() {
    // J stores XR0 to word 5, K loads word 5 to XR1.
    let store = [7, 20, 65_536, 31, 32, 5, 0];
    let load = [8, 18, 65_537, 31, 32, 5, 0];
    let words = image(&[&[store, load].concat()]);
    let mut state = State::ZERO;
    state.r[0][0] = 11;
    let mut memory = [0, 0, 0, 0, 0, 22];
    assert_eq!(run(&words, &mut state, &mut memory).code, 0);
    assert_eq!((state.r[0][1], memory[5]), (22, 11));
}

#[test]
fn a_limit_inside_a_line() {
    let words = image(&[
        &[7, 1, 0, 0, 32, 5, 0],
        &[1, 8, 0, 0, 0, 0, 0, 2, 8, 0, 0, 0, 0, 0],
    ]);
    let none = 255;
    let orders = [
        [0, 1, none, none, none, none, none, none],
        [2, 3, 0, 1, none, none, none, none],
    ]
    .concat();
    let mut state = State::ZERO;
    let report = run_ordered(&words, &orders, 4, &mut state, &mut []);
    let expected = Report {
        lines_done: 1,
        steps: 4,
        ..Report::default()
    };
    assert_eq!(report, expected);
    assert_eq!(
        (state.ialu[0][0], state.r[0][0], state.r[1][0]),
        (5, 0, u32::MAX)
    );
}

#[test]
fn the_example_image() {
    let words = [1, 3, 7, 7, 1, 0, 0, 32, 5, 0];
    let mut state = State::ZERO;
    let report = run(&words, &mut state, &mut [0; 64]);
    assert_eq!(
        (report.code, report.lines_done, report.line, report.slot),
        (0, 1, 0, 0)
    );
    assert_eq!(state.ialu[0][..4], [5, 0, 0, 0]);
    assert_eq!(check(&words), (0, 0, 0));
}

#[test]
fn bytes_that_are_no_words() {
    assert_eq!(check_bytes(&[]), 2);
    assert_eq!(check_bytes(&[0; 4]), 0);
    assert_eq!(check_bytes(&[0; 5]), 2);
    assert_eq!(check_bytes(&[0; 65_536]), 0);
    assert_eq!(check_bytes(&[0; 65_537]), 1);
}

#[test]
fn a_state_goes_through_its_words() {
    let words = std::array::from_fn(|number| number as u32);
    let state = State::from_words(&words);
    assert_eq!(state.to_words()[..END], words[..END]);
    assert_eq!(state.to_words()[DAB..], words[DAB..]);
    assert_eq!(
        (state.tr[1][0], state.thr[0][0], state.ialu[1][0]),
        (96, 128, 167)
    );
    assert_eq!(
        (state.base[0][0], state.length[1][0], state.flags[7]),
        (198, 210, 221)
    );
    assert_eq!(state.dab, [[238, 239, 240, 241], [242, 243, 244, 245]]);
}

#[test]
fn ends_are_exact_sums_whatever_comes_in() {
    let mut words = [u32::MAX; STATE_WORDS];
    // J0 has base 5 and length 7, K3 the highest base and length 2.
    words[198] = 5;
    words[206] = 7;
    words[213] = 2;
    let ends = &State::from_words(&words).to_words()[END..DAB];
    assert_eq!(ends[..4], [12, 0, u32::MAX - 1, 1]);
    assert_eq!(ends[12..], [u32::MAX - 1, 1, 1, 1]);
}
