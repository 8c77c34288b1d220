//! Note 6 of document 02, worked by hand: unaligned reads through the data alignment buffers in both
//! emulators.

mod common;

use common::{check_line, line, order, ordered_code, run_line, with_line};
use compare::emulator::order::{admissible, perform};
use compare::emulator::{self, State};
use compare::outcome::Outcome;
use compare::tuned;

/// A seventh word: J's Z is 1, which it is not in the states here.
const JEQ: u32 = 1;

/// J's and K's accesses to XR0 and YR0 by index 0.
const J_TO_X: [u32; 7] = [7, 24, 0, 0, 32, 4, 0];
const J_TO_Y: [u32; 7] = [7, 25, 0, 0, 32, 4, 0];
const K_TO_X: [u32; 7] = [8, 24, 0, 0, 32, 4, 0];
const K_TO_Y: [u32; 7] = [8, 25, 0, 0, 32, 4, 0];

/// J0 and K0 in a state with quads in both buffers.
fn indices(j0: u32, k0: u32) -> State {
    let mut state = State::ZERO;
    state.ialu[0][0] = j0;
    state.ialu[1][0] = k0;
    state.dab = [[1, 2, 3, 4], [5, 6, 7, 8]];
    state
}

/// J0 in a buffer.
fn circular(base: u32, length: u32, j0: u32) -> State {
    let mut state = indices(j0, 0);
    state.base[0][0] = base;
    state.length[0][0] = length;
    state
}

/// Word i holds 100 + i.
fn memory<const N: usize>() -> [u32; N] {
    std::array::from_fn(|word| 100 + word as u32)
}

/// The code and the slot that both emulators' plain runs of a line are refused with.
fn refusal(slots: &[[u32; 7]], state: &State, memory: &[u32]) -> (u32, u32) {
    with_line(slots, &[], state, memory, |inputs| {
        let plain = Outcome::plain::<emulator::State>(inputs);
        assert!(Outcome::plain::<tuned::State>(inputs) == plain);
        assert_eq!(plain.state, state.to_words());
        (plain.report.code, plain.report.slot)
    })
}

#[test]
fn listing_7_5() {
    // A circular buffer of 16 words from word 32 on, read from its third word on.
    let mut words = [0; 48];
    words[32..].copy_from_slice(&[
        0x0000_1111,
        0x2222_3333,
        0x4444_5555,
        0x6666_7777,
        0x8888_9999,
        0xAAAA_BBBB,
        0xCCCC_DDDD,
        0xEEEE_FFFF,
        0x1111_0000,
        0x3333_2222,
        0x5555_4444,
        0x7777_6666,
        0x9999_8888,
        0xBBBB_AAAA,
        0xDDDD_CCCC,
        0xFFFF_EEEE,
    ]);
    let mut state = State::ZERO;
    (state.base[0][0], state.length[0][0], state.ialu[0][0]) = (32, 16, 34);
    // The first access primes the buffer, and its words are overwritten by the second.
    for target in [0, 0, 4, 8, 12] {
        let slot = [7, 24, target, 0, 32, 4, 0];
        let (code, after) = run_line(&[slot], &[0, 1], &state, &words);
        assert_eq!(code, 0);
        state = after;
    }
    let from_third = [&words[34..], &words[32..34]].concat();
    assert_eq!(state.r[0][..16], from_third);
    assert_eq!(
        (state.dab[0].to_vec(), state.ialu[0][0]),
        (words[32..36].to_vec(), 38)
    );
}

#[test]
fn each_position() {
    let delivered = [[2, 3, 4, 108], [3, 4, 108, 109], [4, 108, 109, 110]];
    for (position, words) in (1..).zip(delivered) {
        let mut state = indices(8 + position, 0);
        state.flags = [15; 8];
        let mut expected = state;
        expected.r[0][..4].copy_from_slice(&words);
        expected.dab[0] = [108, 109, 110, 111];
        expected.ialu[0][0] = 12 + position;
        assert_eq!(
            run_line(&[J_TO_X], &[0, 1], &state, &memory::<12>()),
            (0, expected)
        );
    }
}

#[test]
fn each_ialu_and_block() {
    // Both at once, each through the other block's buffer.
    let state = indices(1, 6);
    for (slots, [x, y]) in [([J_TO_X, K_TO_Y], [0, 4]), ([J_TO_Y, K_TO_X], [4, 0])] {
        let (code, after) = run_line(&slots, &[0, 1, 2, 3], &state, &memory::<8>());
        assert_eq!((code, after.ialu[0][0], after.ialu[1][0]), (0, 5, 10));
        assert_eq!((after.dab[0][0], after.dab[1][0]), (100 + x, 100 + y));
        // J0 stands at position 1, K0 at position 2.
        let first = |old: [u32; 4], start| old[if start == 0 { 1 } else { 2 }];
        assert_eq!(after.r[0][0], first(state.dab[0], x));
        assert_eq!(after.r[1][0], first(state.dab[1], y));
    }
}

#[test]
fn indices_turn_in_their_buffers() {
    for (base, length, j0, next) in [
        (8, 8, 9, 13),
        (8, 8, 15, 11),
        (8, 4, 10, 10),
        (3, 0, 14, 18),
    ] {
        let state = circular(base, length, j0);
        let (code, after) = run_line(&[J_TO_X], &[0, 1], &state, &memory::<16>());
        assert_eq!((code, after.ialu[0][0]), (0, next));
        assert_eq!(after.dab[0][0], 100 + j0 / 4 * 4);
    }
}

#[test]
fn fields() {
    for (field, bad) in [
        (2, vec![1, 2, 3, 30, 31, 32, 33, 256, 65_536, 4 * 65_536]),
        (3, vec![4, 5, 31, 32]),
        (4, vec![0, 4, 31, 33]),
    ] {
        for word in bad {
            let mut slot = J_TO_X;
            slot[field] = word;
            assert_eq!(check_line(&[slot]), (3, 0, 0), "{slot:?}");
            // A wrong field comes before a wrong modifier.
            slot[5] = 5;
            assert_eq!(check_line(&[slot]), (3, 0, 0), "{slot:?}");
        }
    }
    for target in (0..32).step_by(4) {
        assert_eq!(check_line(&[[8, 25, target, 3, 32, 4, 0]]), (0, 0, 0));
    }
}

#[test]
fn rule_16_comes_after_15_and_before_4() {
    let with = |modifier| [7, 24, 0, 0, 32, modifier, 0];
    for modifier in [
        0,
        1,
        3,
        5,
        8,
        4u32.wrapping_neg(),
        128,
        260,
        1 << 31 | 4,
        u32::MAX,
    ] {
        assert_eq!(check_line(&[with(modifier)]), (16, 0, 0));
    }
    let good = [1, 8, 8, 0, 0, 0, 0];
    let bad_condition = [2, 8, 0, 0, 0, 0, 13];
    let bad_field = [3, 8, 0, 0, 1, 0, 0];
    let wide = [8, 1, 0, 0, 32, 128, 0];
    assert_eq!(check_line(&[good, with(5)]), (16, 0, 1));
    // 3 and 15 anywhere in the line come first.
    assert_eq!(check_line(&[with(5), good, bad_field]), (3, 0, 2));
    assert_eq!(check_line(&[with(5), good, bad_condition]), (15, 0, 2));
    // 4, 5 and 7 come later, also where their slot is the first.
    assert_eq!(check_line(&[wide, with(1000)]), (16, 0, 1));
    assert_eq!(check_line(&[good, good, with(0)]), (16, 0, 2));
    assert_eq!(check_line(&[J_TO_X, [8, 24, 4, 0, 32, 8, 0]]), (16, 0, 1));
    // A condition that fails does not spare the modifier.
    let mut never = with(8);
    never[6] = JEQ;
    assert_eq!(check_line(&[never]), (16, 0, 0));
}

#[test]
fn a_buffer_and_a_quad_are_stored_once() {
    // One buffer from both IALUs, into different registers.
    assert_eq!(check_line(&[J_TO_X, [8, 24, 4, 0, 32, 4, 0]]), (7, 0, 1));
    assert_eq!(check_line(&[J_TO_X, [8, 25, 0, 0, 32, 4, 0]]), (0, 0, 0));
    // Any of the four registers by another slot; Y's are others.
    for register in 0..5 {
        let code = if register < 4 { 7 } else { 0 };
        let load = [8, 18, 65_536 + register, 31, 32, 0, 0];
        assert_eq!(check_line(&[J_TO_X, [1, 9, register, 9, 0, 0, 0]]).0, code);
        assert_eq!(check_line(&[J_TO_X, load]).0, code);
        assert_eq!(check_line(&[J_TO_X, [2, 9, register, 9, 0, 0, 0]]).0, 0);
    }
    // The index.
    assert_eq!(
        check_line(&[J_TO_X, [8, 18, 65_536 + 512, 31, 32, 0, 0]]).0,
        7
    );
}

#[test]
fn tests_of_a_run() {
    let memory = memory::<16>();
    for (base, length, j0, code) in [
        // A start of a quad is 17 with a length and without.
        (0, 0, 8, 17),
        (0, 8, 4, 17),
        // 9 comes before it: outside, too short, past memory, no multiples of 4.
        (0, 8, 8, 9),
        (8, 8, 5, 9),
        (4, 3, 5, 9),
        (12, 8, 13, 9),
        (6, 8, 9, 9),
        (4, 6, 5, 9),
        // The quad passes memory; at its start 17 comes first.
        (0, 0, 17, 8),
        (0, 0, u32::MAX, 8),
        (0, 0, 16, 17),
        (0, 0, 15, 0),
    ] {
        let state = circular(base, length, j0);
        assert_eq!(
            run_line(&[J_TO_X], &[0, 1], &state, &memory).0,
            code,
            "{base} {length} {j0}"
        );
    }
    // A memory of 14 words ends inside a quad.
    let state = circular(0, 0, 13);
    assert_eq!(
        run_line(&[J_TO_X], &[0, 1], &state, &memory[..14]),
        (8, state)
    );
}

#[test]
fn each_test_goes_over_the_whole_line() {
    let memory = memory::<16>();
    // J0 is at a quad's start, K0 outside its buffer: 9 of the later slot comes first.
    let mut state = indices(4, 9);
    state.length[1][0] = 8;
    assert_eq!(refusal(&[J_TO_X, K_TO_Y], &state, &memory), (9, 1));
    // J's access passes memory, K0 is at a quad's start: 17 of the later slot comes first.
    assert_eq!(
        refusal(&[J_TO_X, K_TO_Y], &indices(17, 4), &memory),
        (17, 1)
    );
    let unaligned = [7, 18, 2 * 65_536, 31, 32, 1, 0];
    assert_eq!(
        refusal(&[unaligned, K_TO_Y], &indices(0, 4), &memory),
        (17, 1)
    );
    assert_eq!(
        refusal(&[unaligned, K_TO_Y], &indices(0, 5), &memory),
        (8, 0)
    );
}

#[test]
fn a_failing_access_is_refused_for_nothing() {
    let mut slot = J_TO_X;
    slot[6] = JEQ;
    for state in [
        circular(0, 0, 8),
        circular(0, 0, 17),
        circular(0, 3, 9),
        circular(0, 0, 5),
    ] {
        assert_eq!(
            run_line(&[slot], &[0, 1], &state, &memory::<16>()),
            (0, state)
        );
    }
    // Its buffer counts as stored all the same.
    assert_eq!(check_line(&[slot, [8, 24, 4, 0, 32, 4, 0]]), (7, 0, 1));
}

#[test]
fn orders() {
    let memory = memory::<8>();
    // Its fetch comes before a store of any word of its quad.
    for word in 0..8 {
        let store = [8, 20, 65_536 + 20, 31, 32, word, 0];
        let code = if word < 4 { 11 } else { 0 };
        assert_eq!(
            ordered_code(&[J_TO_X, store], &[2, 3, 0, 1], &indices(3, 0), &memory),
            code
        );
        assert_eq!(
            ordered_code(&[J_TO_X, store], &[0, 2, 3, 1], &indices(3, 0), &memory),
            0
        );
    }
    // A slot that reads R or the index fetches before its store.
    let readers = [[3, 8, 9, 3, 0, 0, 0], [8, 20, 65_536 + 512, 31, 32, 5, 0]];
    for reader in readers {
        assert_eq!(
            ordered_code(&[J_TO_X, reader], &[0, 1, 2, 3], &indices(3, 0), &memory),
            11
        );
        assert_eq!(
            ordered_code(&[J_TO_X, reader], &[0, 2, 1, 3], &indices(3, 0), &memory),
            0
        );
    }
    // Other slots may come whole before or after it.
    let other = [3, 8, 9, 4, 0, 0, 0];
    for steps in [[0, 1, 2, 3], [2, 3, 0, 1]] {
        assert_eq!(
            run_line(&[J_TO_X, other], &steps, &indices(3, 0), &memory).0,
            0
        );
    }
}

#[test]
fn any_sequence_of_steps() {
    let read = line(&[J_TO_X]);
    let after = |steps: &[u8], j0| {
        let mut state = indices(j0, 0);
        perform(&read, steps, &mut state, &mut memory::<6>());
        (
            state.r[0][..4].to_vec(),
            state.dab[0].to_vec(),
            state.ialu[0][0],
        )
    };
    // Nothing held, nothing stored; a second store repeats the first.
    assert_eq!(after(&[1], 1), (vec![0; 4], vec![1, 2, 3, 4], 1));
    let once = (vec![2, 3, 4, 100], vec![100, 101, 102, 103], 5);
    assert_eq!(after(&[0, 1], 1), once);
    assert_eq!(after(&[0, 1, 1], 1), once);
    // A second fetch takes what the first store left; words past memory are 0.
    let twice = (vec![101, 102, 103, 104], vec![104, 105, 0, 0], 9);
    assert_eq!(after(&[0, 1, 0, 1], 1), twice);
    // At a quad's start the whole old buffer is delivered.
    assert_eq!(after(&[0, 1], 4).0, [1, 2, 3, 4]);
    assert_eq!(after(&[0, 1], u32::MAX), (vec![4, 0, 0, 0], vec![0; 4], 3));
    assert!(admissible(&read, &order(&[0, 1]), &indices(1, 0)));
}
