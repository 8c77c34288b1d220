//! Note 5 of document 02, worked by hand: conditional slots in both emulators.

mod common;

use common::{check_line, line, order, ordered_code, run_line};
use compare::emulator::condition::When;
use compare::emulator::order::{admissible, perform};
use compare::emulator::{check, State};

/// Z, N of J's or K's flag group.
const Z: u32 = 1;
const N: u32 = 2;

/// Seventh words.
const JEQ: u32 = 1;
const JNEQ: u32 = 4;
const JNLE: u32 = 6;
const KEQ: u32 = 7;

/// J's flags in a state that is else zero.
fn j_flags(flags: u32) -> State {
    let mut state = State::ZERO;
    state.flags[6] = flags;
    state
}

#[test]
fn each_condition_for_each_z_and_n() {
    // EQ, LT, LE, NEQ, NLT, NLE, each for Z N = 00, 10, 01, 11.
    let expected = [
        [false, true, false, true],
        [false, false, true, true],
        [false, true, true, true],
        [true, false, true, false],
        [true, true, false, false],
        [true, false, false, false],
    ];
    for number in 0..12 {
        for flags in 0..4 {
            let mut state = State::ZERO;
            // V and C are set, and the other IALU's Z and N are the opposites.
            state.flags[6 + number / 6] = 12 + flags;
            state.flags[7 - number / 6] = 3 - flags;
            let holds = expected[number % 6][flags as usize];
            let when = When::read(number as u32 + 1).expect("12 conditions");
            assert_eq!(when.holds(&state), holds, "{number} {flags}");
            let pass = [1, 8, 0, 0, 0, 0, number as u32 + 1];
            let (code, after) = run_line(&[pass], &[0, 1], &state, &[]);
            let value = if holds { u32::MAX } else { 0 };
            assert_eq!((code, after.r[0][0]), (0, value), "{number} {flags}");
        }
    }
}

#[test]
fn the_seventh_word() {
    let with = |word| check(&[1, 3, 7, 7, 1, 0, 0, 32, 5, word]);
    for word in 0..=12 {
        assert_eq!(with(word), (0, 0, 0));
    }
    for word in [13, 14, 16, 256, 1 << 31, u32::MAX] {
        assert_eq!(with(word), (15, 0, 0));
    }
}

#[test]
fn rule_15_comes_after_3_and_before_4() {
    let good = [1, 8, 0, 0, 0, 0, 0];
    let bad_condition = [2, 8, 0, 0, 0, 0, 13];
    let bad_field = [3, 8, 0, 0, 1, 0, 0];
    let wide = |unit| [unit, 1, 0, 0, 32, 128, 0];
    assert_eq!(check_line(&[good, bad_condition]), (15, 0, 1));
    assert_eq!(check_line(&[bad_condition, bad_condition]), (15, 0, 0));
    // 3 anywhere in the line comes first.
    assert_eq!(check_line(&[bad_condition, good, bad_field]), (3, 0, 2));
    // 4 and 5 come later, also where their slot is the first.
    assert_eq!(check_line(&[wide(7), wide(8), bad_condition]), (15, 0, 2));
    assert_eq!(check_line(&[good, good, bad_condition]), (15, 0, 2));
    // A slot that can never be live beside its twin still counts.
    let twin = |condition| [1, 8, 0, 0, 0, 0, condition];
    assert_eq!(check_line(&[twin(JEQ), twin(JNEQ)]), (5, 0, 1));
}

#[test]
fn a_failing_slot_is_refused_for_nothing() {
    let memory = [0; 8];
    // Word 9 is past memory; width 2 at word 1 is not aligned.
    for access in [
        [7, 18, 65_536, 31, 32, 9, JEQ],
        [7, 20, 2 * 65_536, 31, 32, 1, JEQ],
    ] {
        assert_eq!(run_line(&[access], &[0, 1], &j_flags(Z), &memory).0, 8);
        let (code, after) = run_line(&[access], &[0, 1], &j_flags(0), &memory);
        assert_eq!((code, after), (0, j_flags(0)));
    }
    // J0 lies outside its buffer.
    let turn = [7, 13, 1, 0, 32, 1, JEQ];
    for (flags, code) in [(Z, 9), (0, 0)] {
        let mut state = j_flags(flags);
        state.length[0][0] = 4;
        state.ialu[0][0] = 5;
        assert_eq!(run_line(&[turn], &[0, 1], &state, &memory), (code, state));
    }
    // Two stores of word 3.
    let stores = [
        [7, 20, 65_536, 31, 32, 3, 0],
        [8, 20, 65_536, 31, 32, 3, JEQ],
    ];
    assert_eq!(run_line(&stores, &[0, 1, 2, 3], &j_flags(Z), &memory).0, 10);
    assert_eq!(run_line(&stores, &[0, 1, 2, 3], &j_flags(0), &memory).0, 0);
}

#[test]
fn a_failing_slot_reads_its_flags_alone() {
    // R0 = not R1 beside R2 = not R0 if JEQ.
    let slots = [[1, 8, 0, 1, 0, 0, 0], [3, 3, 2, 0, 0, 0, JEQ]];
    // R0 is stored before the second slot's fetch.
    let steps = [0, 1, 2, 3];
    assert_eq!(ordered_code(&slots, &steps, &j_flags(Z), &[]), 11);
    let (code, after) = run_line(&slots, &steps, &j_flags(0), &[]);
    assert_eq!((code, after.r[0][..3].to_vec()), (0, vec![u32::MAX, 0, 0]));
    // Nor does it store: what it would store may be fetched later.
    let slots = [[1, 8, 0, 1, 0, 0, JEQ], [3, 3, 2, 0, 0, 0, 0]];
    assert_eq!(ordered_code(&slots, &steps, &j_flags(Z), &[]), 11);
    assert_eq!(run_line(&slots, &steps, &j_flags(0), &[]).0, 0);
    // The flags themselves are read, whether the condition holds or not.
    let slots = [[7, 1, 0, 0, 32, 0, 0], [1, 8, 0, 0, 0, 0, JEQ]];
    for flags in [0, Z, N] {
        assert_eq!(ordered_code(&slots, &steps, &j_flags(flags), &[]), 11);
        assert_eq!(run_line(&slots, &[2, 0, 1, 3], &j_flags(flags), &[]).0, 0);
    }
    // K's flags are not J's.
    let slots = [[7, 1, 0, 0, 32, 0, 0], [1, 8, 0, 0, 0, 0, KEQ]];
    assert_eq!(run_line(&slots, &steps, &j_flags(0), &[]).0, 0);
}

#[test]
fn a_slot_may_store_the_flags_that_it_asks() {
    let slot = [7, 1, 0, 0, 32, 0, JNEQ];
    let (code, after) = run_line(&[slot], &[0, 1], &j_flags(N), &[]);
    assert_eq!((code, after), (0, j_flags(Z)));
    let (code, after) = run_line(&[slot], &[0, 1], &j_flags(Z | N), &[]);
    assert_eq!((code, after), (0, j_flags(Z | N)));
}

/// DESPREAD of pair 0, a load of that pair if JNLE, and an add that makes J's Z 1.
fn load_and_flags() -> [[u32; 7]; 3] {
    [
        [5, 12, 0, 0, 0, 20, 0],
        [9, 2, 0, 8, 0, 0, JNLE],
        [7, 1, 0, 0, 32, 0, 0],
    ]
}

fn codes(flags: u32) -> State {
    let mut state = j_flags(flags);
    state.thr[0] = [0x5_0006, 0x7_0008, 0, 0];
    state.r[0][8..10].copy_from_slice(&[1, 2]);
    state
}

#[test]
fn a_failing_load_does_not_hold_back_the_shift() {
    let slots = load_and_flags();
    let in_turn = [0, 2, 4, 1, 3, 5];
    assert_eq!(
        run_line(&slots, &in_turn, &codes(0), &[]).1.thr[0][..2],
        [1, 2]
    );
    let shifted = [0x8_0005, 7];
    assert_eq!(
        run_line(&slots, &in_turn, &codes(Z), &[]).1.thr[0][..2],
        shifted
    );
    // Its store may come before DESPREAD's fetch, which a live load's may not.
    let load_first = [2, 3, 0, 1, 4, 5];
    assert_eq!(
        run_line(&slots, &load_first, &codes(Z), &[]).1.thr[0][..2],
        shifted
    );
    assert_eq!(ordered_code(&slots, &load_first, &codes(0), &[]), 11);
}

#[test]
fn despread_reads_the_flags_of_its_load() {
    let slots = load_and_flags();
    // The add's store comes before DESPREAD's fetch: once the load has failed, once it holds.
    assert_eq!(
        ordered_code(&slots, &[2, 3, 4, 5, 0, 1], &codes(N), &[]),
        11
    );
    assert_eq!(
        ordered_code(&slots, &[2, 4, 5, 0, 1, 3], &codes(0), &[]),
        11
    );
    // An unconditional load has no flags to read; a DESPREAD that is not live reads its own alone.
    let mut always = slots;
    always[1][6] = 0;
    assert_eq!(run_line(&always, &[2, 4, 5, 0, 1, 3], &codes(0), &[]).0, 0);
    let mut dead = slots;
    dead[0][6] = KEQ;
    assert_eq!(run_line(&dead, &[2, 4, 5, 0, 1, 3], &codes(0), &[]).0, 0);
    // The load of the other pair is none of its own.
    let mut other = slots;
    other[1][2] = 2;
    assert_eq!(run_line(&other, &[2, 4, 5, 0, 1, 3], &codes(0), &[]).0, 0);
}

#[test]
fn any_sequence_of_steps() {
    // A condition is judged at the fetch, as the steps before it left the flags, and held.
    let add = [7, 1, 0, 0, 32, 0, 0];
    let pass = [1, 8, 0, 0, 0, 0, JEQ];
    let line = line(&[add, pass]);
    let after = |steps: &[u8], flags| {
        let mut state = j_flags(flags);
        perform(&line, steps, &mut state, &mut []);
        state.r[0][0]
    };
    assert!(!admissible(&line, &order(&[0, 1, 2, 3]), &j_flags(0)));
    assert_eq!(after(&[0, 1, 2, 3], 0), u32::MAX);
    assert_eq!(after(&[2, 0, 1, 3], 0), 0);
    // A second fetch replaces the outcome that the first one held.
    assert_eq!(after(&[2, 0, 1, 2, 3], 0), u32::MAX);
    // DESPREAD holds whether its load is live: the shift is stored though J's flags change.
    let line = self::line(&load_and_flags());
    let mut state = codes(Z);
    perform(&line, &[0, 4, 5, 1], &mut state, &mut []);
    assert_eq!(state.thr[0][..2], [0x8_0005, 7]);
    let mut state = codes(0);
    perform(&line, &[0, 4, 5, 1], &mut state, &mut []);
    assert_eq!(state.thr[0], codes(0).thr[0]);
    // In place: the flags that the add leaves make the load fail, and DESPREAD shifts.
    let mut state = codes(0);
    perform(&line, &[4, 5, 0, 1], &mut state, &mut []);
    assert_eq!(state.thr[0][..2], [0x8_0005, 7]);
}
