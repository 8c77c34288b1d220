//! Images of one line through both emulators.

use compare::emulator::image::Line;
use compare::emulator::State;
use compare::outcome::{Inputs, Outcome};
use compare::{emulator, tuned};

const NONE: u8 = 255;

pub fn line(slots: &[[u32; 7]]) -> Line {
    Line::read(&slots.concat()).expect("the slots keep rules 3 and 15")
}

pub fn order(steps: &[u8]) -> [u8; 8] {
    let mut order = [NONE; 8];
    order[..steps.len()].copy_from_slice(steps);
    order
}

/// An image of one line.
fn image_of(slots: &[[u32; 7]]) -> Vec<u32> {
    [vec![1, 3, 7 * slots.len() as u32], slots.concat()].concat()
}

/// The check's code, line and slot in both emulators.
pub fn check_line(slots: &[[u32; 7]]) -> (u32, u32, u32) {
    let image = image_of(slots);
    let answer = emulator::check(&image);
    assert_eq!(tuned::check(&image), answer);
    answer
}

/// Asks something of an image of one line, in an order.
pub fn with_line<T>(
    slots: &[[u32; 7]],
    steps: &[u8],
    state: &State,
    memory: &[u32],
    ask: impl Fn(&Inputs) -> T,
) -> T {
    ask(&Inputs {
        image: &image_of(slots),
        orders: &order(steps),
        limit: u64::MAX,
        state: state.to_words(),
        memory,
    })
}

/// One line through both emulators, plain and in an order. All must leave the same; the answer is
/// the code and the state.
pub fn run_line(slots: &[[u32; 7]], steps: &[u8], state: &State, memory: &[u32]) -> (u32, State) {
    let plain = with_line(slots, steps, state, memory, |inputs| {
        let plain = Outcome::plain::<emulator::State>(inputs);
        assert!(Outcome::ordered::<emulator::State>(inputs) == plain);
        assert!(Outcome::plain::<tuned::State>(inputs) == plain);
        assert!(Outcome::ordered::<tuned::State>(inputs) == plain);
        plain
    });
    let steps = if plain.report.code == 0 {
        2 * slots.len()
    } else {
        0
    };
    assert_eq!(plain.report.steps, steps as u64);
    assert_eq!(plain.memory, memory, "no case here stores in memory");
    (plain.report.code, State::from_words(&plain.state))
}

/// The code of the ordered run in both emulators.
pub fn ordered_code(slots: &[[u32; 7]], steps: &[u8], state: &State, memory: &[u32]) -> u32 {
    with_line(slots, steps, state, memory, |inputs| {
        let outcome = Outcome::ordered::<emulator::State>(inputs);
        assert!(Outcome::ordered::<tuned::State>(inputs) == outcome);
        outcome.report.code
    })
}
