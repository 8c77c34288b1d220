//! A run of any of the implementations on the same inputs, and what it leaves.

use crate::emulator::machine::STATE_WORDS;
use crate::emulator::{self, Report};
use crate::tuned;

/// What a run is given; a plain run takes no orders and no limit.
pub struct Inputs<'a> {
    pub image: &'a [u32],
    pub orders: &'a [u8],
    pub limit: u64,
    pub state: [u32; STATE_WORDS],
    pub memory: &'a [u32],
}

/// A run's report, state and memory afterwards.
#[derive(Clone, PartialEq, Eq, Debug)]
pub struct Outcome {
    pub report: Report,
    pub state: [u32; STATE_WORDS],
    pub memory: Vec<u32>,
}

/// An implementation of the calls, named by the form that its state has.
pub trait Side {
    fn check(image: &[u32]) -> (u32, u32, u32);
    fn from_words(words: &[u32; STATE_WORDS]) -> Self;
    fn to_words(&self) -> [u32; STATE_WORDS];
    fn run(&mut self, inputs: &Inputs, memory: &mut [u32]) -> Report;
    fn run_ordered(&mut self, inputs: &Inputs, memory: &mut [u32]) -> Report;
}

/// Both emulators have the same calls.
macro_rules! side {
    ($module:ident) => {
        impl Side for $module::State {
            fn check(image: &[u32]) -> (u32, u32, u32) {
                $module::check(image)
            }

            fn from_words(words: &[u32; STATE_WORDS]) -> Self {
                $module::State::from_words(words)
            }

            fn to_words(&self) -> [u32; STATE_WORDS] {
                $module::State::to_words(self)
            }

            fn run(&mut self, inputs: &Inputs, memory: &mut [u32]) -> Report {
                $module::run(inputs.image, self, memory)
            }

            fn run_ordered(&mut self, inputs: &Inputs, memory: &mut [u32]) -> Report {
                $module::run_ordered(inputs.image, inputs.orders, inputs.limit, self, memory)
            }
        }
    };
}

side!(emulator);
side!(tuned);

impl Outcome {
    pub fn plain<S: Side>(inputs: &Inputs) -> Outcome {
        Outcome::of(inputs, S::run)
    }

    pub fn ordered<S: Side>(inputs: &Inputs) -> Outcome {
        Outcome::of(inputs, S::run_ordered)
    }

    fn of<S: Side>(inputs: &Inputs, run: fn(&mut S, &Inputs, &mut [u32]) -> Report) -> Outcome {
        let mut side = S::from_words(&inputs.state);
        let mut memory = inputs.memory.to_vec();
        let report = run(&mut side, inputs, &mut memory);
        Outcome {
            report,
            state: side.to_words(),
            memory,
        }
    }
}
