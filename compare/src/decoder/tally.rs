//! Many cases of the decoder: how many differ, and what they reach.

use super::cases::{case, Case};
use super::comparison::{compare_case, Best};
use super::{BAD_STAGES, MAX_STAGES, SHORT_PATH, STATES};
use crate::proved::WRONG_LENGTH;

/// What must occur, in the order in which `reached` tells it.
const KINDS: [&str; 13] = [
    "all paths tried",
    "all paths tried, several are best",
    "no stages",
    "more stages, beside the plain decoder",
    "1,024 stages",
    "metric of 2^24 or more",
    "entries behind the path",
    "13: over 1,024 stages",
    "13: over 1,024 stages, eight values each",
    "13: values that are not eight a stage",
    "13: also a path that is too short",
    "14: path one entry too short",
    "255: metric of a wrong length",
];

fn reached(case: &Case, best: &Best) -> [bool; KINDS.len()] {
    let stages = case.stages as usize;
    let code = case.code();
    let decoded = code == 0;
    let many = code == BAD_STAGES && stages > MAX_STAGES;
    [
        best.paths.is_some(),
        stages > 0 && best.paths.is_some_and(|paths| paths > 1),
        decoded && stages == 0,
        decoded && best.paths.is_none(),
        decoded && stages == MAX_STAGES,
        decoded && best.metric >= 1 << 24,
        decoded && case.path.len() > stages + 1,
        many,
        many && case.g.len() == STATES * stages,
        code == BAD_STAGES && !many,
        code == BAD_STAGES && case.path.len() <= stages,
        code == SHORT_PATH && case.path.len() == stages,
        code == WRONG_LENGTH,
    ]
}

#[derive(Default)]
pub struct Tally {
    pub differing: u64,
    /// The number of the first case that differs, and how it does.
    pub first: Option<(u64, String)>,
    kinds: [u64; KINDS.len()],
}

impl Tally {
    /// Compares so many cases of a seed.
    pub fn of(seed: u64, cases: u64) -> Tally {
        let mut tally = Tally::default();
        for number in 0..cases {
            tally.add(number, &case(seed, number));
        }
        tally
    }

    fn add(&mut self, number: u64, case: &Case) {
        let best = Best::of(case);
        for (count, reached) in self.kinds.iter_mut().zip(reached(case, &best)) {
            *count += u64::from(reached);
        }
        if let Err(fault) = compare_case(case, &best) {
            self.differing += 1;
            self.first.get_or_insert((number, fault));
        }
    }

    /// Everything that must occur and did not.
    pub fn missing(&self) -> Vec<String> {
        let kinds = KINDS.iter().zip(self.kinds);
        kinds
            .filter(|&(_, count)| count == 0)
            .map(|(name, _)| format!("decoder, {name}"))
            .collect()
    }

    pub fn print(&self) {
        println!("decoder");
        for (name, count) in KINDS.iter().zip(self.kinds) {
            println!("  {name:<44}{count:>9}");
        }
    }
}
