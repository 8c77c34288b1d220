//! The three implementations side by side, as they are measured: the same calls on the same inputs.

use crate::emulator::{self, machine::STATE_WORDS};
use crate::proved::{self, CHECK_REPORT_WORDS, RUN_REPORT_WORDS};
use crate::tuned;
use crate::workload::Workload;
use std::hint::black_box;

pub const SIDES: [&str; 3] = ["proved", "plain", "tuned"];

/// A call of one side: it answers the code.
pub type Call = fn(&mut Fresh) -> u32;

/// One kind of call, of each side, and the part that all sides have in common.
pub struct Kind {
    pub name: &'static str,
    pub calls: [Call; 3],
    pub common: Call,
}

pub const KINDS: [Kind; 4] = [
    Kind {
        name: "check of words",
        calls: [proved_words, plain_words, tuned_words],
        common: nothing,
    },
    Kind {
        name: "check of bytes",
        calls: [proved_bytes, plain_bytes, tuned_bytes],
        common: nothing,
    },
    Kind {
        name: "plain run",
        calls: [proved_run, plain_run, tuned_run],
        common: renew,
    },
    Kind {
        name: "ordered run",
        calls: [proved_ordered, plain_ordered, tuned_ordered],
        common: renew,
    },
];

/// A state and a memory that start anew for each run. Each side takes the form of the state that
/// it is given; all have the same words.
pub struct Fresh<'a> {
    work: &'a Workload,
    state: emulator::State,
    tuned_state: tuned::State,
    words: [u32; STATE_WORDS],
    memory: Vec<u32>,
    report: [u32; RUN_REPORT_WORDS],
}

impl<'a> Fresh<'a> {
    pub fn new(work: &'a Workload) -> Fresh<'a> {
        Fresh {
            work,
            state: work.state,
            tuned_state: work.tuned_state,
            words: work.state_words,
            memory: work.memory.clone(),
            report: [0; RUN_REPORT_WORDS],
        }
    }

    /// Copies every form, so that this costs the same on all sides.
    fn renew(&mut self) {
        self.state = *black_box(&self.work.state);
        self.tuned_state = *black_box(&self.work.tuned_state);
        self.words = *black_box(&self.work.state_words);
        self.memory.copy_from_slice(black_box(&self.work.memory));
        black_box(self);
    }
}

fn nothing(_: &mut Fresh) -> u32 {
    0
}

pub fn renew(fresh: &mut Fresh) -> u32 {
    fresh.renew();
    0
}

fn proved_words(fresh: &mut Fresh) -> u32 {
    let mut report = [0; CHECK_REPORT_WORDS];
    proved::check_words(black_box(&fresh.work.image), black_box(&mut report))
}

fn plain_words(fresh: &mut Fresh) -> u32 {
    black_box(emulator::check(black_box(&fresh.work.image))).0
}

fn tuned_words(fresh: &mut Fresh) -> u32 {
    black_box(tuned::check(black_box(&fresh.work.image))).0
}

fn proved_bytes(fresh: &mut Fresh) -> u32 {
    proved::check_bytes(black_box(&fresh.work.bytes))
}

fn plain_bytes(fresh: &mut Fresh) -> u32 {
    emulator::check_bytes(black_box(&fresh.work.bytes))
}

fn tuned_bytes(fresh: &mut Fresh) -> u32 {
    tuned::check_bytes(black_box(&fresh.work.bytes))
}

fn proved_run(fresh: &mut Fresh) -> u32 {
    fresh.renew();
    let image = black_box(&fresh.work.image);
    proved::run(
        image,
        &mut fresh.words,
        &mut fresh.memory,
        &mut fresh.report,
    )
}

fn plain_run(fresh: &mut Fresh) -> u32 {
    fresh.renew();
    let image = black_box(&fresh.work.image);
    emulator::run(image, &mut fresh.state, &mut fresh.memory).code
}

fn tuned_run(fresh: &mut Fresh) -> u32 {
    fresh.renew();
    let image = black_box(&fresh.work.image);
    tuned::run(image, &mut fresh.tuned_state, &mut fresh.memory).code
}

fn proved_ordered(fresh: &mut Fresh) -> u32 {
    fresh.renew();
    let (image, orders) = (black_box(&fresh.work.image), black_box(&fresh.work.orders));
    let (words, memory) = (&mut fresh.words, &mut fresh.memory);
    proved::run_ordered(
        image,
        orders,
        black_box(u64::MAX),
        words,
        memory,
        &mut fresh.report,
    )
}

fn plain_ordered(fresh: &mut Fresh) -> u32 {
    fresh.renew();
    let (image, orders) = (black_box(&fresh.work.image), black_box(&fresh.work.orders));
    let (state, memory) = (&mut fresh.state, &mut fresh.memory);
    emulator::run_ordered(image, orders, black_box(u64::MAX), state, memory).code
}

fn tuned_ordered(fresh: &mut Fresh) -> u32 {
    fresh.renew();
    let (image, orders) = (black_box(&fresh.work.image), black_box(&fresh.work.orders));
    let (state, memory) = (&mut fresh.tuned_state, &mut fresh.memory);
    tuned::run_ordered(image, orders, black_box(u64::MAX), state, memory).code
}
