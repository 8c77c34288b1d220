//! The proved code, called through its C interface.

use crate::emulator::machine::STATE_WORDS;
use crate::emulator::Report;
use crate::outcome::{Inputs, Side};

/// What a call answers when the state, the report or the metric has a wrong length.
pub const WRONG_LENGTH: u32 = 255;
pub const CHECK_REPORT_WORDS: usize = 3;
pub const RUN_REPORT_WORDS: usize = 6;

extern "C" {
    fn ts201_check(image: *const u8, bytes: usize) -> u32;
    fn ts201_check_words(
        image: *const u32,
        words: usize,
        report: *mut u32,
        report_words: usize,
    ) -> u32;
    fn ts201_run(
        image: *const u32,
        words: usize,
        state: *mut u32,
        state_words: usize,
        memory: *mut u32,
        memory_words: usize,
        report: *mut u32,
        report_words: usize,
    ) -> u32;
    fn ts201_run_ordered(
        image: *const u32,
        words: usize,
        orders: *const u8,
        order_bytes: usize,
        limit: u64,
        state: *mut u32,
        state_words: usize,
        memory: *mut u32,
        memory_words: usize,
        report: *mut u32,
        report_words: usize,
    ) -> u32;
    fn ts201_best_path(
        stages: u32,
        g: *const i16,
        g_length: usize,
        path: *mut u8,
        path_length: usize,
        metric: *mut i32,
        metric_length: usize,
    ) -> u32;
}

pub fn check_bytes(image: &[u8]) -> u32 {
    // SAFETY: pointer and length are those of a slice, which is only read.
    unsafe { ts201_check(image.as_ptr(), image.len()) }
}

pub fn check_words(image: &[u32], report: &mut [u32]) -> u32 {
    // SAFETY: each pointer and length are those of a slice; the one written to is exclusive.
    unsafe {
        ts201_check_words(
            image.as_ptr(),
            image.len(),
            report.as_mut_ptr(),
            report.len(),
        )
    }
}

pub fn run(image: &[u32], state: &mut [u32], memory: &mut [u32], report: &mut [u32]) -> u32 {
    // SAFETY: each pointer and length are those of a slice; those written to are exclusive.
    unsafe {
        ts201_run(
            image.as_ptr(),
            image.len(),
            state.as_mut_ptr(),
            state.len(),
            memory.as_mut_ptr(),
            memory.len(),
            report.as_mut_ptr(),
            report.len(),
        )
    }
}

pub fn run_ordered(
    image: &[u32],
    orders: &[u8],
    limit: u64,
    state: &mut [u32],
    memory: &mut [u32],
    report: &mut [u32],
) -> u32 {
    // SAFETY: each pointer and length are those of a slice; those written to are exclusive.
    unsafe {
        ts201_run_ordered(
            image.as_ptr(),
            image.len(),
            orders.as_ptr(),
            orders.len(),
            limit,
            state.as_mut_ptr(),
            state.len(),
            memory.as_mut_ptr(),
            memory.len(),
            report.as_mut_ptr(),
            report.len(),
        )
    }
}

pub fn best_path(stages: u32, g: &[i16], path: &mut [u8], metric: &mut [i32]) -> u32 {
    // SAFETY: each pointer and length are those of a slice; those written to are exclusive.
    unsafe {
        ts201_best_path(
            stages,
            g.as_ptr(),
            g.len(),
            path.as_mut_ptr(),
            path.len(),
            metric.as_mut_ptr(),
            metric.len(),
        )
    }
}

/// A state in the form that the calls take.
pub struct State([u32; STATE_WORDS]);

impl Side for State {
    fn check(image: &[u32]) -> (u32, u32, u32) {
        let mut report = [0; CHECK_REPORT_WORDS];
        let answer = check_words(image, &mut report);
        let [code, line, slot] = report;
        assert_eq!(answer, code, "a call answers its report's code");
        (code, line, slot)
    }

    fn from_words(words: &[u32; STATE_WORDS]) -> State {
        State(*words)
    }

    fn to_words(&self) -> [u32; STATE_WORDS] {
        self.0
    }

    fn run(&mut self, inputs: &Inputs, memory: &mut [u32]) -> Report {
        let mut report = [0; RUN_REPORT_WORDS];
        let answer = run(inputs.image, &mut self.0, memory, &mut report);
        report_of(answer, report)
    }

    fn run_ordered(&mut self, inputs: &Inputs, memory: &mut [u32]) -> Report {
        let mut report = [0; RUN_REPORT_WORDS];
        let state = &mut self.0;
        let answer = run_ordered(
            inputs.image,
            inputs.orders,
            inputs.limit,
            state,
            memory,
            &mut report,
        );
        report_of(answer, report)
    }
}

fn report_of(answer: u32, words: [u32; RUN_REPORT_WORDS]) -> Report {
    let [code, line, slot, lines_done, low, high] = words;
    assert_eq!(answer, code, "a call answers its report's code");
    Report {
        code,
        line,
        slot,
        lines_done,
        steps: u64::from(low) | u64::from(high) << 32,
    }
}
