//! Times calls that do the same work by turns.

use crate::clock::thread_seconds;

pub const ROUNDS: usize = 151;
/// About how long one call is repeated in each round: short, so that all meet the same machine.
const BATCH_SECONDS: f64 = 0.000_3;

/// Times all calls in turn, and beside them what they do in common, which is taken off. Each call
/// answers `code`; the one of number `paced` fills a batch. The answer is in seconds a call.
pub fn interleaved<W, const N: usize>(
    work: &mut W,
    calls: [fn(&mut W) -> u32; N],
    common: fn(&mut W) -> u32,
    paced: usize,
    code: u32,
) -> [f64; N] {
    let count = calls_of_a_batch(calls[paced], work, code);
    let mut samples = [const { Vec::new() }; N];
    let mut commons = Vec::new();
    for _ in 0..ROUNDS {
        for (samples, call) in samples.iter_mut().zip(calls) {
            samples.push(batch(call, work, count, code));
        }
        commons.push(batch(common, work, count, 0));
    }
    let common = median(commons);
    samples.map(|samples| median(samples) - common)
}

/// How many calls fill a batch, at least one.
fn calls_of_a_batch<W>(call: fn(&mut W) -> u32, work: &mut W, code: u32) -> u32 {
    let mut calls = 1;
    loop {
        let seconds = batch(call, work, calls, code);
        let total = seconds * f64::from(calls);
        if total > BATCH_SECONDS / 4.0 {
            return (BATCH_SECONDS / seconds).ceil() as u32;
        }
        calls *= 2;
    }
}

/// Seconds a call.
fn batch<W>(call: fn(&mut W) -> u32, work: &mut W, calls: u32, code: u32) -> f64 {
    let start = thread_seconds();
    for _ in 0..calls {
        assert_eq!(call(work), code);
    }
    (thread_seconds() - start) / f64::from(calls)
}

fn median(mut samples: Vec<f64>) -> f64 {
    samples.sort_by(f64::total_cmp);
    samples[samples.len() / 2]
}
