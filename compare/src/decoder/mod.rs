//! A plain decoder, as Note 3 of document 02 describes it: a best path through the 8-state trellis.

pub mod cases;
pub mod comparison;
pub mod paths;
pub mod tally;
pub mod work;

pub const STATES: usize = 8;
pub const MAX_STAGES: usize = 1024;
/// Over 1,024 stages, or branch values that are not eight a stage.
pub const BAD_STAGES: u32 = 13;
/// A path with room for fewer than stages + 1 states.
pub const SHORT_PATH: u32 = 14;

/// Writes a best path, the starting state first, and keeps what stands behind it. The answer is the
/// code and the metric.
pub fn best_path(stages: u32, g: &[i16], path: &mut [u8]) -> (u32, i32) {
    let stages = stages as usize;
    if stages > MAX_STAGES || g.len() != STATES * stages {
        return (BAD_STAGES, 0);
    }
    if path.len() <= stages {
        return (SHORT_PATH, 0);
    }
    let (metrics, decisions) = forward(g);
    let last = best_state(&metrics);
    trace_back(last, &decisions[..stages], &mut path[..=stages]);
    (0, metrics[last])
}

/// The metrics after all stages, and the decisions of each stage.
fn forward(g: &[i16]) -> ([i32; STATES], [u8; MAX_STAGES]) {
    let mut metrics = [0; STATES];
    let mut decisions = [0; MAX_STAGES];
    for (values, decided) in g.as_chunks().0.iter().zip(&mut decisions) {
        (metrics, *decided) = stage(&metrics, values);
    }
    (metrics, decisions)
}

/// The new metrics, and bit s for each state s that comes from s / 2 + 4.
fn stage(old: &[i32; STATES], values: &[i16; STATES]) -> ([i32; STATES], u8) {
    let mut new = [0; STATES];
    let mut decisions = 0;
    for (s, &value) in values.iter().enumerate() {
        let lower = old[s / 2] - i32::from(value);
        let upper = old[s / 2 + 4] + i32::from(value);
        new[s] = lower.max(upper);
        decisions |= u8::from(lower < upper) << s;
    }
    (new, decisions)
}

fn best_state(metrics: &[i32; STATES]) -> usize {
    let mut best = 0;
    for s in 1..STATES {
        if metrics[s] > metrics[best] {
            best = s;
        }
    }
    best
}

/// Writes the path from its last state back to its first.
fn trace_back(last: usize, decisions: &[u8], path: &mut [u8]) {
    let mut s = last as u8;
    for (entry, decided) in path[1..].iter_mut().zip(decisions).rev() {
        *entry = s;
        s = s / 2 + 4 * (decided >> s & 1);
    }
    path[0] = s;
}
