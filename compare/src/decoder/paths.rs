//! Paths through the trellis by their definition: what a path is, what it adds up to, and the best
//! of all.

use super::STATES;

/// What the step from one state to another takes of the new state's branch value: minus one or one
/// time; none where there is no such step.
fn sign(old: u8, new: u8) -> Option<i64> {
    if old == new / 2 {
        Some(-1)
    } else if old == new / 2 + 4 {
        Some(1)
    } else {
        None
    }
}

/// The summed metric of a path, its starting state first; none where it is no path.
pub fn summed(g: &[i16], path: &[u8]) -> Option<i64> {
    if path.is_empty() || path.iter().any(|&s| usize::from(s) >= STATES) {
        return None;
    }
    let mut sum = 0;
    for (step, values) in path.windows(2).zip(g.chunks(STATES)) {
        let new = step[1];
        sum += sign(step[0], new)? * i64::from(values[usize::from(new)]);
    }
    Some(sum)
}

/// Calls `f` with each path of so many stages.
pub fn each_path(stages: usize, mut f: impl FnMut(&[u8])) {
    for start in 0..STATES as u8 {
        extend(&mut vec![start], stages, &mut f);
    }
}

fn extend(path: &mut Vec<u8>, stages: usize, f: &mut impl FnMut(&[u8])) {
    if path.len() > stages {
        return f(path);
    }
    let old = path[path.len() - 1];
    for new in 0..STATES as u8 {
        if sign(old, new).is_some() {
            path.push(new);
            extend(path, stages, f);
            path.pop();
        }
    }
}

/// The largest metric of all paths, and how many paths have it.
pub fn best_of_all(g: &[i16]) -> (i64, u32) {
    let mut best = (i64::MIN, 0);
    each_path(g.len() / STATES, |path| {
        let metric = summed(g, path).expect("it is a path");
        if metric > best.0 {
            best = (metric, 0);
        }
        best.1 += u32::from(metric == best.0);
    });
    best
}
