//! The decoders side by side, as they are measured: the same call on the same branch values.

use super::cases::sent;
use super::{best_path, STATES};
use crate::prng::Rng;
use crate::proved;
use std::hint::black_box;

const SEED: u64 = 2;
/// The noise's size beside what a step of the sent path gains.
const NOISE: i32 = 500;

/// How many stages are measured.
pub const STAGES: [u32; 4] = [1, 16, 128, 1024];
pub const SIDES: [&str; 2] = ["proved", "plain"];
pub const CALLS: [fn(&mut Work) -> u32; SIDES.len()] = [proved_path, plain_path];

/// The values of a sent path with noise, and the buffers that a call writes.
pub struct Work {
    stages: u32,
    g: Vec<i16>,
    path: Vec<u8>,
    metric: [i32; 1],
}

impl Work {
    pub fn new(stages: u32) -> Work {
        let mut rng = Rng::new(SEED, stages.into());
        Work {
            stages,
            g: sent(&mut rng, STATES * stages as usize, NOISE),
            path: vec![0; stages as usize + 1],
            metric: [0],
        }
    }
}

pub fn nothing(_: &mut Work) -> u32 {
    0
}

fn proved_path(work: &mut Work) -> u32 {
    let Work {
        stages,
        g,
        path,
        metric,
    } = black_box(work);
    proved::best_path(*stages, g, path, metric)
}

fn plain_path(work: &mut Work) -> u32 {
    let Work {
        stages,
        g,
        path,
        metric,
    } = black_box(work);
    let code;
    (code, metric[0]) = best_path(*stages, g, path);
    code
}
