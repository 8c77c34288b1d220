//! Random calls of the decoder: branch values of all sizes, and calls that are refused.

use super::{BAD_STAGES, MAX_STAGES, SHORT_PATH, STATES};
use crate::prng::Rng;
use crate::proved::WRONG_LENGTH;

/// Up to so many stages all paths are tried.
pub const FEW_STAGES: u32 = 4;
const EXTREMES: [i16; 7] = [i16::MIN, i16::MIN + 1, -1, 0, 1, i16::MAX - 1, i16::MAX];
/// What a step of a sent path gains, before noise.
const SIGNAL: i16 = 1000;

/// What a call is given, and what its buffers hold beforehand.
#[derive(Clone, PartialEq, Eq, Debug)]
pub struct Case {
    pub stages: u32,
    pub g: Vec<i16>,
    pub path: Vec<u8>,
    pub metric: Vec<i32>,
}

impl Case {
    /// A call that is not refused, with so many entries behind the path.
    pub fn new(g: Vec<i16>, behind: usize) -> Case {
        let stages = g.len() / STATES;
        Case {
            stages: stages as u32,
            g,
            // No state, so that an entry which is not written shows.
            path: vec![0x5A; stages + 1 + behind],
            metric: vec![0x5A5A_5A5A],
        }
    }

    /// The code to answer: a metric of a wrong length goes before Note 3's.
    pub fn code(&self) -> u32 {
        let stages = u64::from(self.stages);
        if self.metric.len() != 1 {
            WRONG_LENGTH
        } else if stages > MAX_STAGES as u64 || self.g.len() as u64 != 8 * stages {
            BAD_STAGES
        } else if (self.path.len() as u64) < stages + 1 {
            SHORT_PATH
        } else {
            0
        }
    }
}

/// The case of a number; a third is refused.
pub fn case(seed: u64, number: u64) -> Case {
    let mut rng = Rng::new(seed, number);
    let most = MAX_STAGES as u32;
    let stages = match rng.below(8) {
        0..=3 => rng.between(0, FEW_STAGES),
        4..=5 => rng.between(0, 40),
        6 => rng.between(0, most),
        _ => most - rng.below(3),
    };
    let g = values(&mut rng, STATES * stages as usize);
    let behind = if rng.chance(30) { 0 } else { rng.index(20) };
    let mut case = Case::new(g, behind);
    if rng.chance(33) {
        for _ in 0..rng.between(1, 2) {
            spoil(&mut rng, &mut case);
        }
    }
    case
}

/// Branch values of one kind: of any size, small ones with many equal sums, extremes, all equal,
/// mostly 0, and those of a sent path.
fn values(rng: &mut Rng, count: usize) -> Vec<i16> {
    let size = 1 << rng.below(15);
    let kind = rng.below(6);
    let draw = |rng: &mut Rng| match kind {
        0 => rng.word() as i16,
        1 => noise(rng, size),
        2 => rng.pick(&EXTREMES),
        _ if rng.chance(10) => noise(rng, size),
        _ => 0,
    };
    match kind {
        3 => vec![rng.pick(&EXTREMES); count],
        4 => sent(rng, count, size),
        _ => (0..count).map(|_| draw(rng)).collect(),
    }
}

fn noise(rng: &mut Rng, size: i32) -> i16 {
    rng.signed(-size, size) as i16
}

/// The values of a random path, with noise of a size.
pub fn sent(rng: &mut Rng, count: usize, size: i32) -> Vec<i16> {
    let mut g: Vec<i16> = (0..count).map(|_| noise(rng, size)).collect();
    let mut state = rng.index(STATES);
    for values in g.chunks_exact_mut(STATES) {
        let new = state % 4 * 2 + rng.index(2);
        values[new] += if state < 4 { -SIGNAL } else { SIGNAL };
        state = new;
    }
    g
}

/// Makes one part of a call wrong.
fn spoil(rng: &mut Rng, case: &mut Case) {
    let (values, stages) = (case.g.len(), case.g.len() / STATES);
    match rng.below(5) {
        0 => more_stages(rng, case),
        // In 32 bits eight times as many stages are as many values.
        1 => case.stages = stages as u32 + 0x2000_0000 * rng.between(1, 7),
        2 => {
            let lengths = [0, values.saturating_sub(1), values + 1, values + STATES];
            case.g.resize(rng.pick(&lengths), 1);
        }
        3 => {
            let lengths = [0, stages, rng.index(stages + 1)];
            case.path.truncate(rng.pick(&lengths));
        }
        _ => case.metric.resize(rng.pick(&[0, 2, 3]), 7),
    }
}

/// Over 1,024 stages, some with as many values and entries as they take.
fn more_stages(rng: &mut Rng, case: &mut Case) {
    let most = MAX_STAGES as u32;
    if rng.chance(50) {
        *case = Case::new(vec![1; STATES * (MAX_STAGES + rng.index(3) + 1)], 0);
    } else {
        let any = rng.between(most + 1, u32::MAX);
        case.stages = rng.pick(&[most + 1, 2 * most, 1 << 31, u32::MAX, any]);
    }
}
