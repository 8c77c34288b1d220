//! One call by the proved and by the plain decoder, judged by the definition of a best path.

use super::cases::{Case, FEW_STAGES};
use super::paths::{best_of_all, summed};
use super::{best_path, STATES};
use crate::proved::{self, WRONG_LENGTH};
use std::fmt::Debug;

/// A decoder with the C call's parameters: stages, branch values, path and metric.
pub type Decoder = fn(u32, &[i16], &mut [u8], &mut [i32]) -> u32;

pub const DECODERS: [(&str, Decoder); 2] = [
    ("the proved decoder", proved::best_path),
    ("the plain decoder", plain),
];

fn plain(stages: u32, g: &[i16], path: &mut [u8], metric: &mut [i32]) -> u32 {
    let [metric] = metric else {
        return WRONG_LENGTH;
    };
    let code;
    (code, *metric) = best_path(stages, g, path);
    code
}

/// The best metric of a case, and how many paths have it where all were tried.
pub struct Best {
    pub metric: i64,
    pub paths: Option<u32>,
}

impl Best {
    /// Of all paths where there are few stages, else by the plain decoder.
    pub fn of(case: &Case) -> Best {
        if case.stages <= FEW_STAGES && case.code() == 0 {
            let (metric, paths) = best_of_all(&case.g);
            return Best {
                metric,
                paths: Some(paths),
            };
        }
        let (_, metric) = best_path(case.stages, &case.g, &mut case.path.clone());
        Best {
            metric: i64::from(metric),
            paths: None,
        }
    }
}

/// Both decoders on a case; the first fault in words.
pub fn compare_case(case: &Case, best: &Best) -> Result<(), String> {
    for (name, decoder) in DECODERS {
        judge(decoder, case, best.metric).map_err(|fault| format!("{name}, {fault}"))?;
    }
    Ok(())
}

/// Makes a call, and says what is wrong with its answer.
pub fn judge(decoder: Decoder, case: &Case, best: i64) -> Result<(), String> {
    let Case {
        stages,
        g,
        mut path,
        mut metric,
    } = case.clone();
    let code = decoder(stages, &g, &mut path, &mut metric);
    same("code", case.code(), code)?;
    if code == WRONG_LENGTH {
        same("metric", &case.metric, &metric)?;
        return same("path", &case.path, &path);
    }
    if code != 0 {
        same("metric", &vec![0], &metric)?;
        return same("path", &case.path, &path);
    }
    let states = g.len() / STATES + 1;
    same("behind the path", &case.path[states..], &path[states..])?;
    same("the path's sum", Some(best), summed(&g, &path[..states]))?;
    same("metric", best, i64::from(metric[0]))
}

fn same<T: PartialEq + Debug>(place: &str, expected: T, found: T) -> Result<(), String> {
    if found == expected {
        Ok(())
    } else {
        Err(format!("{place}: {found:?} in place of {expected:?}"))
    }
}
