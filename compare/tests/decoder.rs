//! The proved and the plain decoder on given calls and on random ones, and the judge of both.

use compare::decoder::cases::Case;
use compare::decoder::comparison::{compare_case, judge, Best, Decoder, DECODERS};
use compare::decoder::paths::{best_of_all, each_path, summed};
use compare::decoder::tally::Tally;
use compare::decoder::{BAD_STAGES, MAX_STAGES, SHORT_PATH, STATES};
use compare::proved::{self, WRONG_LENGTH};

const CASES: u64 = 20_000;

/// Both decoders answer a best path of the given metric.
fn assert_metric(g: &[i16], metric: i64) {
    for behind in [0, 3] {
        let case = Case::new(g.to_vec(), behind);
        for (name, decoder) in DECODERS {
            assert_eq!(judge(decoder, &case, metric), Ok(()), "{name}");
        }
    }
}

#[test]
fn no_stages() {
    assert_metric(&[], 0);
}

#[test]
fn a_path_worked_by_hand() {
    // To states 1, 2 and 5 from below 4, which subtracts, then from 5 to 3, which adds.
    let mut g = [0; 4 * STATES];
    (g[1], g[8 + 2], g[16 + 5], g[24 + 3]) = (-8, -9, -10, 9);
    assert_metric(&g, 36);
    for (name, decoder) in DECODERS {
        let (mut path, mut metric) = ([0xFF; 5], [0]);
        assert_eq!(decoder(4, &g, &mut path, &mut metric), 0, "{name}");
        assert_eq!((path, metric), ([0, 1, 2, 5, 3], [36]), "{name}");
    }
}

#[test]
fn all_values_equal() {
    // A stage gains at most the value's size; states 0 and 7 can stay and gain it each time.
    for value in [i16::MIN, -1, 0, 1, i16::MAX] {
        for stages in [1, 2, 5, MAX_STAGES - 1, MAX_STAGES] {
            let metric = stages as i64 * i64::from(value).abs();
            assert_metric(&vec![value; STATES * stages], metric);
        }
    }
}

#[test]
fn random_cases() {
    let tally = Tally::of(3, CASES);
    assert_eq!((tally.differing, tally.first.as_ref()), (0, None));
    assert_eq!(tally.missing(), [""; 0]);
}

/// Lengths of values, path and metric; the code is that of both decoders, and nothing changes but a
/// metric that becomes 0.
fn assert_refused(stages: u32, [values, path, metric]: [usize; 3], code: u32) {
    let case = Case {
        stages,
        g: vec![-7; values],
        path: vec![90; path],
        metric: vec![90; metric],
    };
    assert_eq!(case.code(), code, "{stages} stages");
    assert_eq!(compare_case(&case, &Best::of(&case)), Ok(()));
}

#[test]
fn refusals() {
    for stages in [1025, 0x2000_0000, 0x2000_0001, 1 << 31, u32::MAX] {
        for values in [0, 8, 8192, 8200] {
            assert_refused(stages, [values, 1026, 1], BAD_STAGES);
            assert_refused(stages, [values, 0, 1], BAD_STAGES);
        }
    }
    for values in [0, 8, 15, 17, 24] {
        assert_refused(2, [values, 3, 1], BAD_STAGES);
        assert_refused(2, [values, 2, 1], BAD_STAGES);
    }
    for (stages, path) in [(0, 0), (2, 0), (2, 2), (1024, 1024)] {
        assert_refused(stages, [8 * stages as usize, path, 1], SHORT_PATH);
    }
    for metric in [0, 2, 3] {
        assert_refused(2, [16, 3, metric], WRONG_LENGTH);
        assert_refused(1025, [16, 3, metric], WRONG_LENGTH);
        assert_refused(2, [16, 2, metric], WRONG_LENGTH);
    }
}

#[test]
fn paths_are_all_sequences_of_steps() {
    for stages in 0..=3 {
        let g = vec![1; STATES * stages];
        let mut paths = Vec::new();
        each_path(stages, |path| paths.push(path.to_vec()));
        // Every number of stages + 1 digits from 0 to 7.
        let all = (0..8u32.pow(stages as u32 + 1)).map(|number| {
            let digit = |t: usize| (number >> (3 * t) & 7) as u8;
            (0..=stages).rev().map(digit).collect::<Vec<u8>>()
        });
        let steps = |path: &Vec<u8>| path.windows(2).all(|step| step[0] % 4 == step[1] / 2);
        let expected: Vec<Vec<u8>> = all.clone().filter(steps).collect();
        assert_eq!(paths, expected);
        assert_eq!(expected.len(), 8 << stages);
        assert!(all
            .filter(|path| !steps(path))
            .all(|path| summed(&g, &path).is_none()));
    }
    assert_eq!(summed(&[], &[8]), None);
    assert_eq!(summed(&[], &[]), None);
    assert_eq!(best_of_all(&[]), (0, 8));
    // From 0 to 3 to states 0 to 7, each gaining 1; the other eight steps lose it.
    assert_eq!(best_of_all(&[-1; 8]), (1, 8));
}

/// Two stages with one best path, and an entry behind it.
fn two_stages() -> Case {
    let g = vec![3, -9, 4, 2, 0, 1, -5, 7, 2, 6, -8, 1, 4, -3, 9, 5];
    Case::new(g, 1)
}

/// Each is wrong in another way where two stages are decoded.
const WRONG: [Decoder; 8] = [
    |_, _, _, _| 0,
    |stages, g, path, metric| proved::best_path(stages, g, path, metric) + 1,
    |stages, g, path, metric| {
        let code = proved::best_path(stages, g, path, metric);
        metric[0] += 1;
        code
    },
    |stages, g, path, metric| {
        let code = proved::best_path(stages, g, path, metric);
        path[3] = 0;
        code
    },
    |stages, g, path, metric| {
        let code = proved::best_path(stages, g, path, metric);
        path[0] ^= 4;
        code
    },
    |stages, g, path, metric| {
        let code = proved::best_path(stages, g, path, metric);
        path[..3].reverse();
        code
    },
    // A path and its metric, but no best one.
    |_, g, path, metric| {
        path[..3].fill(0);
        metric[0] = -i32::from(g[0] + g[8]);
        0
    },
    // A best path of other values.
    |stages, g, path, metric| {
        let negative: Vec<i16> = g.iter().map(|value| -value).collect();
        proved::best_path(stages, &negative, path, metric)
    },
];

#[test]
fn the_judge_sees_wrong_answers() {
    let case = two_stages();
    let best = Best::of(&case);
    assert_eq!(best.paths, Some(1));
    assert_eq!(compare_case(&case, &best), Ok(()));
    for (number, wrong) in WRONG.into_iter().enumerate() {
        assert!(judge(wrong, &case, best.metric).is_err(), "{number}");
    }
}

/// Each is wrong in another way where a call is refused.
const WRONG_REFUSALS: [Decoder; 3] = [
    |_, _, _, _| 0,
    |stages, g, path, metric| {
        path[0] = 1;
        proved::best_path(stages, g, path, metric)
    },
    |stages, g, path, metric| {
        let before = metric[0];
        let code = proved::best_path(stages, g, path, metric);
        metric[0] = if code == WRONG_LENGTH { 0 } else { before };
        code
    },
];

#[test]
fn the_judge_sees_wrong_refusals() {
    let (mut too_few_values, mut short_path, mut two_metrics) =
        (two_stages(), two_stages(), two_stages());
    too_few_values.stages = 3;
    short_path.path.truncate(2);
    two_metrics.metric.push(1);
    for case in [too_few_values, short_path, two_metrics] {
        assert_eq!(judge(proved::best_path, &case, 0), Ok(()));
        for (number, wrong) in WRONG_REFUSALS.into_iter().enumerate() {
            assert!(judge(wrong, &case, 0).is_err(), "{number}");
        }
    }
}
