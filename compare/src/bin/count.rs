//! Makes calls of one kind for a count of instructions: `count SIDE CALL IMAGE N`. Prints how many
//! lines the image has, or how many stages the decoder is given.

use compare::decoder::work::{self, Work};
use compare::decoder::MAX_STAGES;
use compare::sides::{renew, Call, Fresh, KINDS, SIDES};
use compare::workload::{workload, NAMES};
use std::process::ExitCode;

const USAGE: &str = "usage: count SIDE CALL IMAGE N
SIDE: proved, plain, tuned
CALL: words, bytes, plain, ordered, renew (of any side)
IMAGE: a name or a number from 0
N: how many calls
or: count SIDE path STAGES N
SIDE: proved, plain
STAGES: up to 1024";
const CALLS: [&str; 4] = ["words", "bytes", "plain", "ordered"];

fn main() -> ExitCode {
    let arguments: Vec<String> = std::env::args().skip(1).collect();
    let Some(parts) = run_lines(&arguments).or_else(|| decode_stages(&arguments)) else {
        eprintln!("{USAGE}");
        return ExitCode::from(2);
    };
    println!("{parts}");
    ExitCode::SUCCESS
}

/// Calls on an image; the answer is how many lines it has.
fn run_lines(arguments: &[String]) -> Option<usize> {
    let (call, image, calls) = parse(arguments)?;
    let work = workload(image);
    let mut fresh = Fresh::new(&work);
    for _ in 0..calls {
        assert_eq!(call(&mut fresh), 0);
    }
    Some(work.lines)
}

/// Calls of a decoder; the answer is how many stages it is given.
fn decode_stages(arguments: &[String]) -> Option<usize> {
    let [side, call, stages, calls] = arguments else {
        return None;
    };
    let side = work::SIDES.iter().position(|name| name == side)?;
    let stages = stages.parse().ok().filter(|&stages| stages <= MAX_STAGES)?;
    let calls: u64 = calls.parse().ok().filter(|_| call == "path")?;
    let mut work = Work::new(stages as u32);
    for _ in 0..calls {
        assert_eq!(work::CALLS[side](&mut work), 0);
    }
    Some(stages)
}

fn parse(arguments: &[String]) -> Option<(Call, usize, u64)> {
    let [side, call, image, calls] = arguments else {
        return None;
    };
    let side = SIDES.iter().position(|name| name == side)?;
    let call = match CALLS.iter().position(|name| name == call) {
        Some(kind) => KINDS[kind].calls[side],
        None if call == "renew" => renew,
        None => return None,
    };
    let named = NAMES.iter().position(|name| name == image);
    let image = named.or_else(|| image.parse().ok().filter(|&image| image < NAMES.len()))?;
    Some((call, image, calls.parse().ok()?))
}
