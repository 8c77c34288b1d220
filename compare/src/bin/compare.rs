//! Compares the proved code and the tuned emulator with the plain emulator on random cases, and the
//! proved decoder with the plain one and with all paths: `compare [cases] [seed]`.

use compare::comparison::{compare_case, compare_wrong_lengths, Call, Difference};
use compare::coverage::Coverage;
use compare::decoder::tally::Tally;
use compare::generate;
use std::process::ExitCode;

const DEFAULT_CASES: u64 = 200_000;
const DEFAULT_SEED: u64 = 1;
/// From this many cases on, everything that the table counts must have occurred.
const COVERING_CASES: u64 = 200_000;
/// One case in so many is called with wrong lengths too.
const WRONG_LENGTHS_EVERY: u64 = 16;
/// Lengths of state and report, of which at least one is wrong for each run.
const WRONG_LENGTHS: [[usize; 2]; 11] = [
    [245, 6],
    [247, 6],
    [222, 6],
    [238, 6],
    [0, 6],
    [246, 5],
    [246, 7],
    [246, 0],
    [246, 3],
    [492, 12],
    [0, 0],
];

fn main() -> ExitCode {
    let mut arguments = std::env::args().skip(1);
    let (Some(cases), Some(seed)) = (
        number(arguments.next(), DEFAULT_CASES),
        number(arguments.next(), DEFAULT_SEED),
    ) else {
        eprintln!("usage: compare [cases] [seed]");
        return ExitCode::from(2);
    };
    let mut coverage = Coverage::default();
    let mut differing = 0;
    let mut first = None;
    for case in 0..cases {
        if let Err(difference) = compare(seed, case, &mut coverage) {
            differing += 1;
            first.get_or_insert((case, difference));
        }
    }
    coverage.print();
    let decoder = Tally::of(seed, cases);
    decoder.print();
    let missing = [coverage.missing(), decoder.missing()].concat();
    let covered = report_missing(&missing, cases);
    if let Some((case, fault)) = &decoder.first {
        println!("first difference of a decoder: seed {seed}, case {case}, {fault}");
    }
    if let Some((case, difference)) = first {
        print_difference(seed, case, &difference);
    }
    println!("{cases} decoder cases, {} differ", decoder.differing);
    println!("{cases} cases, {differing} differ");
    if differing == 0 && decoder.differing == 0 && covered {
        ExitCode::SUCCESS
    } else {
        ExitCode::FAILURE
    }
}

fn number(argument: Option<String>, default: u64) -> Option<u64> {
    match argument {
        None => Some(default),
        Some(text) => text.parse().ok(),
    }
}

fn compare(seed: u64, number: u64, coverage: &mut Coverage) -> Result<(), Difference> {
    let case = generate::case(seed, number);
    let (answers, result) = compare_case(&case);
    coverage.observe(&case, &answers);
    if number.is_multiple_of(WRONG_LENGTHS_EVERY) {
        let turn = (number / WRONG_LENGTHS_EVERY) as usize;
        let lengths = WRONG_LENGTHS[turn % WRONG_LENGTHS.len()];
        coverage.observe_wrong_lengths(&case, lengths);
        compare_wrong_lengths(&case, lengths)?;
    }
    result
}

/// Prints what never occurred; answers whether all did, or the run was too short to tell.
fn report_missing(missing: &[String], cases: u64) -> bool {
    if cases < COVERING_CASES {
        println!("{} cells of the table are empty", missing.len());
        return true;
    }
    for name in missing {
        println!("never occurred: {name}");
    }
    missing.is_empty()
}

fn print_difference(seed: u64, case: u64, difference: &Difference) {
    let Difference {
        call: Call { name, side },
        place,
        emulator,
        other,
    } = difference;
    println!(
        "first difference: seed {seed}, case {case}, {name}, {place}: \
         the emulator has {emulator}, {side} {other}"
    );
}
