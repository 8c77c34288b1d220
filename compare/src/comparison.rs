//! Runs one case through the emulator, the proved code and the tuned emulator, and finds the first
//! number in which the emulator and one of the others differ.

use crate::coverage::Answers;
use crate::emulator::machine::{DAB, END, STATE_WORDS};
use crate::emulator::{self, Report};
use crate::generate::Case;
use crate::outcome::Outcome;
use crate::proved::{self, CHECK_REPORT_WORDS, RUN_REPORT_WORDS, WRONG_LENGTH};
use crate::tuned;

/// A number that differs.
#[derive(Clone, PartialEq, Eq, Debug)]
pub struct Difference {
    pub call: Call,
    pub place: String,
    pub emulator: u32,
    pub other: u32,
}

/// A call, and who made it beside the emulator.
#[derive(Clone, Copy, PartialEq, Eq, Debug)]
pub struct Call {
    pub name: &'static str,
    pub side: &'static str,
}

const fn proved_call(name: &'static str) -> Call {
    Call {
        name,
        side: "the proved code",
    }
}

const fn tuned_call(name: &'static str) -> Call {
    Call {
        name,
        side: "the tuned emulator",
    }
}

const REPORT_NAMES: [&str; 6] = [
    "code",
    "line",
    "slot",
    "lines done",
    "steps, low word",
    "steps, high word",
];

/// Filled into reports beforehand, so that a word which is not written shows.
const UNWRITTEN: u32 = 0xDEAD_BEEF;

/// Compares two lists word by word.
fn compare_words(
    call: Call,
    emulator: &[u32],
    other: &[u32],
    name: impl Fn(usize) -> String,
) -> Result<(), Difference> {
    match emulator.iter().zip(other).position(|(a, b)| a != b) {
        None => Ok(()),
        Some(index) => Err(Difference {
            call,
            place: name(index),
            emulator: emulator[index],
            other: other[index],
        }),
    }
}

fn compare_answer(call: Call, emulator: u32, other: u32) -> Result<(), Difference> {
    compare_words(call, &[emulator], &[other], |_| "answer".to_string())
}

/// All calls of a case; the answers are the emulator's.
pub fn compare_case(case: &Case) -> (Answers, Result<(), Difference>) {
    let bytes = emulator::check_bytes(case.bytes());
    let check = emulator::check(&case.image);
    let inputs = case.inputs();
    let plain = Outcome::plain::<emulator::State>(&inputs);
    let ordered = Outcome::ordered::<emulator::State>(&inputs);
    let answers = Answers {
        bytes,
        check,
        plain: plain.report,
        ordered: ordered.report,
    };
    let result = compare_bytes(case, bytes)
        .and_then(|()| compare_check(case, check))
        .and_then(|()| {
            let tuned = Outcome::plain::<tuned::State>(&inputs);
            compare_run("plain run", case, Buffers::run, &plain, &tuned)
        })
        .and_then(|()| {
            let tuned = Outcome::ordered::<tuned::State>(&inputs);
            compare_run("ordered run", case, Buffers::run_ordered, &ordered, &tuned)
        });
    (answers, result)
}

/// The emulator's outcome with another's.
fn compare_outcome(
    call: Call,
    emulator: &Outcome,
    report: &[u32],
    state: &[u32],
    memory: &[u32],
) -> Result<(), Difference> {
    compare_words(call, &report_words(&emulator.report), report, report_place)?;
    compare_words(call, &emulator.state, state, state_place)?;
    compare_words(call, &emulator.memory, memory, memory_place)
}

/// What the proved code writes to.
struct Buffers {
    state: Vec<u32>,
    memory: Vec<u32>,
    report: Vec<u32>,
}

impl Buffers {
    fn of(case: &Case) -> Buffers {
        Buffers {
            state: case.state_words().to_vec(),
            memory: case.memory.clone(),
            report: vec![UNWRITTEN; RUN_REPORT_WORDS],
        }
    }

    fn run(&mut self, case: &Case) -> u32 {
        proved::run(
            &case.image,
            &mut self.state,
            &mut self.memory,
            &mut self.report,
        )
    }

    fn run_ordered(&mut self, case: &Case) -> u32 {
        proved::run_ordered(
            &case.image,
            &case.orders,
            case.limit,
            &mut self.state,
            &mut self.memory,
            &mut self.report,
        )
    }
}

fn report_words(report: &Report) -> [u32; RUN_REPORT_WORDS] {
    [
        report.code,
        report.line,
        report.slot,
        report.lines_done,
        report.steps as u32,
        (report.steps >> 32) as u32,
    ]
}

fn compare_bytes(case: &Case, code: u32) -> Result<(), Difference> {
    let name = "check of bytes";
    compare_answer(proved_call(name), code, proved::check_bytes(case.bytes()))?;
    compare_answer(tuned_call(name), code, tuned::check_bytes(case.bytes()))
}

fn compare_check(case: &Case, (code, line, slot): (u32, u32, u32)) -> Result<(), Difference> {
    let name = "check of words";
    let expected = [code, line, slot];
    let mut report = [UNWRITTEN; CHECK_REPORT_WORDS];
    let answer = proved::check_words(&case.image, &mut report);
    compare_words(proved_call(name), &expected, &report, report_place)?;
    compare_answer(proved_call(name), code, answer)?;
    let (code, line, slot) = tuned::check(&case.image);
    compare_words(
        tuned_call(name),
        &expected,
        &[code, line, slot],
        report_place,
    )
}

/// A run by the others: `run` makes that of the proved code.
fn compare_run(
    name: &'static str,
    case: &Case,
    run: fn(&mut Buffers, &Case) -> u32,
    emulator: &Outcome,
    tuned: &Outcome,
) -> Result<(), Difference> {
    let mut proved = Buffers::of(case);
    let answer = run(&mut proved, case);
    let call = proved_call(name);
    compare_outcome(
        call,
        emulator,
        &proved.report,
        &proved.state,
        &proved.memory,
    )?;
    compare_answer(call, emulator.report.code, answer)?;
    let report = report_words(&tuned.report);
    compare_outcome(
        tuned_call(name),
        emulator,
        &report,
        &tuned.state,
        &tuned.memory,
    )
}

/// With a state or a report of a wrong length each call answers 255 and changes nothing.
/// `lengths` are those of the state and the report.
pub fn compare_wrong_lengths(case: &Case, lengths: [usize; 2]) -> Result<(), Difference> {
    let [state_words, report_words] = lengths;
    if report_words != CHECK_REPORT_WORDS {
        let mut report = vec![UNWRITTEN; report_words];
        let answer = proved::check_words(&case.image, &mut report);
        let call = proved_call("check of words, wrong length");
        compare_answer(call, WRONG_LENGTH, answer)?;
        let unwritten = vec![UNWRITTEN; report_words];
        compare_words(call, &unwritten, &report, |index| format!("report {index}"))?;
    }
    if state_words == STATE_WORDS && report_words == RUN_REPORT_WORDS {
        return Ok(());
    }
    type Run = fn(&mut Buffers, &Case) -> u32;
    let runs: [(Call, Run); 2] = [
        (proved_call("plain run, wrong length"), Buffers::run),
        (
            proved_call("ordered run, wrong length"),
            Buffers::run_ordered,
        ),
    ];
    for (call, run) in runs {
        let mut buffers = Buffers::of(case);
        buffers.state.resize(state_words, UNWRITTEN);
        buffers.report.resize(report_words, UNWRITTEN);
        let (state, report) = (buffers.state.clone(), buffers.report.clone());
        let answer = run(&mut buffers, case);
        compare_answer(call, WRONG_LENGTH, answer)?;
        compare_words(call, &state, &buffers.state, |index| {
            format!("state word {index}")
        })?;
        compare_words(call, &case.memory, &buffers.memory, memory_place)?;
        compare_words(call, &report, &buffers.report, |index| {
            format!("report {index}")
        })?;
    }
    Ok(())
}

fn report_place(index: usize) -> String {
    REPORT_NAMES[index].to_string()
}

fn memory_place(index: usize) -> String {
    format!("memory word {index}")
}

/// The name of a word of a state.
fn state_place(index: usize) -> String {
    const FILES: [(&str, usize); 12] = [
        ("XR", 32),
        ("YR", 32),
        ("X TR", 32),
        ("Y TR", 32),
        ("X THR", 4),
        ("Y THR", 4),
        ("J", 31),
        ("K", 31),
        ("J base ", 4),
        ("K base ", 4),
        ("J length ", 4),
        ("K length ", 4),
    ];
    const FLAGS: [&str; 8] = [
        "X ALU",
        "Y ALU",
        "X shifter",
        "Y shifter",
        "X CLU",
        "Y CLU",
        "J",
        "K",
    ];
    let mut left = index;
    for (name, words) in FILES {
        if left < words {
            return format!("{name}{left}");
        }
        left -= words;
    }
    match FLAGS.get(left) {
        Some(group) => format!("{group} flags"),
        None if index < DAB => end_place(index - END),
        None => dab_place(index - DAB),
    }
}

/// The name of a word of the ends.
fn end_place(index: usize) -> String {
    let (buffer, half) = (index / 2, ["low", "high"][index % 2]);
    let ialu = ["J", "K"][buffer / 4];
    format!("{ialu} end {}, {half} word", buffer % 4)
}

/// The name of a word of the alignment buffers.
fn dab_place(index: usize) -> String {
    let block = ["X", "Y"][index / 4];
    format!("{block} alignment buffer, word {}", index % 4)
}
