//! Measures the proved code against the plain and the tuned emulator, and the proved decoder
//! against the plain one: nanoseconds a line or a stage, and the ratios of the proved code's to
//! theirs.

use compare::decoder::work::{self, Work};
use compare::sides::{Fresh, Kind, KINDS, SIDES};
use compare::timing::{interleaved, ROUNDS};
use compare::workload::{workloads, Workload};

/// The sides by which the proved code's time is divided, as they are numbered.
const PLAIN: usize = 1;
const TUNED: usize = 2;

fn main() {
    let workloads = workloads();
    println!("images");
    for work in &workloads {
        let Workload {
            name,
            lines,
            slots,
            ops,
            ..
        } = work;
        println!("  {name:<18}{lines:>5} lines{slots:>6} slots{ops:>5} of 124 ops");
    }
    println!("nanoseconds of processor time a line, medians of {ROUNDS} rounds");
    println!(
        "  {:<18}{:<18}{:>10}{:>10}{:>10}{:>10}{:>10}",
        "image", "call", "proved", "plain", "tuned", "to plain", "to tuned"
    );
    let mut rows = Vec::new();
    for work in &workloads {
        for kind in &KINDS {
            rows.push(Row::measure(work, kind, kind.name, 0));
        }
    }
    let refused = workloads[2].refused();
    rows.push(Row::measure(&refused, &KINDS[0], "refused check", 3));
    summarize(&rows);
    measure_decoder();
}

struct Row {
    call: &'static str,
    /// Nanoseconds a line of each side.
    times: [f64; SIDES.len()],
}

impl Row {
    /// Measures calls that answer `code`, and prints the row.
    fn measure(work: &Workload, kind: &Kind, call: &'static str, code: u32) -> Row {
        let line = 1e9 / work.lines as f64;
        let fresh = &mut Fresh::new(work);
        let times = interleaved(fresh, kind.calls, kind.common, PLAIN, code);
        let times = times.map(|seconds| seconds * line);
        let row = Row { call, times };
        let [proved, plain, tuned] = times;
        println!(
            "  {:<18}{call:<18}{proved:>10.1}{plain:>10.1}{tuned:>10.1}{:>10.2}{:>10.2}",
            work.name,
            row.ratio(PLAIN),
            row.ratio(TUNED)
        );
        row
    }

    /// The proved code's time to another side's.
    fn ratio(&self, side: usize) -> f64 {
        self.times[0] / self.times[side]
    }
}

fn summarize(rows: &[Row]) {
    let calls = [
        "check of words",
        "check of bytes",
        "refused check",
        "plain run",
        "ordered run",
    ];
    for (title, side) in [("proved / plain", PLAIN), ("proved / tuned", TUNED)] {
        println!("{title}");
        let ratios = |call| {
            rows.iter()
                .filter(move |row| row.call == call)
                .map(|row| row.ratio(side))
        };
        for call in calls {
            print_summary(call, &ratios(call).collect::<Vec<f64>>());
        }
        let all: Vec<f64> = rows.iter().map(|row| row.ratio(side)).collect();
        print_summary("all", &all);
    }
}

fn print_summary(name: &str, ratios: &[f64]) {
    let logarithms: f64 = ratios.iter().map(|ratio| ratio.ln()).sum();
    let mean = (logarithms / ratios.len() as f64).exp();
    let worst = ratios.iter().copied().fold(0.0, f64::max);
    println!("  {name:<18}geometric mean {mean:>6.2}, worst {worst:>6.2}");
}

fn measure_decoder() {
    println!("decoder, nanoseconds of processor time a stage");
    println!(
        "  {:<10}{:>10}{:>10}{:>10}",
        "stages", "proved", "plain", "to plain"
    );
    for stages in work::STAGES {
        let mut work = Work::new(stages);
        let times = interleaved(&mut work, work::CALLS, work::nothing, PLAIN, 0);
        let [proved, plain] = times.map(|seconds| seconds * 1e9 / f64::from(stages));
        println!(
            "  {stages:<10}{proved:>10.1}{plain:>10.1}{:>10.2}",
            proved / plain
        );
    }
}
