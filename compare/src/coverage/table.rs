//! The coverage table, and what is missing in it.

use super::{
    codes_of, Coverage, CALLS, CIRCULAR_KINDS, CODES, FEATURES, FIELDS, FIRST_RUN, FORWARD_KINDS,
    OP_NUMBERS,
};
use crate::generate::intent::{BufferFault, BUFFER_FAULTS, DIRECTORY_FAULTS};
use crate::generate::slots::{CIRCULAR_OPS, OPS};

const UNITS: [&str; 11] = [
    "",
    "X ALU",
    "Y ALU",
    "X shifter",
    "Y shifter",
    "X CLU",
    "Y CLU",
    "J IALU",
    "K IALU",
    "X transfer",
    "Y transfer",
];
const FILES: [&str; 4] = ["XR", "YR", "J", "K"];
const DIRECTIONS: [&str; 2] = ["loads", "stores"];
const CONDITIONS: [&str; 12] = [
    "JEQ", "JLT", "JLE", "JNEQ", "JNLT", "JNLE", "KEQ", "KLT", "KLE", "KNEQ", "KNLT", "KNLE",
];
/// Of a condition.
const OUTCOMES: [&str; 2] = ["fails", "holds"];
/// Of the flags that a conditional load reads.
const STORED: [&str; 2] = ["flags not stored", "flags stored"];
/// Whose condition a fetch comes too late for.
const WHOSE: [&str; 2] = ["of the slot", "of DESPREAD's load"];
const IALUS: [&str; 2] = ["J", "K"];
const BLOCKS: [&str; 2] = ["X", "Y"];
/// The widest row of ops.
const OPS_OF_A_ROW: usize = 13;

impl Coverage {
    /// Everything that must occur and did not.
    pub fn missing(&self) -> Vec<String> {
        let mut rows = Vec::new();
        self.each_cell(|name, count| {
            if count == 0 {
                rows.push(name);
            }
        });
        rows
    }

    /// Calls `f` with each cell that must not stay 0.
    fn each_cell(&self, mut f: impl FnMut(String, u64)) {
        for (call, name) in CALLS.iter().enumerate() {
            for code in codes_of(call) {
                f(format!("{name}, code {code}"), self.codes[call][code]);
            }
        }
        for (call, counts) in (FIRST_RUN..).zip(&self.false_ends) {
            let name = CALLS[call];
            for code in codes_of(call) {
                let count = counts[code];
                f(format!("{name}, code {code}, a false end comes in"), count);
            }
        }
        self.each_condition_cell(&mut f);
        self.each_dab_cell(&mut f);
        for (unit, &ops) in OPS.iter().enumerate().skip(1) {
            for op in 1..=ops as usize {
                self.each_cell_of_op(unit, op, &mut f);
            }
        }
        self.each_small_cell(&mut f);
    }

    fn each_cell_of_op(&self, unit: usize, op: usize, f: &mut impl FnMut(String, u64)) {
        let name = format!("unit {unit} op {op}");
        f(format!("{name}, plain"), self.ops[unit][op]);
        f(format!("{name}, ordered"), self.ordered_ops[unit][op]);
        for (field, count) in self.fields[unit][op].into_iter().enumerate() {
            if has_field(unit, op, field) {
                f(format!("{name}, bad {}", FIELDS[field]), count);
            }
        }
    }

    fn each_dab_cell(&self, f: &mut impl FnMut(String, u64)) {
        for run in 0..2 {
            for (side, block) in IALUS_AND_BLOCKS {
                let name = format!("{}, {}", CALLS[FIRST_RUN + run], dab_name(side, block));
                for (position, kinds) in (1..).zip(self.dab_loads[run][side][block]) {
                    for (kind, count) in CIRCULAR_KINDS.iter().zip(kinds) {
                        f(format!("{name}, position {position}, {kind}"), count);
                    }
                }
                let count = self.idle_dab_loads[run][side][block];
                f(format!("{name}, not live"), count);
            }
        }
    }

    fn each_condition_cell(&self, f: &mut impl FnMut(String, u64)) {
        for run in 0..2 {
            let name = CALLS[FIRST_RUN + run];
            for (condition, counts) in CONDITIONS.iter().zip(self.conditions[run]) {
                for (outcome, count) in OUTCOMES.iter().zip(counts) {
                    f(format!("{name}, {condition} {outcome}"), count);
                }
            }
            for (outcome, counts) in OUTCOMES.iter().zip(self.loads[run]) {
                for (stored, count) in STORED.iter().zip(counts) {
                    f(format!("{name}, {}", load_name(outcome, stored)), count);
                }
            }
        }
        for (whose, outcomes) in WHOSE.iter().zip(self.late_flags) {
            for (outcome, counts) in OUTCOMES.iter().zip(outcomes) {
                for (ialu, count) in IALUS.iter().zip(counts) {
                    let name = late_name(whose, outcome, ialu);
                    f(format!("11, {name}"), count);
                }
            }
        }
    }

    fn each_small_cell(&self, f: &mut impl FnMut(String, u64)) {
        for (fault, count) in DIRECTORY_FAULTS.iter().zip(self.directory) {
            f(format!("directory fault {fault:?}"), count);
        }
        for (row, op) in CIRCULAR_OPS.into_iter().enumerate() {
            // An index that steps by 4 alone never wraps at the base.
            let kinds = if op < 24 {
                CIRCULAR_KINDS.len()
            } else {
                FORWARD_KINDS
            };
            for (name, count) in CIRCULAR_KINDS[..kinds].iter().zip(self.circular[row]) {
                f(format!("circular op {op}, {name}"), count);
            }
            for fault in BUFFER_FAULTS
                .into_iter()
                .filter(|&fault| stands_alone(op, fault))
            {
                let count = self.buffer[row][fault as usize];
                f(format!("circular op {op}, buffer fault {fault:?}"), count);
            }
        }
        for (side, directions) in self.accesses.iter().enumerate() {
            for (direction, files) in directions.iter().enumerate() {
                for (file, widths) in files.iter().enumerate() {
                    for (width, &count) in widths.iter().enumerate() {
                        f(access_name(side, direction, file, width), count);
                    }
                }
            }
        }
        for (op, &count) in self.saturated.iter().enumerate().skip(1) {
            // MAX alone cannot saturate, but its sums can.
            f(format!("CLU op {op} saturates"), count);
        }
        for (name, count) in FEATURES.iter().zip(self.features) {
            f((*name).to_string(), count);
        }
    }

    /// Prints the table.
    pub fn print(&self) {
        println!("cases by code");
        println!("  {:<16}{}", "", row(&CODES.map(|code| code as u64)));
        for (call, counts) in self.codes.iter().enumerate() {
            print_codes(call, counts);
        }
        println!("cases in which an end comes in false, by code");
        for (call, counts) in (FIRST_RUN..).zip(&self.false_ends) {
            print_codes(call, counts);
        }
        self.print_conditions();
        self.print_dab_loads();
        self.print_ops("slots done by op, plain run", &self.ops);
        self.print_ops("slots done by op, ordered run", &self.ordered_ops);
        self.print_fields();
        self.print_circular();
        self.print_accesses();
        println!(
            "CLU ops with a saturated sum\n  {:<16}{}",
            "op",
            numbers(1..=11)
        );
        println!("  {:<16}{}", "", row(&self.saturated[1..]));
        println!("directory faults refused");
        for (fault, count) in DIRECTORY_FAULTS.iter().zip(self.directory) {
            println!("  {:<44}{count:>9}", format!("{fault:?}"));
        }
        println!("others");
        for (name, count) in FEATURES.iter().zip(self.features) {
            println!("  {name:<44}{count:>9}");
        }
    }

    fn print_conditions(&self) {
        println!("slots done by condition: {}", CONDITIONS.join(", "));
        for run in 0..2 {
            for (number, outcome) in OUTCOMES.iter().enumerate() {
                let counts = self.conditions[run].map(|counts| counts[number]);
                let name = format!("{}, {outcome}", CALLS[FIRST_RUN + run]);
                println!("  {name:<20}{}", row(&counts));
            }
        }
        println!("a live DESPREAD beside a conditional THR load: plain run, ordered run");
        for (number, outcome) in OUTCOMES.iter().enumerate() {
            for (flags, stored) in STORED.iter().enumerate() {
                let counts = self.loads.map(|run| run[number][flags]);
                println!("  {:<28}{}", load_name(outcome, stored), row(&counts));
            }
        }
        println!("orders refused (11) for a condition's flags alone");
        for (whose, outcomes) in WHOSE.iter().zip(self.late_flags) {
            for (outcome, counts) in OUTCOMES.iter().zip(outcomes) {
                for (ialu, count) in IALUS.iter().zip(counts) {
                    println!("  {:<44}{count:>9}", late_name(whose, outcome, ialu));
                }
            }
        }
    }

    fn print_dab_loads(&self) {
        let kinds = CIRCULAR_KINDS[..FORWARD_KINDS].join(", ");
        println!("accesses through an alignment buffer, by the index's position 1, 2, 3, each:");
        println!("  {kinds}; and those not live");
        for run in 0..2 {
            for (side, block) in IALUS_AND_BLOCKS {
                let name = format!("{}, {}", CALLS[FIRST_RUN + run], dab_name(side, block));
                let counts = self.dab_loads[run][side][block];
                let idle = self.idle_dab_loads[run][side][block];
                println!("  {name:<20}{}{idle:>8}", row(counts.as_flattened()));
            }
        }
    }

    fn print_ops(&self, title: &str, ops: &[[u64; OP_NUMBERS]; 11]) {
        println!("{title}");
        for (unit, name) in UNITS.iter().enumerate().skip(1) {
            let counts = &ops[unit][1..=OPS[unit] as usize];
            for (part, counts) in counts.chunks(OPS_OF_A_ROW).enumerate() {
                let name = if part == 0 { name } else { "" };
                println!("  {name:<12}{:>4}{}", OPS_OF_A_ROW * part + 1, row(counts));
            }
        }
    }

    /// Fields are many: for each unit, the op whose field was refused least often.
    fn print_fields(&self) {
        println!("slots refused for one field: the rarest op of each unit");
        let names: String = FIELDS.iter().map(|name| format!("{name:>8}")).collect();
        println!("  {:<16}{names}", "");
        for (unit, name) in UNITS.iter().enumerate().skip(1) {
            let least = |field: usize| {
                let ops = (1..=OPS[unit] as usize).filter(|&op| has_field(unit, op, field));
                ops.map(|op| self.fields[unit][op][field])
                    .min()
                    .unwrap_or(0)
            };
            let counts: Vec<u64> = (0..FIELDS.len()).map(least).collect();
            println!("  {name:<16}{}", row(&counts));
        }
    }

    fn print_circular(&self) {
        println!("circular ops done: {}", CIRCULAR_KINDS.join(", "));
        for (index, op) in CIRCULAR_OPS.iter().enumerate() {
            println!("  op {op:<13}{}", row(&self.circular[index]));
        }
        println!("circular ops refused for one reason alone: {BUFFER_FAULTS:?}");
        for (index, op) in CIRCULAR_OPS.iter().enumerate() {
            println!("  op {op:<13}{}", row(&self.buffer[index]));
        }
    }

    fn print_accesses(&self) {
        println!("accesses done, by file and width (1, 2, 4 words)");
        for (side, directions) in self.accesses.iter().enumerate() {
            for (direction, files) in directions.iter().enumerate() {
                let name = format!("{} {}", IALUS[side], DIRECTIONS[direction]);
                let counts: String = FILES
                    .iter()
                    .zip(files)
                    .map(|(file, widths)| format!("  {file:>3}{}", row(widths)))
                    .collect();
                println!("  {name:<10}{counts}");
            }
        }
    }
}

/// Both IALUs, each with both blocks.
const IALUS_AND_BLOCKS: [(usize, usize); 4] = [(0, 0), (0, 1), (1, 0), (1, 1)];

fn dab_name(side: usize, block: usize) -> String {
    format!("{} to {}", IALUS[side], BLOCKS[block])
}

/// Whether a field of an op can break rule 3; the immediate of ops 24 and 25 breaks rule 16.
fn has_field(unit: usize, op: usize, field: usize) -> bool {
    !(matches!(unit, 7 | 8) && op >= 24 && FIELDS[field] == "imm")
}

/// Whether a circular op can be refused for this reason alone.
fn stands_alone(op: u32, fault: BufferFault) -> bool {
    match fault {
        // An op of width 1 has no multiples to miss.
        BufferFault::Base | BufferFault::Length => op != 13,
        // A length below 4 is no multiple of 4 either.
        BufferFault::Modifier => op < 24,
        _ => true,
    }
}

fn access_name(side: usize, direction: usize, file: usize, width: usize) -> String {
    let ialu = IALUS[side];
    let (direction, file, width) = (DIRECTIONS[direction], FILES[file], [1, 2, 4][width]);
    format!("{ialu} {direction} {width} words of {file}")
}

fn load_name(outcome: &str, stored: &str) -> String {
    format!("load {outcome}, {stored}")
}

fn late_name(whose: &str, outcome: &str, ialu: &str) -> String {
    format!("{ialu} flags, condition {whose} {outcome}")
}

/// A row of the codes that a call can answer, each under its number.
fn print_codes(call: usize, counts: &[u64]) {
    let columns: String = CODES
        .into_iter()
        .map(|code| match codes_of(call).find(|&known| known == code) {
            Some(code) => format!("{:>8}", counts[code]),
            None => format!("{:>8}", ""),
        })
        .collect();
    println!("  {:<16}{columns}", CALLS[call]);
}

fn row(counts: &[u64]) -> String {
    counts.iter().map(|count| format!("{count:>8}")).collect()
}

fn numbers(range: std::ops::RangeInclusive<u64>) -> String {
    row(&range.collect::<Vec<_>>())
}
