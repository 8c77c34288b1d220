//! Images to measure on: each is accepted, runs to its end with code 0, and has admissible orders.

use crate::emulator::machine::STATE_WORDS;
use crate::emulator::run::run_line;
use crate::emulator::slot::SLOT_WORDS;
use crate::emulator::{run, run_ordered, State};
use crate::generate::lines::{good_line, line_of};
use crate::generate::orders::admissible_order;
use crate::generate::pack::pack;
use crate::generate::slots::{Setting, SlotWords};
use crate::generate::values;
use crate::prng::Rng;
use crate::tuned;

const SEED: u64 = 2;
const MEMORY_WORDS: usize = 256;
/// Leaves room for the longest line and its pair in the directory.
const LONGEST_IMAGE: usize = 16_384 - 30;

/// One line, a kernel, a long mixed image, a lightly filled one, and circular and bit-reversed
/// accesses alone, all without conditions; a kernel of conditional slots; and unaligned accesses
/// alone.
pub const NAMES: [&str; 8] = [
    "one line",
    "kernel",
    "long mixed",
    "one slot a line",
    "circular",
    "bit-reversed",
    "conditional",
    "unaligned",
];

#[derive(Clone)]
pub struct Workload {
    pub name: &'static str,
    pub image: Vec<u32>,
    pub bytes: Vec<u8>,
    pub orders: Vec<u8>,
    pub state: State,
    pub tuned_state: tuned::State,
    pub state_words: [u32; STATE_WORDS],
    pub memory: Vec<u32>,
    pub lines: usize,
    pub slots: usize,
    /// How many different ops of the 124 there are.
    pub ops: usize,
}

/// The images in the order of their names.
pub fn workloads() -> [Workload; NAMES.len()] {
    std::array::from_fn(workload)
}

/// The image of a number below 8.
pub fn workload(number: usize) -> Workload {
    let name = NAMES[number];
    match number {
        0 => written(name, kernel_state(), vec![one_line()]),
        1 => written(name, kernel_state(), kernel()),
        2 => drawn(name, 1000, 2),
        3 => drawn(name, 1000, 1),
        4 => written(name, buffers_state(), circular()),
        5 => written(name, blocks_state(), bit_reversed()),
        6 => written(name, turns_state(), conditional()),
        _ => written(name, quads_state(), unaligned()),
    }
}

/// Given lines on a given state.
fn written(name: &'static str, state: State, lines: Vec<Vec<u32>>) -> Workload {
    let memory = (0..MEMORY_WORDS as u32).map(|word| word * 977).collect();
    Workload::new(name, state, memory, lines)
}

/// A load, an add and an address step.
fn one_line() -> Vec<u32> {
    [
        [7, 17, 2 * 65_536 + 4, 4, 32, 2, 0],
        [1, 1, 0, 1, 2, 0, 0],
        [8, 1, 5, 5, 32, 1, 0],
    ]
    .concat()
}

/// Two circular buffers are read; path metrics, correlations and sums are written.
fn kernel() -> Vec<Vec<u32>> {
    let loads = [
        [7, 21, 4 * 65_536, 0, 32, 4, 0],
        [8, 21, 4 * 65_536 + 256, 0, 32, 4, 0],
    ];
    let metrics = [
        [5, 1, 0, 2, 4, 0, 0],
        [1, 1, 8, 0, 1, 0, 0],
        [6, 11, 0, 0, 0, 0, 0],
        [2, 11, 8, 0, 1, 0, 0],
    ];
    let scaling = [
        [3, 2, 9, 8, 30, 0, 0],
        [9, 1, 6, 8, 0, 0, 0],
        [4, 3, 9, 8, 30, 0, 0],
        [10, 3, 10, 0, 0, 0, 0],
    ];
    let stores = [
        [7, 19, 2 * 65_536 + 8, 4, 32, 2, 0],
        [8, 1, 5, 5, 32, 1, 0],
        [1, 3, 11, 9, 11, 0, 0],
        [2, 4, 11, 9, 11, 0, 0],
    ];
    let pass = [
        loads.concat(),
        metrics.concat(),
        scaling.concat(),
        stores.concat(),
    ];
    (0..10).flat_map(|_| pass.clone()).collect()
}

/// J0 walks words 0 to 63, K0 words 64 to 95, and J4 writes from word 128 on.
fn kernel_state() -> State {
    let mut state = State::ZERO;
    state.length[0][0] = 64;
    state.base[1][0] = 64;
    state.length[1][0] = 32;
    state.ialu[1][0] = 64;
    state.ialu[0][4] = 128;
    state.thr[1] = [0x1357_9BDF, 0x0246_8ACE, 0, 0];
    state.r[0][30] = 2;
    state.r[1][30] = 3;
    state
}

/// Circular loads and stores of four words and of one, a J and a K slot on each line; K's of one
/// word step down.
fn circular() -> Vec<Vec<u32>> {
    let (x, y) = (0, 256);
    let pass = [
        [
            [7, 21, 4 * 65_536 + x, 0, 32, 4, 0],
            [8, 21, 4 * 65_536 + y, 0, 32, 4, 0],
        ],
        [
            [7, 22, 4 * 65_536 + x, 1, 32, 4, 0],
            [8, 22, 4 * 65_536 + y, 1, 32, 4, 0],
        ],
        [
            [7, 21, 65_536 + x + 4, 2, 32, 1, 0],
            [8, 21, 65_536 + y + 4, 2, 32, u32::MAX, 0],
        ],
        [
            [7, 22, 65_536 + x + 4, 3, 32, 1, 0],
            [8, 22, 65_536 + y + 4, 3, 32, u32::MAX, 0],
        ],
    ];
    passes(10, &pass)
}

/// J's and K's buffers one behind the other, and each index at its buffer's base. Ten steps of four
/// words go round K's second, of 16 words, and round J's, of 32.
fn buffers_state() -> State {
    let mut state = State::ZERO;
    let lengths = [[64, 32, 32, 32], [32, 16, 16, 32]];
    let mut base = 0;
    for (ialu, lengths) in lengths.iter().enumerate() {
        for (number, &length) in lengths.iter().enumerate() {
            state.base[ialu][number] = base;
            state.length[ialu][number] = length;
            state.ialu[ialu][number] = base;
            base += length;
        }
    }
    state
}

/// Bit-reversed loads of one word and of four, a J and a K slot on each line.
fn bit_reversed() -> Vec<Vec<u32>> {
    let (x, y) = (0, 256);
    let pass = [
        [
            [7, 23, 65_536 + x, 0, 32, 32, 0],
            [8, 23, 65_536 + y, 0, 32, 32, 0],
        ],
        [
            [7, 23, 4 * 65_536 + x + 4, 1, 32, 64, 0],
            [8, 23, 4 * 65_536 + y + 4, 1, 32, 64, 0],
        ],
    ];
    passes(20, &pass)
}

/// Lines of two slots, so many times over.
fn passes(times: usize, pass: &[[SlotWords; 2]]) -> Vec<Vec<u32>> {
    (0..times)
        .flat_map(|_| pass.iter().map(|line| line.concat()))
        .collect()
}

/// Indices at blocks of 64 words for the loads of one word, and of 128 words for those of four,
/// where the first 32 stand at multiples of four.
fn blocks_state() -> State {
    let mut state = State::ZERO;
    state.ialu[1][0] = 64;
    state.ialu[1][1] = 128;
    state
}

/// Each pass turns J4 and K4 from 0 to 1 or back, so that of every line's conditional slots one
/// half is live in one pass and the other half in the next.
fn conditional() -> Vec<Vec<u32>> {
    // A condition's number plus 1: JEQ, JNEQ, KEQ, KNEQ.
    let (j_zero, j_not, k_zero, k_not) = (1, 4, 7, 10);
    let turns = [[7, 7, 4, 4, 32, 1, 0], [8, 7, 4, 4, 32, 1, 0]];
    let loads = [
        [7, 21, 4 * 65_536, 0, 32, 4, j_zero],
        [8, 21, 4 * 65_536 + 256, 0, 32, 4, k_not],
    ];
    let metrics = [
        [5, 1, 0, 2, 4, 0, j_zero],
        [1, 1, 8, 0, 1, 0, j_not],
        [6, 11, 0, 0, 0, 0, k_zero],
        [2, 11, 8, 0, 1, 0, k_not],
    ];
    let codes = [
        [5, 11, 1, 0, 0, 0, 0],
        [9, 2, 0, 8, 0, 0, j_zero],
        [6, 11, 1, 0, 0, 0, 0],
        [10, 2, 0, 8, 0, 0, k_not],
    ];
    let stores = [
        [7, 19, 2 * 65_536 + 8, 5, 32, 2, j_zero],
        [8, 19, 2 * 65_536 + 264, 5, 32, 2, j_not],
        [1, 3, 11, 9, 11, 0, k_zero],
        [2, 4, 11, 9, 11, 0, k_not],
    ];
    let pass = [
        turns.concat(),
        loads.concat(),
        metrics.concat(),
        codes.concat(),
        stores.concat(),
    ];
    (0..8).flat_map(|_| pass.clone()).collect()
}

/// The buffers of the kernel; J5 writes from word 128 on and K5 from word 192 on.
fn turns_state() -> State {
    let mut state = kernel_state();
    state.ialu[0][4] = 0;
    state.ialu[0][5] = 128;
    state.ialu[1][5] = 192;
    state.thr[0] = state.thr[1];
    state
}

/// Quads through the alignment buffers of both blocks, a J and a K slot on each line, each block's
/// by turns from J and from K.
fn unaligned() -> Vec<Vec<u32>> {
    let pass = [
        [[7, 24, 0, 0, 32, 4, 0], [8, 25, 0, 0, 32, 4, 0]],
        [[7, 25, 4, 1, 32, 4, 0], [8, 24, 4, 1, 32, 4, 0]],
    ];
    passes(20, &pass)
}

/// J0 and K0 go round buffers of 64 and 32 words, from positions 1 and 3 of a quad; J1 and K1, from
/// position 2, have none.
fn quads_state() -> State {
    let mut state = State::ZERO;
    state.length[0][0] = 64;
    state.base[1][0] = 64;
    state.length[1][0] = 32;
    state.ialu[0][..2].copy_from_slice(&[1, 98]);
    state.ialu[1][..2].copy_from_slice(&[67, 178]);
    state
}

/// Random lines that run, each with at least so many slots; with 1, with no more than one. No slot
/// has a condition or goes through an alignment buffer.
fn drawn(name: &'static str, most_lines: usize, least_slots: usize) -> Workload {
    let mut rng = Rng::new(SEED, least_slots as u64);
    let mut memory = vec![0; MEMORY_WORDS];
    memory.fill_with(|| values::word(&mut rng));
    let state = values::state(&mut rng, MEMORY_WORDS);
    let (mut now, mut now_memory) = (state, memory.clone());
    let mut lines = Vec::new();
    let mut words = 1;
    while lines.len() < most_lines && words <= LONGEST_IMAGE {
        let setting = Setting {
            state: &now,
            memory_words: MEMORY_WORDS,
            conditions: 0,
            dab_loads: 0,
        };
        let line = good_line(&mut rng, setting);
        let slots = line.len() / SLOT_WORDS;
        if slots < least_slots || (least_slots == 1 && slots > 1) {
            continue;
        }
        run_line(&line_of(&line), &mut now, &mut now_memory);
        words += 2 + line.len();
        lines.push(line);
    }
    Workload::new(name, state, memory, lines)
}

impl Workload {
    fn new(name: &'static str, state: State, memory: Vec<u32>, lines: Vec<Vec<u32>>) -> Workload {
        let mut rng = Rng::new(SEED, 0);
        let (mut now, mut now_memory) = (state, memory.clone());
        let mut orders = Vec::new();
        for line in lines.iter().map(|line| line_of(line)) {
            orders.extend(admissible_order(&mut rng, &line, &now));
            run_line(&line, &mut now, &mut now_memory);
        }
        let image = pack(&mut rng, &lines, false);
        let slots = lines.iter().flat_map(|line| line.chunks_exact(SLOT_WORDS));
        let mut ops: Vec<[u32; 2]> = slots.clone().map(|slot| [slot[0], slot[1]]).collect();
        ops.sort_unstable();
        ops.dedup();
        let workload = Workload {
            name,
            bytes: image.iter().flat_map(|word| word.to_le_bytes()).collect(),
            image,
            orders,
            state,
            tuned_state: tuned::State::from_words(&state.to_words()),
            state_words: state.to_words(),
            memory,
            lines: lines.len(),
            slots: slots.count(),
            ops: ops.len(),
        };
        workload.assert_runs();
        workload
    }

    fn assert_runs(&self) {
        let (mut state, mut memory) = (self.state, self.memory.clone());
        let plain = run(&self.image, &mut state, &mut memory);
        assert_eq!((plain.code, plain.lines_done as usize), (0, self.lines));
        let (mut state, mut memory) = (self.state, self.memory.clone());
        let ordered = run_ordered(&self.image, &self.orders, u64::MAX, &mut state, &mut memory);
        assert_eq!(ordered, plain);
    }

    /// With an unknown unit in the image's last slot: refused, but not before the last line.
    pub fn refused(&self) -> Workload {
        let mut work = self.clone();
        let last_slot = work.image.len() - SLOT_WORDS;
        work.image[last_slot] = 11;
        work
    }
}
