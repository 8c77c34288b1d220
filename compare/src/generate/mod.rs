//! Random cases: images, states, memories, orders and limits. Most run through many lines; the
//! others are broken on purpose, in each way that a refusal names.

pub mod broken;
pub mod conditions;
pub mod dab;
pub mod intent;
pub mod lines;
pub mod orders;
pub mod pack;
pub mod slots;
pub mod values;

use crate::emulator::image::IMAGE_WORDS;
use crate::emulator::machine::{end_words, BUFFERS, DAB, END, MEMORY_WORDS, STATE_WORDS};
use crate::emulator::run::run_line;
use crate::emulator::slot::SLOT_WORDS;
use crate::emulator::{run, State};
use crate::outcome::Inputs;
use crate::prng::Rng;
use intent::{Intent, OrderFault};
use slots::Setting;

/// The slot whose field was spoilt: unit, op, and which of the six words of rule 3.
pub type SpoiltField = (u32, u32, usize);

pub struct Case {
    pub image: Vec<u32>,
    /// Some padding, so that its start is not always aligned, and then what the check of bytes
    /// gets: the image's bytes, or more or fewer.
    padded_bytes: Vec<u8>,
    padding: usize,
    pub state: State,
    /// The ends that come in with the state, true or false.
    pub ends: [u64; BUFFERS],
    pub memory: Vec<u32>,
    pub orders: Vec<u8>,
    pub limit: u64,
    pub intent: Intent,
    pub spoilt_field: Option<SpoiltField>,
    pub has_gaps: bool,
}

impl Case {
    /// What the check of bytes gets.
    pub fn bytes(&self) -> &[u8] {
        &self.padded_bytes[self.padding..]
    }

    /// The words of the state that comes in.
    pub fn state_words(&self) -> [u32; STATE_WORDS] {
        let mut words = self.state.to_words();
        words[END..DAB].copy_from_slice(&end_words(self.ends));
        words
    }

    pub fn has_false_end(&self) -> bool {
        self.ends != self.state.ends()
    }

    /// What the runs get.
    pub fn inputs(&self) -> Inputs<'_> {
        Inputs {
            image: &self.image,
            orders: &self.orders,
            limit: self.limit,
            state: self.state_words(),
            memory: &self.memory,
        }
    }
}

/// The case that a seed and a number name.
pub fn case(seed: u64, number: u64) -> Case {
    let mut rng = Rng::new(seed, number);
    let intent = Intent::draw(&mut rng);
    let mut plan = Plan::new(&mut rng, intent);
    plan.add_lines(&mut rng);
    plan.finish(&mut rng)
}

/// A case that grows line by line; `now` and `now_memory` are what its lines so far leave.
struct Plan {
    intent: Intent,
    state: State,
    memory: Vec<u32>,
    now: State,
    now_memory: Vec<u32>,
    /// How many slots of a hundred get a condition.
    conditions: u32,
    /// How many of an IALU go through an alignment buffer.
    dab_loads: u32,
    lines: Vec<Vec<u32>>,
    orders: Vec<u8>,
    spoilt_field: Option<SpoiltField>,
}

impl Plan {
    fn new(rng: &mut Rng, intent: Intent) -> Plan {
        let mut memory = values::memory(rng);
        let mut state = values::state(rng, memory.len());
        dab::fill_buffers(rng, &mut state);
        let dab_loads = rng.pick(&[0, 0, 10, 30, 60]);
        if dab_loads > 0 {
            dab::unalign_indices(rng, &mut state);
        }
        if let Intent::Buffer(fault) = intent {
            broken::spoil_buffers(rng, &mut state, memory.len(), fault);
        }
        let now_memory = memory.clone();
        if intent == Intent::MemoryTooLong {
            memory.resize(MEMORY_WORDS + rng.pick(&[1, 1, 2, 64]), 0);
        }
        Plan {
            intent,
            state,
            memory,
            now: state,
            now_memory,
            conditions: rng.pick(&[0, 0, 5, 40, 80]),
            dab_loads,
            lines: Vec::new(),
            orders: Vec::new(),
            spoilt_field: None,
        }
    }

    fn add_lines(&mut self, rng: &mut Rng) {
        let count = match rng.weighted(&[3, 18, 35, 35, 9, 1]) {
            0 => 0,
            1 => 1,
            2 => rng.between(2, 4),
            3 => rng.between(5, 12),
            4 => rng.between(13, 40),
            _ => rng.between(41, 600),
        };
        let broken_at = match self.intent {
            Intent::Buffer(_) => rng.below(2),
            _ => rng.below(count.max(1)),
        };
        for number in 0..count {
            if number == broken_at {
                self.add_broken_line(rng);
            } else {
                self.add_good_line(rng);
            }
        }
    }

    fn setting(&self) -> Setting<'_> {
        Setting {
            state: &self.now,
            memory_words: self.now_memory.len(),
            conditions: self.conditions,
            dab_loads: self.dab_loads,
        }
    }

    fn add_good_line(&mut self, rng: &mut Rng) {
        let words = if self.intent == Intent::Wild && rng.chance(40) {
            self.wild_line(rng)
        } else {
            lines::good_line(rng, self.setting())
        };
        self.add_line(rng, words);
    }

    fn wild_line(&self, rng: &mut Rng) -> Vec<u32> {
        let scene = lines::scene(rng, self.setting());
        let mut words = lines::any_line(rng, &scene);
        if rng.chance(3) {
            conditions::spoil_conditions(rng, &mut words);
        }
        words
    }

    /// The line at which the case fails its intent, or a good one where none was found.
    fn add_broken_line(&mut self, rng: &mut Rng) {
        match self.intent {
            Intent::Field => {
                let bad = broken::bad_field(rng, self.setting());
                self.spoilt_field = Some((bad.unit, bad.op, bad.field));
                self.add_line(rng, bad.words);
            }
            Intent::Order(fault) => self.add_bad_order(rng, fault),
            intent => match broken::broken_line(rng, self.setting(), intent) {
                Some(words) => self.add_line(rng, words),
                None => self.add_good_line(rng),
            },
        }
    }

    fn add_bad_order(&mut self, rng: &mut Rng, fault: OrderFault) {
        for _ in 0..20 {
            let words = lines::good_line(rng, self.setting());
            let line = lines::line_of(&words);
            if let Some(order) = orders::bad_order(rng, &line, &self.now, fault) {
                self.orders.extend(order);
                self.lines.push(words);
                return;
            }
        }
        self.add_good_line(rng);
    }

    /// Adds a line with an order and, where it runs, makes it.
    fn add_line(&mut self, rng: &mut Rng, words: Vec<u32>) {
        if lines::code_in(&words, &self.now, self.now_memory.len()) == 0 {
            let line = lines::line_of(&words);
            let order = if rng.chance(1) {
                orders::any_order(rng, line.slots().len())
            } else {
                orders::admissible_order(rng, &line, &self.now)
            };
            self.orders.extend(order);
            run_line(&line, &mut self.now, &mut self.now_memory);
        } else {
            let slots = words.len() / SLOT_WORDS;
            self.orders.extend(orders::any_order(rng, slots));
        }
        self.lines.push(words);
    }

    fn finish(mut self, rng: &mut Rng) -> Case {
        let has_gaps = rng.chance(30);
        let image = self.image(rng, has_gaps);
        self.spoil_orders(rng);
        let limit = self.limit(rng, &image);
        let padding = rng.index(4);
        Case {
            padded_bytes: padded_bytes(rng, &image, padding),
            padding,
            image,
            ends: values::ends(rng, &self.state),
            state: self.state,
            memory: self.memory,
            orders: self.orders,
            limit,
            intent: self.intent,
            spoilt_field: self.spoilt_field,
            has_gaps,
        }
    }

    fn image(&self, rng: &mut Rng, has_gaps: bool) -> Vec<u32> {
        let mut image = pack::pack(rng, &self.lines, has_gaps);
        match self.intent {
            Intent::ImageTooLong => {
                let words = pack::too_long(rng);
                pack::fill_to(rng, &mut image, words);
            }
            Intent::Directory(fault) => {
                let spoilt = pack::spoil(rng, &mut image, fault);
                if spoilt.is_none() {
                    image.truncate(1);
                }
            }
            Intent::Wild if rng.chance(5) => {
                image = (0..rng.below(20)).map(|_| rng.below(30)).collect();
            }
            _ if rng.below(400) == 0 => pack::fill_to(rng, &mut image, IMAGE_WORDS),
            _ => {}
        }
        image
    }

    fn spoil_orders(&mut self, rng: &mut Rng) {
        if self.intent != Intent::OrderLength {
            return;
        }
        let length = self.orders.len();
        match rng.below(5) {
            0 => self.orders.clear(),
            1 => self.orders.push(255),
            2 => self.orders.extend([255; 8]),
            3 => self.orders.truncate(length.saturating_sub(1)),
            _ => self.orders.truncate(length.saturating_sub(8)),
        }
    }

    /// Limits around the plain run's steps, inside lines, and above 32 bits.
    fn limit(&self, rng: &mut Rng, image: &[u32]) -> u64 {
        let steps = run(image, &mut self.state.clone(), &mut self.memory.clone()).steps;
        match rng.below(12) {
            0 => 0,
            1..=3 => steps,
            4 => steps + 1,
            5 => steps.saturating_sub(1),
            6..=8 => u64::from(rng.below(steps as u32 + 1)),
            9 => u64::MAX,
            10 => u64::from(rng.between(1, 3)) << 32 | u64::from(rng.below(8)),
            _ => rng.long(),
        }
    }
}

/// Padding, then the image as little-endian bytes, sometimes with a broken word at the end, or
/// filled up to the greatest length or past it.
fn padded_bytes(rng: &mut Rng, image: &[u32], padding: usize) -> Vec<u8> {
    let mut bytes = vec![0xA5; padding];
    bytes.extend(image.iter().flat_map(|word| word.to_le_bytes()));
    match rng.below(200) {
        0..=9 if !image.is_empty() => {
            bytes.truncate(bytes.len() - rng.between(1, 3) as usize);
        }
        10..=19 => bytes.extend((0..rng.between(1, 3)).map(|byte| byte as u8)),
        20 => {
            let length = padding + 4 * IMAGE_WORDS + rng.pick(&[0, 0, 1, 2, 3, 4, 5]);
            bytes.resize(length.max(bytes.len()), 7);
        }
        _ => {}
    }
    bytes
}
