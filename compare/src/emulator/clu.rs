//! Arithmetic of the communications logic unit: TMAX, MAX and DESPREAD.

/// The last d of each row of the TMAX correction table, and the row's entry.
const ROWS: [(usize, u8); 20] = [
    (1, 22),
    (3, 21),
    (5, 20),
    (7, 19),
    (9, 18),
    (11, 17),
    (15, 16),
    (19, 14),
    (23, 13),
    (27, 12),
    (31, 11),
    (35, 10),
    (39, 8),
    (47, 7),
    (55, 6),
    (63, 5),
    (79, 3),
    (95, 2),
    (127, 1),
    (255, 0),
];

pub static CORRECTION: [u8; 256] = correction_table();

const fn correction_table() -> [u8; 256] {
    let mut table = [0; 256];
    let (mut d, mut row) = (0, 0);
    while d < 256 {
        if d > ROWS[row].0 {
            row += 1;
        }
        table[d] = ROWS[row].1;
        d += 1;
    }
    table
}

/// How a word is divided into signed values.
#[derive(Clone, Copy, PartialEq, Eq, Debug)]
pub enum Lanes {
    Word,
    Shorts,
}

/// Which of two sums is taken, and with what correction.
#[derive(Clone, Copy, PartialEq, Eq, Debug)]
pub enum Choice {
    Tmax,
    Max,
}

/// Signed arithmetic at a lane's width; it notes when a sum saturates.
pub struct Saturating {
    limit: i64,
    pub overflow: bool,
}

impl Saturating {
    fn sum(&mut self, a: i64, b: i64) -> i64 {
        let exact = a + b;
        let value = exact.clamp(-self.limit, self.limit - 1);
        self.overflow |= value != exact;
        value
    }

    fn tmax(&mut self, a: i64, b: i64) -> i64 {
        let d = a - b;
        // Not the absolute value: below zero d becomes its complement, -d - 1.
        let distance = if d < 0 { !d } else { d };
        let correction = CORRECTION.get(distance as usize).copied().unwrap_or(0);
        self.sum(a.max(b), i64::from(correction))
    }

    fn choose(&mut self, choice: Choice, a: i64, b: i64) -> i64 {
        match choice {
            Choice::Tmax => self.tmax(a, b),
            Choice::Max => a.max(b),
        }
    }
}

/// Applies `f` to each lane of the operands; the answer tells too whether any sum saturated.
fn on_lanes<const N: usize>(
    lanes: Lanes,
    words: [u32; N],
    mut f: impl FnMut(&mut Saturating, [i64; N]) -> i64,
) -> (u32, bool) {
    match lanes {
        Lanes::Word => {
            let mut arithmetic = Saturating {
                limit: 1 << 31,
                overflow: false,
            };
            let value = f(&mut arithmetic, words.map(|word| i64::from(word as i32)));
            (value as u32, arithmetic.overflow)
        }
        Lanes::Shorts => {
            let mut arithmetic = Saturating {
                limit: 1 << 15,
                overflow: false,
            };
            let low = f(&mut arithmetic, words.map(|word| i64::from(word as i16)));
            let high = f(
                &mut arithmetic,
                words.map(|word| i64::from((word >> 16) as i16)),
            );
            (pack_shorts(low, high), arithmetic.overflow)
        }
    }
}

fn pack_shorts(low: i64, high: i64) -> u32 {
    u32::from(low as u16) | u32::from(high as u16) << 16
}

/// TMAX of two words, lane by lane.
pub fn tmax(lanes: Lanes, a: u32, b: u32) -> (u32, bool) {
    on_lanes(lanes, [a, b], |arithmetic, [a, b]| arithmetic.tmax(a, b))
}

/// One of the two sums a + x and b + y (differences where `subtract`), lane by lane.
pub fn select(lanes: Lanes, choice: Choice, subtract: bool, [a, x, b, y]: [u32; 4]) -> (u32, bool) {
    on_lanes(lanes, [a, x, b, y], |arithmetic, [a, x, b, y]| {
        let (x, y) = if subtract { (-x, -y) } else { (x, y) };
        let a = arithmetic.sum(a, x);
        let b = arithmetic.sum(b, y);
        arithmetic.choose(choice, a, b)
    })
}

/// The sum of two words of shorts, each saturated.
pub fn add_shorts(a: u32, b: u32) -> (u32, bool) {
    on_lanes(Lanes::Shorts, [a, b], |arithmetic, [a, b]| {
        arithmetic.sum(a, b)
    })
}

/// Parts `from` up to below `to` of the data quad, each times its code, added: real part low,
/// imaginary part high. The codes are bits 2k and 2k+1 of the THR pair, which all lie in its low
/// word; at most eight parts of bytes are added, so the sums fit in shorts.
pub fn despread(data: [u32; 4], codes: u32, from: usize, to: usize) -> u32 {
    let (mut real, mut imaginary) = (0, 0);
    for k in from..to {
        let part = data[k / 2] >> (16 * (k % 2));
        let in_phase = i64::from(part as i8);
        let quadrature = i64::from((part >> 8) as i8);
        let code_i = sign(codes >> (2 * k));
        let code_q = sign(codes >> (2 * k + 1));
        real += code_i * in_phase - code_q * quadrature;
        imaginary += code_i * quadrature + code_q * in_phase;
    }
    pack_shorts(real, imaginary)
}

/// A clear code bit is +1, a set one -1.
fn sign(code: u32) -> i64 {
    1 - 2 * i64::from(code & 1)
}

/// The THR pair after DESPREAD: shifted right by the 16 bits that were used.
pub fn shift_codes([low, high]: [u32; 2]) -> [u32; 2] {
    [low >> 16 | high << 16, high >> 16]
}

/// TROV of this op, and TRSOV, which stays set.
pub fn flags(old: u32, overflow: bool) -> u32 {
    let trov = u32::from(overflow);
    trov | (old & 2) | trov << 1
}
