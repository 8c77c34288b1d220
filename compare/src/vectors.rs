//! Files of test vectors: cases with what the three calls must answer.

use crate::emulator::machine::STATE_WORDS;
use crate::emulator::Report;
use crate::outcome::{Inputs, Outcome};

/// One case: the inputs, and the answers of the check, the plain run and the ordered run.
pub struct Vector {
    pub image: Vec<u32>,
    pub memory: Vec<u32>,
    pub state: [u32; STATE_WORDS],
    pub orders: Vec<u8>,
    pub limit: u64,
    pub check: (u32, u32, u32),
    pub plain: Outcome,
    pub ordered: Outcome,
}

impl Vector {
    pub fn inputs(&self) -> Inputs<'_> {
        Inputs {
            image: &self.image,
            orders: &self.orders,
            limit: self.limit,
            state: self.state,
            memory: &self.memory,
        }
    }
}

/// Reads a whole file: a count, then for each case its length in words and its record. Nothing
/// when the bytes are no such file.
pub fn read(bytes: &[u8]) -> Option<Vec<Vector>> {
    let words: Vec<u32> = bytes
        .chunks_exact(4)
        .map(|word| u32::from_le_bytes([word[0], word[1], word[2], word[3]]))
        .collect();
    let mut reader = Reader { rest: &words };
    let count = reader.number()?;
    (0..count).map(|_| reader.record()?.vector()).collect()
}

struct Reader<'a> {
    rest: &'a [u32],
}

impl<'a> Reader<'a> {
    fn take(&mut self, count: usize) -> Option<&'a [u32]> {
        let (part, rest) = self.rest.split_at_checked(count)?;
        self.rest = rest;
        Some(part)
    }

    fn number(&mut self) -> Option<u32> {
        self.take(1).map(|words| words[0])
    }

    fn counted(&mut self) -> Option<&'a [u32]> {
        let count = self.number()?;
        self.take(count as usize)
    }

    fn record(&mut self) -> Option<Reader<'a>> {
        self.counted().map(|rest| Reader { rest })
    }

    fn state(&mut self) -> Option<[u32; STATE_WORDS]> {
        self.take(STATE_WORDS)?.try_into().ok()
    }

    /// Bytes come four to a word, the low one first.
    fn bytes(&mut self) -> Option<Vec<u8>> {
        let count = self.number()? as usize;
        let words = self.take(count.div_ceil(4))?;
        let mut bytes: Vec<u8> = words.iter().flat_map(|word| word.to_le_bytes()).collect();
        bytes.truncate(count);
        Some(bytes)
    }

    fn outcome(&mut self, memory_words: usize) -> Option<Outcome> {
        let &[code, line, slot, lines_done, steps] = self.counted()? else {
            return None;
        };
        let report = Report {
            code,
            line,
            slot,
            lines_done,
            steps: u64::from(steps),
        };
        Some(Outcome {
            report,
            state: self.state()?,
            memory: self.take(memory_words)?.to_vec(),
        })
    }

    fn vector(mut self) -> Option<Vector> {
        let image = self.counted()?.to_vec();
        let memory = self.counted()?.to_vec();
        let state = self.state()?;
        let orders = self.bytes()?;
        let limit = u64::from(self.number()?) | u64::from(self.number()?) << 32;
        let &[code, line, slot] = self.counted()? else {
            return None;
        };
        let plain = self.outcome(memory.len())?;
        let ordered = self.outcome(memory.len())?;
        self.rest.is_empty().then_some(Vector {
            image,
            memory,
            state,
            orders,
            limit,
            check: (code, line, slot),
            plain,
            ordered,
        })
    }
}
