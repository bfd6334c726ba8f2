//! One store twice: the library's tables and the model's.

use model::{Call, Memory};

use super::arena::Arena;
use super::library;
use super::reached::Reached;

/// What a lent buffer holds before a call, and what stands about it.
const FILL: u8 = 0x5e;
/// Bytes before and after a lent buffer, which nothing may change.
const EDGE: usize = 24;

/// Tables of the library and of the model, alike before and after each call.
pub struct Pair {
    seed: u64,
    made: usize,
    library: Arena,
    pub model: Memory,
}

impl Pair {
    /// The pair that a seed made, for the message where the two differ.
    pub fn new(seed: u64, memory: Memory) -> Pair {
        Pair {
            seed,
            made: 0,
            library: Arena::new(&memory, seed as usize % 8),
            model: memory,
        }
    }

    /// Makes a call on both with so many bytes lent, and compares the answers,
    /// the buffers and every byte of the tables. Answers the report.
    pub fn make(&mut self, call: &Call, lent: usize, reached: &mut Reached) -> u32 {
        let mut modelled = vec![FILL; EDGE + lent + EDGE];
        let mut served = modelled.clone();
        let held = EDGE..EDGE + lent;
        let expected = call.perform(&mut self.model.lend(), &mut modelled[held.clone()]);
        let answer = library::perform(call, &mut self.library.lend(), &mut served[held]);

        let numbers = [answer.first, answer.second, answer.third];
        let width = expected.values().len();
        let same = answer.report == u32::from(expected.report)
            && numbers[..width] == *expected.values()
            && numbers[width..].iter().all(|&n| n == 0)
            && served == modelled
            && self.library.is_like(&self.model);
        assert!(
            same,
            "seed {}, call {}: {call:?} with {lent} bytes lent\nlibrary {answer:?}\nmodel {expected:?}\nbuffers alike: {}\n{}",
            self.seed,
            self.made,
            served == modelled,
            self.library.difference(&self.model),
        );
        self.made += 1;
        reached.note(call, answer.report);
        answer.report
    }
}
