//! Counts the inputs of a part and tells the first differences.

use std::time::Instant;

use crate::{
    ours, plays,
    query::{Answer, Method, Query},
};

/// What stands in lent memory before a call, to see what the call leaves alone.
const SENTINEL: u32 = 0x5E17_1CED;

/// The places of that memory, more than any output has.
const PLACES: usize = 12;

/// How many differences are told.
const TOLD: u64 = 5;

/// Where the memory first differs, counted from the start of the output in it.
pub fn first_wrong<T: PartialEq>(memory: &[T], right: &[T], start: usize) -> Option<isize> {
    let place = memory.iter().zip(right).position(|(x, y)| x != y)?;
    Some(place as isize - start as isize)
}

pub struct Tally {
    part: &'static str,
    pub inputs: u64,
    differences: u64,
    start: Instant,
}

impl Tally {
    pub fn new(part: &'static str) -> Self {
        Self {
            part,
            inputs: 0,
            differences: 0,
            start: Instant::now(),
        }
    }

    pub fn judge(&mut self, same: bool, tell: impl FnOnce() -> String) {
        if same {
            return;
        }

        self.differences += 1;

        if self.differences <= TOLD {
            println!("{}: {}", self.part, tell());
        }
    }

    /// Prints the part's line and says whether nothing differed.
    pub fn finish(self) -> bool {
        println!(
            "{}: {} inputs, {} differences, {:.1} s",
            self.part,
            self.inputs,
            self.differences,
            self.start.elapsed().as_secs_f64()
        );

        self.differences == 0
    }

    /// Compares a call that writes the first `N` places of its output: its status and all the
    /// memory. Every fifth input is also given too few places, which is 5 whatever the input.
    pub fn output<const N: usize>(
        &mut self,
        call: impl Fn(&mut [u32]) -> u32,
        q: &Query,
        status: u32,
        values: [u32; N],
    ) {
        self.inputs += 1;

        let mut memory = [SENTINEL; PLACES];
        let mut right = memory;

        if status == 0 {
            right[..N].copy_from_slice(&values);
        }

        let len = N + (self.inputs % 3) as usize;
        let ours = call(&mut memory[..len]);

        self.judge(ours == status && memory == right, || {
            format!("{q}: ours {ours} {memory:?}, expected {status} {right:?}")
        });

        if self.inputs.is_multiple_of(5) {
            let len = (self.inputs / 5) as usize % N;
            let mut memory = [SENTINEL; PLACES];
            let ours = call(&mut memory[..len]);

            self.judge(ours == 5 && memory == [SENTINEL; PLACES], || {
                format!("{q}: ours {ours} {memory:?} for an output of {len}, expected 5")
            });
        }
    }

    /// Compares the plays of document 01, broken off too: the other side's answer with the document's,
    /// ours with the other side's.
    pub fn plays(&mut self, method: Method, answer: impl Fn(&Query) -> Answer) {
        for play in plays::of(method)
            .into_iter()
            .chain(plays::broken_off(method))
        {
            let answer = answer(&play.query);
            self.generate(&play.query, answer);
            self.judge(play.holds(&answer), || {
                format!(
                    "play {}, {}: {answer}, not as document 01 says",
                    play.label, play.query
                )
            });
        }
    }

    /// Compares the points that an answer leaves of the rounded target.
    pub fn left(&mut self, q: &Query, answer: &Answer, right: i64) {
        self.judge(i64::from(answer.left()) == right, || {
            format!("{q}: {answer}, where {right} is left")
        });
    }

    /// Compares the direct call with an answer, and the answer's status with document 01's.
    pub fn generate(&mut self, q: &Query, answer: Answer) {
        self.output(
            |out| ours::generate(q, out),
            q,
            answer.status,
            answer.values,
        );

        let status = q.status();
        self.judge(status == answer.status, || {
            format!("{q}: {answer}, where document 01 says {status}")
        });
    }
}
