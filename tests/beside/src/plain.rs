//! Parts ignore_acc and fast, which take the same inputs.

use crate::{
    inputs::{self, Holds, Rng, Size},
    query::{CHART, Method},
    repo,
    tally::Tally,
};

/// A bound on the hits: three in four charts are small, one in 16 is at the limit.
pub fn hits(rng: &mut Rng) -> u32 {
    match rng.upto(15) {
        0 => CHART + 1,
        1 => CHART,
        2 | 3 => 2_000,
        _ => 6,
    }
}

pub fn run(method: Method, rng: &mut Rng) -> bool {
    let mut tally = Tally::new(method.name());
    tally.plays(method, repo::answer);

    for turn in 0..Size::new(2_000_000).random {
        let hits = hits(rng);
        let q = inputs::query(rng, method, turn, hits, Holds::OneInFour);
        tally.generate(&q, repo::answer(&q));
    }

    tally.finish()
}
