//! Part generate: the direct call over all methods and past every limit, with several checks
//! failing at once, so that their order shows.

use crate::{
    closest,
    inputs::{self, Holds, Rng, Size},
    nearest, plain, plays,
    query::{Answer, Method, Query},
    repo,
    tally::Tally,
};

/// What the direct call must answer: the Rust's, and for Nearest the plain walk's.
pub fn answer(q: &Query) -> Answer {
    match q.method() {
        Some(Method::Nearest) => nearest::answer(q),
        _ => repo::answer(q),
    }
}

/// A bound on the hits of a random chart for this method.
pub fn hits(rng: &mut Rng, method: Method) -> u32 {
    match method {
        Method::IgnoreAcc | Method::Fast => plain::hits(rng),
        Method::Closest => closest::hits(rng),
        Method::Nearest => nearest::hits(rng),
    }
}

/// A query of each method in turn. One in four is spoilt, and one in eight of all has a code that
/// is no method's.
fn query(rng: &mut Rng, turn: u64) -> Query {
    let method = Method::ALL[turn as usize % 4];
    let hits = hits(rng, method);
    let mut q = inputs::query(rng, method, turn / 4, hits, Holds::OneInFour);

    if rng.one_in(4) {
        inputs::spoil(rng, &mut q);
    }

    if rng.one_in(8) {
        q.method = rng.pick(&[4, 5, 6, 7, 127, 128, 255]);
    }

    q
}

pub fn run(rng: &mut Rng) -> bool {
    let mut tally = Tally::new("generate");

    for method in Method::ALL {
        tally.plays(method, answer);
    }

    for (q, _) in plays::left_over() {
        for q in Method::ALL.map(|method| q.by(method)) {
            tally.generate(&q, answer(&q));
        }
    }

    for turn in 0..Size::new(5_000_000).random {
        let q = query(rng, turn);
        tally.generate(&q, answer(&q));
    }

    tally.finish()
}
