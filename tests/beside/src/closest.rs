//! Part closest. After the exhaustive list of small charts: random ones of up to 300 hits, most of
//! them below 30, and large ones, each with so few missing that the Rust's search ends in some
//! 100 ms.

use crate::{
    inputs::{self, Holds, Rng, Size},
    query::{CHART, Method, Query},
    repo,
    tally::Tally,
};

/// The hits of the exhaustive list.
pub const SMALL: u32 = 6;

/// How many large charts.
const LARGE: u64 = 1_000;

/// A bound on the hits of a random chart.
pub fn hits(rng: &mut Rng) -> u32 {
    match rng.upto(15) {
        0 | 1 => 300,
        2..=5 => 100,
        _ => 30,
    }
}

/// How many loops the Rust's search nests: one each for n320 and n300, and one for the last three
/// all missing.
fn loops(q: &Query) -> u32 {
    let [n320, n300, n200, n100, n50] = q.given();
    let last_three = n200.or(n100).or(n50);

    [n320, n300, last_three]
        .iter()
        .filter(|n| n.is_none())
        .count() as u32
}

/// A chart of 1,000 hits or more: up to 2,000 where three loops nest, 10,000 where two do, and up
/// to the limit where the Rust has one loop or none.
fn large(rng: &mut Rng) -> Query {
    loop {
        let most = rng.pick(&[2_000, 2_000, 10_000, CHART, CHART + 1]);
        let turn = rng.next();
        let q = inputs::query(rng, Method::Closest, turn, most, Holds::OneInFour);

        if q.status() != 0 {
            continue;
        }

        let affordable = match loops(&q) {
            3 => 2_000,
            2 => 10_000,
            _ => 2 * CHART,
        };

        if (1_000..=affordable).contains(&q.total_hits()) {
            return q;
        }
    }
}

pub fn run(rng: &mut Rng) -> bool {
    let method = Method::Closest;
    let mut tally = Tally::new(method.name());
    let size = Size::new(2_000_000);

    tally.plays(method, repo::answer);

    let mut compare = |q: &Query| tally.generate(q, repo::answer(q));

    inputs::exhaustive(method, None, SMALL, &mut |q| {
        if rng.one_in(size.one_in) {
            compare(q);
        }
    });

    for turn in 0..size.random {
        let hits = hits(rng);
        compare(&inputs::query(rng, method, turn, hits, Holds::OneInFour));
    }

    for _ in 0..LARGE / u64::from(size.one_in) {
        compare(&large(rng));
    }

    tally.finish()
}
