//! Part target: the library's beside inspect.rs and the line of closest.rs that rounds the target.

use crate::{
    inputs::{self, Holds, INSIDE, OUTSIDE, Rng, Size},
    ours,
    query::{CAP, CHART, MISSES, Method, PASSED, Query},
    repo,
    tally::Tally,
};

/// The number that refuses, or total hits, misses, remain and the rounded target.
pub fn answer(q: &Query) -> (u32, [u32; 4]) {
    if q.chart_over() {
        return (7, [0; 4]);
    } else if q.given_misses().is_some_and(|n| n > CAP) {
        return (10, [0; 4]);
    } else if q.acc_outside() {
        return (11, [0; 4]);
    }

    let (total_hits, misses) = repo::inspect(q, |i| (i.total_hits(), i.misses()));
    let w320: u32 = if q.classic { 60 } else { 61 };
    let target = (q.acc * f64::from(w320 * total_hits)).round_ties_even() as i64;

    (0, [total_hits, misses, total_hits - misses, target as u32])
}

/// Visits the limits of charts, passed, misses and acc, each with each.
pub fn limits(mut visit: impl FnMut(&Query)) {
    let charts = [0, 1, 2, CHART - 1, CHART, CHART + 1, u32::MAX];
    let mut turn = 0_u8;

    for (n_objects, n_hold_notes) in charts.iter().flat_map(|&o| charts.map(|h| (o, h))) {
        let n = n_objects.min(CHART);
        let total = n + n_hold_notes.min(CHART);
        let passed = [0, 1, n / 2, n.max(1) - 1, n, n + 1, u32::MAX].map(Some);
        let misses = [0, 1, n, total, total + 1, CAP, CAP + 1, u32::MAX].map(Some);

        for passed in passed.into_iter().chain([None]) {
            for misses in misses.into_iter().chain([None]) {
                for acc in INSIDE.into_iter().chain(OUTSIDE) {
                    // The other bits are not looked at.
                    turn = turn.wrapping_add(1);
                    let mut presence = turn & !(PASSED | MISSES);
                    presence |= if passed.is_some() { PASSED } else { 0 };
                    presence |= if misses.is_some() { MISSES } else { 0 };

                    for classic in [false, true] {
                        visit(&Query {
                            n_objects,
                            n_hold_notes,
                            classic,
                            presence,
                            misses: misses.unwrap_or(u32::MAX),
                            passed: passed.unwrap_or(0),
                            acc,
                            ..Query::default()
                        });
                    }
                }
            }
        }
    }
}

/// A random query of any size, most with an accepted acc; of these four in ten have a product at
/// half a point off a whole number, or are the neighbours of such an acc.
pub fn random(rng: &mut Rng, holds: Holds) -> Query {
    let hits = rng.pick(&[6, 100, 3_000, CHART, CHART + 1]);
    let turn = rng.next();
    let mut q = inputs::query(rng, Method::IgnoreAcc, turn, hits, holds);

    if !q.chart_over() && !rng.one_in(16) {
        q.acc = inputs::acc(rng, q.full_points());
    }

    q
}

pub fn run(rng: &mut Rng) -> bool {
    let mut tally = Tally::new("target");
    let size = Size::new(2_000_000);

    let mut compare = |q: &Query| {
        let (status, values) = answer(q);
        tally.output(|out| ours::target(q, out), q, status, values);
    };

    limits(|q| {
        if rng.one_in(size.one_in) {
            compare(q);
        }
    });

    for _ in 0..size.random {
        compare(&random(rng, Holds::OneInFour));
    }

    tally.finish()
}
