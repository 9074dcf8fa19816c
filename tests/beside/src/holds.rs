//! Part holds: document 02's hold notes of a broken-off play, in direct calls and in the call for the
//! target: the plays told by hand, every small chart with every number of holds passed, the limits,
//! and random queries that all give it. The part sheets has the same in rows.

use crate::{
    generate,
    inputs::{self, Holds, Rng, Size},
    ours, plays,
    query::{ACC, CAP, CHART, MISSES, Method, PASSED, Query},
    tally::Tally,
    target,
};

/// The most hits for which the Rust's Closest searches with three or more missing.
const SEARCHED: u32 = 100;

/// A query of this chart with these given, still without counts and accuracy.
fn query(
    (n_objects, n_hold_notes): (u32, u32),
    classic: bool,
    [misses, passed, holds_passed]: [Option<u32>; 3],
) -> Query {
    let mut presence = if misses.is_some() { MISSES } else { 0 };
    presence |= if passed.is_some() { PASSED } else { 0 };

    Query {
        n_objects,
        n_hold_notes,
        classic,
        presence,
        // A missing number means nothing.
        misses: misses.unwrap_or(1),
        passed: passed.unwrap_or(1),
        holds_passed,
        ..Query::default()
    }
}

/// Visits the query by every method, without an accuracy and at some, both with no count given and
/// with some.
fn by_all(rng: &mut Rng, q: &Query, visit: &mut dyn FnMut(&Query)) {
    let any = if q.chart_over() {
        0.9
    } else {
        inputs::acc(rng, q.full_points())
    };

    for method in Method::ALL {
        for acc in [None, Some(0.0), Some(0.5), Some(any), Some(1.0)] {
            let mut q = q.by(method);
            q.priority = rng.upto(1) as u8;
            q.presence |= if acc.is_some() { ACC } else { 0 };
            q.acc = acc.unwrap_or(any);

            // Two are missing where the Rust's search would take too long.
            let long = method == Method::Closest && !q.chart_over() && q.total_hits() > SEARCHED;
            q.presence |= if long { 0b1_1100 } else { 0 };
            visit(&q);

            q.presence |= rng.upto(31) as u8;
            if !q.chart_over() {
                inputs::give_counts(rng, &mut q);
            }
            visit(&q);
        }
    }
}

/// Every chart of up to three objects and three holds: with passed and holds passed from 0 to past
/// the chart's and missing, some misses, and classic or not.
pub fn small(rng: &mut Rng, visit: &mut dyn FnMut(&Query)) {
    let numbers = || (0..=4).map(Some).chain([None]);

    for chart in (0..=3).flat_map(|objects| (0..=3).map(move |holds| (objects, holds))) {
        for (passed, holds_passed) in numbers().flat_map(|p| numbers().map(move |h| (p, h))) {
            for misses in [None, Some(0), Some(1), Some(3), Some(7)] {
                for classic in [false, true] {
                    let q = query(chart, classic, [misses, passed, holds_passed]);
                    by_all(rng, &q, visit);
                }
            }
        }
    }
}

/// Charts up to the limit and past it: with none of the holds passed, one, one fewer than the chart
/// has, as many, one more, and far more, and with misses around the total hits that this makes.
pub fn limits(rng: &mut Rng, visit: &mut dyn FnMut(&Query)) {
    for chart @ (objects, holds) in [
        (0, 1),
        (1, 0),
        (20, 7),
        (3, 60),
        (7, CHART),
        (0, CHART),
        (CHART, 1),
        (CHART, CHART),
        (20, CHART + 1),
        (20, u32::MAX),
        (CHART + 1, 7),
    ] {
        let numbers = [0, 1, holds.max(1) - 1, holds, holds.saturating_add(1)];
        let numbers = numbers.into_iter().chain([CAP + 1, 1 << 31, u32::MAX]);

        for holds_passed in numbers.map(Some).chain([None]) {
            for passed in [
                None,
                Some(0),
                Some(objects / 2),
                Some(objects),
                Some(u32::MAX),
            ] {
                for classic in [false, true] {
                    let q = query(chart, classic, [None, passed, holds_passed]);
                    let total = if q.chart_over() { 5 } else { q.total_hits() };

                    for misses in [None, Some(1), Some(total), Some(total + 1), Some(CAP + 1)] {
                        let q = query(chart, classic, [misses, passed, holds_passed]);
                        by_all(rng, &q, visit);
                    }
                }
            }
        }
    }
}

/// Total hits, counted note by note: an object was played if it comes before passed, a hold reached
/// if it comes before the holds passed.
fn counted(q: &Query) -> usize {
    let before = |notes: u32, end: Option<u32>| {
        (0..notes)
            .filter(|&note| end.is_none_or(|end| note < end))
            .count()
    };
    let objects = before(q.n_objects, q.given_passed());

    if q.classic {
        objects
    } else {
        objects + before(q.n_hold_notes, q.holds_passed)
    }
}

struct Part(Tally);

impl Part {
    /// Compares the direct call, and the call for the target.
    fn compare(&mut self, q: &Query) {
        self.0.generate(q, generate::answer(q));

        let (status, values) = target::answer(q);
        self.0.output(|out| ours::target(q, out), q, status, values);
    }

    fn told_by_hand(&mut self) {
        for (q, right) in plays::with_holds() {
            self.compare(&q);
            let answer = generate::answer(&q);
            self.0.judge(answer == right, || {
                format!("{q}: {answer}, by hand {right}")
            });
        }

        for (q, right) in plays::targets_with_holds() {
            self.compare(&q);
            let answer = target::answer(&q);
            self.0.judge(answer == (0, right), || {
                format!("{q}: {answer:?}, by hand {right:?}")
            });
        }
    }
}

pub fn run(rng: &mut Rng) -> bool {
    let mut part = Part(Tally::new("holds"));
    let size = Size::new(400_000);
    let mut thinned = Rng::new(rng.next());

    part.told_by_hand();

    small(rng, &mut |q| {
        if thinned.one_in(size.one_in) {
            part.compare(q);
            let (total, right) = (q.total_hits() as usize, counted(q));
            part.0.judge(total == right, || {
                format!("{q}: {total} hits, counted {right}")
            });
        }
    });

    limits(rng, &mut |q| {
        if thinned.one_in(size.one_in) {
            part.compare(q);
        }
    });

    for turn in 0..size.random {
        let method = Method::ALL[turn as usize % 4];
        let hits = generate::hits(rng, method);
        part.compare(&inputs::query(rng, method, turn / 4, hits, Holds::Passed));
    }

    part.0.finish()
}
