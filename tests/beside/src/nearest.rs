//! Part nearest: the library's beside a plain walk written from document 01, for any weights, which an
//! enumeration of all splits judges on charts of up to 12 hits: no split lies nearer than the size of
//! left. Its tried keeps to demand 3's bounds. With exactly two missing, Closest must lie as far from
//! the rounded target. What is left is also compared with a list told by hand.

use crate::{
    closest::SMALL,
    inputs::{self, Holds, Rng, Size},
    ours, plays,
    query::{Answer, CHART, Method, Query},
    strides,
    tally::Tally,
};

/// The most hits for which all splits are looked at.
pub const ALL_SPLITS: u32 = 12;

/// The most candidates of any walk, with the standard weights and with own ones.
const TRIED: i64 = 88_434;
const OWN_TRIED: i64 = 1_940_598;

/// The walk on its way.
struct Walk {
    /// The missing weights, from the heaviest to the lightest.
    weights: Vec<i64>,
    /// The middles' counts as they are set, between two places that only `best` fills.
    counts: [i64; 5],
    best: [i64; 5],
    best_distance: i64,
    tried: u32,
}

impl Walk {
    /// Step 2 from this middle on, with so many hits and so much score left. True if the walk has
    /// ended.
    fn middles(&mut self, middle: usize, hits: i64, score: i64) -> bool {
        let last = self.weights.len() - 1;
        let (a, b, c) = (self.weights[0], self.weights[middle], self.weights[last]);

        if middle == last {
            return self.ends(a, c, hits, score);
        }

        for n in 0..=hits.min(stride(a, b, c) - 1) {
            self.counts[middle] = n;

            if self.middles(middle + 1, hits - n, score - n * b) {
                return true;
            }
        }

        false
    }

    /// Steps 3 and 4 for one setting of the middles.
    fn ends(&mut self, a: i64, c: i64, hits: i64, score: i64) -> bool {
        let d = score - c * hits;
        let lo = if d < 0 { 0 } else { hits.min(d / (a - c)) };

        for n in lo..=hits.min(lo + 1) {
            let distance = (score - a * n - c * (hits - n)).abs();
            self.tried += 1;

            if distance < self.best_distance {
                self.best_distance = distance;
                self.best = self.counts;
                self.best[0] = n;
                self.best[self.weights.len() - 1] = hits - n;
            }

            if distance == 0 {
                return true;
            }
        }

        false
    }
}

fn gcd(a: i64, b: i64) -> i64 {
    if b == 0 { a } else { gcd(b, a % b) }
}

/// q of the middle b.
pub fn stride(a: i64, b: i64, c: i64) -> i64 {
    (a - c) / gcd(a - c, b - c)
}

/// The walk's five counts and tried, for a query that no check stops.
pub fn walk(q: &Query) -> ([u32; 5], u32) {
    let all_weights = q.weights().map(i64::from);
    let mut given = q.given();

    // Step 1: the classic pair, and the first two own weights if they are equal.
    if all_weights[0] == all_weights[1] && given[0].is_none() && given[1].is_none() {
        given[1] = Some(0);
    }

    let mut hits = i64::from(q.remain());
    let mut score = q.target();
    let mut weights = Vec::new();

    for (n, weight) in given.into_iter().zip(all_weights) {
        match n.map(i64::from) {
            Some(n) => {
                hits -= n;
                score -= n * weight;
            }
            None => weights.push(weight),
        }
    }

    let mut walk = Walk {
        weights,
        counts: [0; 5],
        best: [hits, 0, 0, 0, 0],
        best_distance: i64::MAX,
        tried: 0,
    };

    match walk.weights.len() {
        0 => {}
        1 => walk.tried = 1,
        _ => {
            walk.middles(1, hits, score);
        }
    }

    let mut found = walk.best.into_iter().map(|n| n as u32);

    (
        given.map(|n| n.unwrap_or_else(|| found.next().unwrap())),
        walk.tried,
    )
}

pub fn answer(q: &Query) -> Answer {
    match q.status() {
        0 => {
            let (counts, tried) = walk(q);
            let [n320, n300, n200, n100, n50] = counts;
            let (misses, left) = (q.capped_misses(), q.left(&counts) as u32);
            Answer {
                status: 0,
                values: [n320, n300, n200, n100, n50, misses, tried, left],
            }
        }
        status => Answer::refused(status),
    }
}

/// The smallest distance among all splits, if there is one: the rest of the places for so many hits
/// and points left.
fn nearest_split(given: &[Option<u32>], weights: &[u32], hits: u32, score: i64) -> Option<u64> {
    let ([given, rest @ ..], [weight, weights @ ..]) = (given, weights) else {
        return (hits == 0).then_some(score.unsigned_abs());
    };

    let counts = match *given {
        Some(n) => n..=n.min(hits),
        // The last place can only take all the hits.
        None if rest.is_empty() => hits..=hits,
        None => 0..=hits,
    };

    counts
        .filter_map(|n| nearest_split(rest, weights, hits - n, score - i64::from(n * weight)))
        .min()
}

/// How far an answer says that it lies from the rounded target.
fn size_of_left(answer: &Answer) -> u64 {
    answer.left().unsigned_abs().into()
}

/// Judges an answer of Nearest by what demand 3 says of it: by all splits, if there are few, and by
/// the bounds on tried.
pub fn judge(tally: &mut Tally, q: &Query, answer: &Answer) {
    if matches!(answer.status, 0 | 14) && q.total_hits() <= ALL_SPLITS {
        judge_by_all_splits(tally, q, answer);
    }

    if answer.status == 0 {
        judge_tried(tally, q, answer);
    }
}

/// 14 if and only if there is no split; else the answer is a split and none is nearer.
fn judge_by_all_splits(tally: &mut Tally, q: &Query, answer: &Answer) {
    let [counts @ .., _misses, _tried, _left] = &answer.values;
    let keeps = q
        .given()
        .iter()
        .zip(counts)
        .all(|(given, n)| given.is_none_or(|g| g == *n));
    let sums = counts.iter().sum::<u32>() == q.remain();
    let found = (answer.status == 0 && keeps && sums).then(|| size_of_left(answer));
    let nearest = nearest_split(&q.given(), &q.weights(), q.remain(), q.target());

    tally.judge(
        found == nearest && found.is_some() == (answer.status == 0),
        || format!("{q}: {answer}, at {found:?}, where the nearest split is at {nearest:?}"),
    );
}

/// tried is at most 2 times the product of the q's, and never over the bound for such weights.
fn judge_tried(tally: &mut Tally, q: &Query, answer: &Answer) {
    let [.., tried, _left] = answer.values;
    let strides = strides::formula(q.weights().map(i64::from), usize::from(q.presence % 32));
    let bound = if q.own.is_some() { OWN_TRIED } else { TRIED };
    let most = bound.min(2 * strides.iter().product::<i64>());

    tally.judge(i64::from(tried) <= most, || {
        format!("{q}: {answer}, where at most {most} are tried")
    });
}

struct Part(Tally);

impl Part {
    fn compare(&mut self, q: &Query) {
        let answer = answer(q);
        self.0.generate(q, answer);
        judge(&mut self.0, q, &answer);

        if answer.status == 0 && q.missing() == 2 {
            self.compare_with_closest(q, &answer);
        }
    }

    /// With two missing, the library's Closest lies as far from the target.
    fn compare_with_closest(&mut self, q: &Query, answer: &Answer) {
        let mut closest = [0; 8];
        let status = ours::generate(&q.by(Method::Closest), &mut closest);

        self.0.judge(
            status == 0 && q.distance(&closest[..5]) == size_of_left(answer),
            || format!("{q}: {answer}, where Closest's {status} {closest:?} is not as far"),
        );
    }
}

/// A bound on the hits: most charts are small enough for all splits, one in 512 is at the limit.
pub fn hits(rng: &mut Rng) -> u32 {
    match rng.upto(511) {
        0 => CHART + 1,
        1 => CHART,
        2..=9 => 2_000,
        10..=99 => 100,
        _ => ALL_SPLITS,
    }
}

pub fn run(rng: &mut Rng) -> bool {
    let method = Method::Nearest;
    let mut part = Part(Tally::new(method.name()));
    let size = Size::new(2_000_000);

    part.0.plays(method, answer);

    for (q, left) in plays::left_over() {
        part.compare(&q);
        part.0.left(&q, &answer(&q), left);
    }

    inputs::exhaustive(method, None, SMALL, &mut |q| {
        if rng.one_in(size.one_in) {
            part.compare(q);
        }
    });

    for turn in 0..size.random {
        let hits = hits(rng);
        part.compare(&inputs::query(rng, method, turn, hits, Holds::OneInFour));
    }

    part.0.finish()
}
