//! The inputs: random numbers that a seed repeats, the limits, and the exhaustive list of small
//! queries.

use std::env;

use crate::query::{ACC, CAP, CHART, MISSES, Method, PASSED, Query, Weights};

/// splitmix64.
pub struct Rng(u64);

impl Rng {
    pub fn new(seed: u64) -> Self {
        Self(seed)
    }

    pub fn next(&mut self) -> u64 {
        self.0 = self.0.wrapping_add(0x9E37_79B9_7F4A_7C15);
        let mut z = self.0;
        z = (z ^ (z >> 30)).wrapping_mul(0xBF58_476D_1CE4_E5B9);
        z = (z ^ (z >> 27)).wrapping_mul(0x94D0_49BB_1331_11EB);

        z ^ (z >> 31)
    }

    /// From 0 to `most`, both included.
    pub fn upto(&mut self, most: u32) -> u32 {
        (((self.next() >> 32) * (u64::from(most) + 1)) >> 32) as u32
    }

    pub fn one_in(&mut self, n: u32) -> bool {
        self.upto(n - 1) == 0
    }

    pub fn pick<T: Copy>(&mut self, of: &[T]) -> T {
        of[self.upto(of.len() as u32 - 1) as usize]
    }

    /// From 0 to 1, 1 left out.
    fn unit(&mut self) -> f64 {
        (self.next() >> 11) as f64 / (1_u64 << 53) as f64
    }
}

/// A whole number from the environment.
pub fn number(name: &str, default: u64) -> u64 {
    match env::var(name) {
        Ok(value) => value
            .parse()
            .unwrap_or_else(|_| panic!("{name} is not a whole number: {value}")),
        Err(_) => default,
    }
}

/// How much of a part is run.
pub struct Size {
    /// Random inputs.
    pub random: u64,
    /// One in so many of the listed inputs, drawn at random; 1 takes them all.
    pub one_in: u32,
}

impl Size {
    /// COUNT sets the random inputs; below the default it thins the listed ones as well.
    pub fn new(default: u64) -> Self {
        let random = number("COUNT", default);

        Self {
            random,
            one_in: (default / random.max(1)).clamp(1, u32::MAX.into()) as u32,
        }
    }
}

/// Accuracies that the document accepts, at the limits of f64 and of the range.
pub const INSIDE: [f64; 13] = [
    0.0,
    -0.0,
    f64::from_bits(1),
    f64::from_bits(2),
    f64::from_bits(0x000F_FFFF_FFFF_FFFF),
    f64::MIN_POSITIVE,
    f64::from_bits(0x0010_0000_0000_0001),
    f64::EPSILON,
    f64::from_bits(0x3FDF_FFFF_FFFF_FFFF),
    0.5,
    f64::from_bits(0x3FE0_0000_0000_0001),
    f64::from_bits(0x3FEF_FFFF_FFFF_FFFF),
    1.0,
];

/// Accuracies that it refuses: just over 1, below 0, infinite, and NaN of several payloads.
pub const OUTSIDE: [f64; 15] = [
    f64::from_bits(0x3FF0_0000_0000_0001),
    2.0,
    f64::MAX,
    f64::INFINITY,
    -f64::from_bits(1),
    -f64::MIN_POSITIVE,
    -0.5,
    -1.0,
    f64::MIN,
    f64::NEG_INFINITY,
    f64::from_bits(0x7FF8_0000_0000_0000),
    f64::from_bits(0xFFF8_0000_0000_0000),
    f64::from_bits(0x7FF0_0000_0000_0001),
    f64::from_bits(0x7FFF_FFFF_FFFF_FFFF),
    f64::from_bits(0xFFF0_0000_DEAD_BEEF),
];

/// An accepted accuracy for a play of `full` points.
pub fn acc(rng: &mut Rng, full: u32) -> f64 {
    let full = full.max(1);
    let points = f64::from(rng.upto(full));
    let over = |points: f64| (points / f64::from(full)).clamp(0.0, 1.0);

    match rng.upto(9) {
        0 => rng.pick(&INSIDE),
        1 => rng.unit(),
        2 => over(f64::from(full) - f64::from(rng.upto(20))),
        3 | 4 => over(points),
        5 => beside(rng, over(points)),
        _ => beside(rng, over(points + 0.5)),
    }
}

/// The number or one of its two neighbours, inside the range.
pub fn beside(rng: &mut Rng, acc: f64) -> f64 {
    rng.pick(&[acc, acc.next_up(), acc.next_down()])
        .clamp(0.0, 1.0)
}

/// A number at or around `n`.
fn around(rng: &mut Rng, n: u32) -> u32 {
    match rng.upto(7) {
        0 => 0,
        1 => 1,
        2 => n.saturating_sub(1),
        3 => n,
        4 => n + 1,
        5 if rng.one_in(4) => CAP,
        _ => rng.upto(n),
    }
}

/// Number of objects or hold notes at the limit.
const LIMIT: [u32; 3] = [CHART - 1, CHART, CHART];

/// Objects and hold notes of a chart: at most `hits` together, or, where `hits` is over the limit,
/// at it.
pub fn chart(rng: &mut Rng, hits: u32) -> (u32, u32) {
    if hits > CHART {
        (rng.pick(&LIMIT), rng.pick(&LIMIT))
    } else {
        let n_objects = rng.upto(hits);
        (n_objects, rng.upto(hits - n_objects))
    }
}

/// Which of the random queries give the holds passed.
#[derive(Clone, Copy)]
pub enum Holds {
    /// None of them. Nothing is drawn for it, so that stored inputs stay as they are.
    InFull,
    OneInFour,
    Passed,
}

impl Holds {
    fn passed(self, rng: &mut Rng, n_hold_notes: u32) -> Option<u32> {
        let given = match self {
            Self::InFull => false,
            Self::OneInFour => rng.one_in(4),
            Self::Passed => true,
        };

        given.then(|| {
            let around = around(rng, n_hold_notes);
            rng.pick(&[around, around, n_hold_notes / 2, u32::MAX])
        })
    }
}

/// A query over a chart that `chart` makes. One in 16 queries is spoilt.
pub fn query(rng: &mut Rng, method: Method, turn: u64, hits: u32, holds: Holds) -> Query {
    let chart = chart(rng, hits);
    let mut q = query_over(rng, chart, method, turn, holds);

    if rng.one_in(16) {
        spoil(rng, &mut q);
    }

    q
}

/// A query over this chart. The five presence bits, priority and classic go through all their
/// values as `turn` grows.
pub fn query_over(
    rng: &mut Rng,
    chart: (u32, u32),
    method: Method,
    turn: u64,
    holds: Holds,
) -> Query {
    let (n_objects, n_hold_notes) = chart;

    let mut q = Query {
        n_objects,
        n_hold_notes,
        method: method.code(),
        priority: (turn >> 5) as u8 & 1,
        classic: (turn >> 6) & 1 == 1,
        presence: turn as u8 & 0x1F | rng.next() as u8 & 0xE0,
        counts: std::array::from_fn(|_| rng.next() as u32),
        misses: rng.next() as u32,
        passed: rng.next() as u32,
        acc: f64::from_bits(rng.next()),
        holds_passed: holds.passed(rng, n_hold_notes),
        own: None,
    };

    // Three in four have an accuracy; the others go to IgnoreAccuracy or are refused.
    if rng.one_in(2) {
        q.presence |= ACC;
    }

    if q.has(PASSED) {
        let around = around(rng, q.n_objects);
        q.passed = rng.pick(&[around, around, q.n_objects / 2, u32::MAX]);
    }

    if q.has(MISSES) {
        q.misses = if rng.one_in(2) {
            rng.upto(q.total_hits() / 4)
        } else {
            around(rng, q.total_hits())
        };
    }

    give_counts(rng, &mut q);
    give_acc(rng, &mut q);

    q
}

/// Gives the query an accuracy, if it has one, that suits its weights.
pub fn give_acc(rng: &mut Rng, q: &mut Query) {
    if q.has(ACC) {
        q.acc = acc(rng, q.full_points());

        if rng.one_in(4) {
            aim_between(rng, q);
        }
    }
}

/// Gives the given counts their numbers, by shares of remain or, one in three, crowding it.
pub fn give_counts(rng: &mut Rng, q: &mut Query) {
    if rng.one_in(3) {
        crowd_counts(rng, q);
    } else {
        share_counts(rng, q);
    }
}

/// Gives each given count a share of what is left of remain. One sum in about 20 is one over it.
fn share_counts(rng: &mut Rng, q: &mut Query) {
    let mut left = q.remain();

    for i in (0..5).filter(|&i| q.has(1 << i)).collect::<Vec<_>>() {
        let n = match rng.upto(31) {
            0 => left + 1,
            1..=4 => left,
            5..=16 => rng.upto(left / 4),
            _ => rng.upto(left),
        };

        q.counts[i] = n;
        left = left.saturating_sub(n);
    }
}

/// Gives each given count a number around remain.
fn crowd_counts(rng: &mut Rng, q: &mut Query) {
    let remain = q.remain();

    for i in (0..5).filter(|&i| q.has(1 << i)).collect::<Vec<_>>() {
        q.counts[i] = around(rng, remain);
    }
}

/// Half the difference of two weights, and what lies beside: where the search has to choose between
/// two neighbours.
const HALVES: [i64; 12] = [0, 5, 10, 15, 20, 25, 26, -5, -10, -15, -20, -25];

/// Sets acc so that the rounded target lies between the points of two splits.
fn aim_between(rng: &mut Rng, q: &mut Query) {
    let mut left = q.remain();
    let mut target = rng.pick(&HALVES) + rng.pick(&[-1, 0, 0, 1]);

    for (given, weight) in q.given().into_iter().zip(q.weights()) {
        let n = given.unwrap_or_else(|| rng.upto(left)).min(left);
        left -= n;
        target += i64::from(n * weight);
    }

    q.aim(target);
}

/// Breaks what the table's checks ask for, often in several places, so that their order shows.
pub fn spoil(rng: &mut Rng, q: &mut Query) {
    if rng.one_in(4) {
        q.n_objects = rng.pick(&[CHART + 1, u32::MAX]);
    }

    if rng.one_in(4) {
        q.n_hold_notes = rng.pick(&[CHART + 1, u32::MAX]);
    }

    if rng.one_in(3) {
        q.priority = rng.pick(&[2, 3, 128, 255]);
    }

    if rng.one_in(2) {
        q.counts[rng.upto(4) as usize] = rng.pick(&[CAP, CAP + 1, u32::MAX]);
    }

    if rng.one_in(3) {
        q.misses = rng.pick(&[CAP, CAP + 1, u32::MAX]);
    }

    if rng.one_in(2) {
        q.acc = rng.pick(&OUTSIDE);
    }
}

/// Every query of up to `most` hits: all misses, all presence patterns of the five counts, given
/// counts from 0 to the hits and two more, and the cap; every rounded target where it can matter.
/// Thinned where it cannot (fewer than two missing, no hits left) and where two are missing and
/// overfull, which is 12 or 14: there one target each, which moves from query to query. One in 8
/// has its like without accuracy. Objects, hold notes, passed, holds passed and priority change from
/// query to query too, and a missing field holds a number that means nothing. All are under these own
/// weights, if there are any.
pub fn exhaustive(method: Method, own: Option<Weights>, most: u32, visit: &mut dyn FnMut(&Query)) {
    let mut turn = 0_u32;

    for hits in 0..=most {
        for (classic, misses) in [false, true]
            .into_iter()
            .flat_map(|classic| (0..=hits).map(move |misses| (classic, misses)))
        {
            for pattern in 0..32 {
                for code in 0..(hits + 4).pow(u32::count_ones(pattern)) {
                    turn = turn.wrapping_add(1);
                    let mut q = small(hits, classic, misses, turn).by(method);
                    q.own = own;
                    place(&mut q, pattern, code, hits);
                    aims(&mut q, turn, visit);
                }
            }
        }
    }
}

/// A query of so many hits and misses, still without counts and accuracy.
fn small(hits: u32, classic: bool, misses: u32, turn: u32) -> Query {
    let holds = turn % (hits + 1);
    let objects = if classic { hits } else { hits - holds };
    // So many of a chart's notes, with the number passed where it is given.
    let cut = |notes: u32, kind: u32| match kind % 4 {
        0 => (notes, Some(u32::MAX)),
        1 => (notes + 1 + turn % 3, Some(notes)),
        _ => (notes, None),
    };

    let (n_objects, passed) = cut(objects, turn / 7);
    let (n_hold_notes, holds_passed) = cut(holds, turn / 11);

    let given_misses = match misses {
        0 => (turn / 5).is_multiple_of(2).then_some(0),
        _ if misses == hits => Some([hits, hits + 1, CAP][turn as usize % 3]),
        _ => Some(misses),
    };

    let mut presence = ACC;
    presence |= if passed.is_some() { PASSED } else { 0 };
    presence |= if given_misses.is_some() { MISSES } else { 0 };

    Query {
        n_objects,
        n_hold_notes,
        priority: (turn / 3 % 2) as u8,
        classic,
        presence,
        counts: [turn; 5],
        misses: given_misses.unwrap_or(turn),
        passed: passed.unwrap_or(turn),
        holds_passed,
        ..Query::default()
    }
}

/// Gives the counts of the pattern the numbers whose places in 0 to `hits` + 2 and the cap are the
/// digits of `code`.
fn place(q: &mut Query, pattern: u32, mut code: u32, hits: u32) {
    q.presence |= pattern as u8;

    for i in 0..5 {
        if q.has(1 << i) {
            let digit = code % (hits + 4);
            code /= hits + 4;
            q.counts[i] = if digit == hits + 3 { CAP } else { digit };
        }
    }
}

/// Visits the query with the targets that `exhaustive` promises.
fn aims(q: &mut Query, turn: u32, visit: &mut dyn FnMut(&Query)) {
    let full = q.full_points();
    let settled =
        q.missing() < 2 || q.remain() == 0 || q.missing() == 2 && q.given_sum() > q.remain();

    let targets = if settled {
        let target = turn.wrapping_mul(17) % (full + 1);
        target..=target
    } else {
        0..=full
    };

    for target in targets {
        q.aim(target.into());
        visit(q);
    }

    if turn.is_multiple_of(8) {
        q.presence &= !ACC;
        visit(q);
    }
}
