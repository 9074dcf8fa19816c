//! The relays of part relay: all small ones, which all sets of splits judge; random ones, and the
//! largest; every refusal with every other, and the limits.

use crate::{
    inputs::{self, INSIDE, OUTSIDE, Size},
    query::{CAP, CHART, Query},
    relay::{CHARTS, Part, Play, Relay},
};

/// The inputs in their order, each with what is told of their number.
type Inputs = (&'static str, fn(&mut Part, &Size));

pub const ALL: [Inputs; 4] = [
    ("small relays, beside all sets of splits", small),
    ("random relays", random),
    ("relays of eight full charts", largest),
    ("refusals and limits", refusals),
];

/// The most hits of each chart for which all sets of splits are made.
const SMALL: u32 = 4;

/// How far from both ends the targets of the largest relays are tried, and how many between.
const ENDS: u32 = 100;
const BETWEEN: u32 = 2_000;

/// All lists of so many numbers, each from 0 to `most`.
fn lists(count: usize, most: u32) -> impl Iterator<Item = Vec<u32>> {
    let span = most + 1;
    let digit = move |code: u32, place| code / span.pow(place) % span;
    let places = 0..count as u32;

    (0..span.pow(count as u32))
        .map(move |code| places.clone().map(|place| digit(code, place)).collect())
}

/// All splits of so many hits.
fn splits(remain: u32) -> Vec<Vec<u32>> {
    let sums = |split: &Vec<u32>| split.iter().sum::<u32>() == remain;
    lists(5, remain).filter(sums).collect()
}

/// Marks the points of each set of splits, every set being made: each split of the first chart with each
/// of the second, and so on.
fn mark_sets(weighs: &Query, charts: &[Vec<Vec<u32>>], points: i64, marks: &mut [bool]) {
    let Some((first, rest)) = charts.split_first() else {
        marks[points as usize] = true;
        return;
    };

    for split in first {
        mark_sets(weighs, rest, points + weighs.points(split), marks);
    }
}

/// Relays of these remaining hits, with the least distance of any set of splits for each target.
struct Remains {
    classic: bool,
    remains: Vec<u32>,
    least: Vec<u64>,
}

impl Remains {
    fn new(classic: bool, remains: Vec<u32>) -> Self {
        let weighs = Query {
            classic,
            ..Query::default()
        };
        let most = weighs.weights()[0] * SMALL * remains.len() as u32;
        let charts: Vec<_> = remains.iter().map(|&remain| splits(remain)).collect();
        let mut marks = vec![false; most as usize + 1];
        mark_sets(&weighs, &charts, 0, &mut marks);

        let reached: Vec<_> = (0..=most).filter(|&n| marks[n as usize]).collect();
        let least = |target| reached.iter().map(|n| n.abs_diff(target)).min().unwrap();

        Self {
            classic,
            remains,
            least: (0..=most).map(|target| least(target).into()).collect(),
        }
    }

    /// A relay of these totals, at least the remains. Misses that leave nothing may be more than there
    /// are hits.
    fn relay(&self, part: &mut Part, totals: &[u32]) -> Relay {
        let rng = &mut *part.rng;
        let play = |(&total, &remain): (&u32, &u32)| {
            let misses = match remain {
                0 => rng.pick(&[total, total, total + 1, CAP]),
                _ => total - remain,
            };

            if self.classic {
                [total, rng.pick(&[0, 1, CHART]), misses]
            } else {
                let holds = rng.upto(total);
                [total - holds, holds, misses]
            }
        };
        let plays: Vec<_> = totals.iter().zip(&self.remains).map(play).collect();

        Relay::new(self.classic, 0.0, &plays)
    }

    /// Compares and judges the relays of these totals at every target.
    fn every_target(&self, part: &mut Part, size: &Size, totals: &[u32]) {
        let full = self.relay(part, totals).pool().full_points();

        for target in 0..=full {
            if !part.rng.one_in(size.one_in) {
                continue;
            }

            let mut relay = self.relay(part, totals);
            let mut pool = relay.pool();
            pool.aim(target.into());
            relay.acc = pool.acc;

            part.tally.judge(pool.target() == target.into(), || {
                format!("{relay:?}: the target is not {target}")
            });

            let out = part.compare(&relay);
            self.judge(part, &relay, totals, &out);
        }
    }

    /// Judges what the call wrote by L9's own words: each chart's counts sum to its total, five of them
    /// to what its misses leave, and no set of splits lies nearer.
    fn judge(&self, part: &mut Part, relay: &Relay, totals: &[u32], out: &[u32]) {
        let pool = relay.pool();
        let least = self.least[pool.target() as usize];
        let sixes = || out[1..].chunks(6).zip(totals.iter().zip(&self.remains));

        let sum = |counts: &[u32]| counts.iter().map(|&n| u64::from(n)).sum::<u64>();
        let sums = sixes().all(|(six, (&total, &remain))| {
            sum(six) == total.into() && sum(&six[..5]) == remain.into()
        });
        let points: i64 = sixes().map(|(six, _)| pool.points(&six[..5])).sum();
        let distance = (points - pool.target()).unsigned_abs();

        part.tally.judge(sums && distance == least, || {
            format!(
                "{relay:?}: {out:?}, at {distance}, where the nearest set of splits is at {least}"
            )
        });
    }
}

/// All relays of two and of three charts of up to SMALL hits each, with all misses, at every target.
fn small(part: &mut Part, size: &Size) {
    for (classic, count) in [(false, 2), (true, 2), (false, 3), (true, 3)] {
        for remains in lists(count, SMALL) {
            let relays = Remains::new(classic, remains);
            let room = |totals: &Vec<u32>| totals.iter().zip(&relays.remains).all(|(t, r)| t >= r);

            for totals in lists(count, SMALL).filter(room) {
                relays.every_target(part, size, &totals);
            }
        }
    }
}

/// A chart of up to so many hits; over the limit, one at it. Misses are none, some, all, or too many.
fn random_play(part: &mut Part, classic: bool, hits: u32) -> Play {
    let rng = &mut *part.rng;
    let (objects, holds) = inputs::chart(rng, hits);
    let total = if classic { objects } else { objects + holds };
    let misses = match rng.upto(9) {
        0..=3 => 0,
        4 => total,
        5 => total + 1,
        6 => CAP,
        7 => rng.upto(total),
        _ => rng.upto(total / 4),
    };

    [objects, holds, misses]
}

/// A relay of two to eight charts, all of one size or each of its own, whose accuracy suits the pool.
fn random_relay(part: &mut Part) -> Relay {
    const SIZES: [u32; 8] = [0, 1, 4, 20, 100, 2_000, CHART, CHART + 1];

    let count = CHARTS.start() + part.rng.upto(CHARTS.count() as u32 - 1) as usize;
    let classic = part.rng.one_in(2);
    let one = part.rng.one_in(2).then(|| part.rng.pick(&SIZES));
    let plays: Vec<_> = (0..count)
        .map(|_| {
            let hits = one.unwrap_or_else(|| part.rng.pick(&SIZES));
            random_play(part, classic, hits)
        })
        .collect();

    let mut relay = Relay::new(classic, 0.0, &plays);
    let mut pool = relay.pool();
    inputs::give_acc(part.rng, &mut pool);
    relay.acc = pool.acc;
    relay
}

/// Breaks what the checks ask for, often in several places, so that their order shows.
fn spoil(part: &mut Part, relay: &mut Relay) {
    let rng = &mut *part.rng;

    for (field, limit) in [(0, CHART), (1, CHART), (2, CAP)] {
        if rng.one_in(3) {
            let chart = rng.upto(relay.charts().len() as u32 - 1) as usize;
            relay.plays[3 * chart + field] = rng.pick(&[limit, limit + 1, u32::MAX]);
        }
    }

    if rng.one_in(3) {
        relay.acc = rng.pick(&OUTSIDE);
    }

    relay.acc_given = !rng.one_in(3);

    if rng.one_in(4) {
        relay.plays.resize(rng.upto(30) as usize, 1);
    }
}

fn random(part: &mut Part, size: &Size) {
    for _ in 0..size.random {
        let mut relay = random_relay(part);

        if part.rng.one_in(16) {
            spoil(part, &mut relay);
        }

        part.compare(&relay);
    }
}

/// Eight charts of 200,000 hits: without misses, and with random ones.
fn largest(part: &mut Part, size: &Size) {
    for classic in [false, true] {
        let full = Relay::new(classic, 0.0, &[[CHART, CHART, 0]; 8]);
        let points = full.pool().full_points();
        let between: Vec<_> = (0..BETWEEN).map(|_| part.rng.upto(points)).collect();
        let targets = (0..=ENDS).chain(points - ENDS..=points).chain(between);

        for target in targets {
            if !part.rng.one_in(size.one_in) {
                continue;
            }

            let mut relay = full.clone();
            let exact = f64::from(target) / f64::from(points);
            relay.acc = inputs::beside(part.rng, exact);
            part.compare(&relay);

            for chart in 0..8 {
                relay.plays[3 * chart + 2] = random_play(part, classic, CHART + 1)[2];
            }
            part.compare(&relay);
        }
    }
}

/// Small charts, so many numbers of them.
fn small_plays(len: usize) -> Vec<u32> {
    [3, 2, 1].into_iter().cycle().take(len).collect()
}

/// A relay of so many small charts, which nothing refuses.
fn good(classic: bool, count: usize) -> Relay {
    Relay {
        classic,
        acc_given: true,
        acc: 0.75,
        plays: small_plays(3 * count),
    }
}

fn refusals(part: &mut Part, _: &Size) {
    for classic in [false, true] {
        for count in CHARTS {
            together(part, &good(classic, count));
            limits(part, &good(classic, count));
            outputs(part, &good(classic, count));
        }

        lengths(part, classic);
    }
}

/// One kind of fault, or none: the number that refuses it, and what makes it.
type Fault<T> = (u32, T);

/// Puts the number in this field of a chart, if there is such a chart.
fn put(plays: &mut [u32], chart: Option<usize>, field: usize, n: u32) {
    if let Some(place) = chart.and_then(|chart| plays.get_mut(3 * chart + field)) {
        *place = n;
    }
}

/// Each fault together with each of the other kinds: the kinds stand in the order of the checks, and
/// the first fault is told.
fn together(part: &mut Part, good: &Relay) {
    let len = good.plays.len();
    let lengths: [Fault<usize>; 9] = [
        (0, len),
        (21, len + 1),
        (21, len - 1),
        (21, 0),
        (21, 1),
        (21, 3),
        (21, 7),
        (21, 27),
        // As a byte 258 is 2.
        (21, 3 * 258),
    ];
    let charts: [Fault<(usize, u32)>; 5] = [
        (0, (0, 3)),
        (7, (0, CHART + 1)),
        (7, (1, CHART + 1)),
        (7, (0, u32::MAX)),
        (7, (1, 1 << 31)),
    ];
    let misses = [(0, CAP), (10, CAP + 1), (10, u32::MAX)];

    for (length, len) in lengths {
        for (chart, (field, n)) in charts {
            for (miss, over) in misses {
                for swapped in [false, true] {
                    let mut relay = good.clone();
                    relay.plays = small_plays(len);
                    let first_and_last = [Some(0), (len / 3).checked_sub(1)];
                    let [one, other] = if swapped { [1, 0] } else { [0, 1] };
                    put(&mut relay.plays, first_and_last[one], field, n);
                    put(&mut relay.plays, first_and_last[other], 2, over);
                    accuracies(part, &mut relay, [length, chart, miss]);
                }
            }
        }
    }
}

/// The relay with each kind of accuracy and of output. `told` are the numbers of the faults that it has
/// already, 0 for none: 21, 7 and 10.
fn accuracies(part: &mut Part, relay: &mut Relay, told: [u32; 3]) {
    const ACCS: [Fault<(bool, f64)>; 9] = [
        (0, (true, 0.75)),
        (0, (true, 1.0)),
        (11, (true, f64::NAN)),
        (11, (true, OUTSIDE[0])),
        (11, (true, -f64::MIN_POSITIVE)),
        (13, (false, 0.75)),
        (13, (false, -0.0)),
        (13, (false, f64::NAN)),
        (13, (false, 2.0)),
    ];

    let places = relay.places();
    let [length, chart, miss] = told;

    for (outside, (given, acc)) in ACCS {
        (relay.acc_given, relay.acc) = (given, acc);

        for (short, places) in [(0, places), (0, places + 5), (5, places - 1), (5, 0)] {
            let first = [length, short, chart, miss, outside];
            let status = first.into_iter().find(|&n| n != 0).unwrap_or(0);

            part.tally.inputs += 1;
            part.expect(relay, places, status, &relay.written(status));
        }
    }
}

/// Each number of each chart at its limit and past it, and each accuracy at the limits.
fn limits(part: &mut Part, good: &Relay) {
    for place in 0..good.plays.len() {
        let (limit, refused) = [(CHART, 7), (CHART, 7), (CAP, 10)][place % 3];
        let past = [
            limit + 1,
            limit + 65_536,
            1 << 31,
            (1 << 31) + limit,
            u32::MAX,
        ];

        for n in [0, limit - 1, limit].into_iter().chain(past) {
            let mut relay = good.clone();
            relay.plays[place] = n;
            let status = if n > limit { refused } else { 0 };
            told_status(part, &relay, status);
        }
    }

    for (accs, status) in [(INSIDE.as_slice(), 0), (OUTSIDE.as_slice(), 11)] {
        for &acc in accs {
            let mut relay = Relay {
                acc,
                ..good.clone()
            };
            told_status(part, &relay, status);

            relay.acc_given = false;
            told_status(part, &relay, 13);
        }
    }
}

/// Compares the relay, whose status with a long output is known beforehand.
fn told_status(part: &mut Part, relay: &Relay, status: u32) {
    let here = relay.status(relay.places());
    part.tally.judge(here == status, || {
        format!("{relay:?}: the status here is {here}, where {status} is told")
    });
    part.compare(relay);
}

/// Outputs of each length.
fn outputs(part: &mut Part, good: &Relay) {
    let places = 1 + 2 * good.plays.len();
    let values = good.answer();

    for len in 0..=places + 8 {
        let status = if len < places { 5 } else { 0 };
        part.tally.inputs += 1;
        part.expect(good, len, status, &values);
    }
}

/// Plays of each length up to that of 300 charts, the output being long enough for all of them.
fn lengths(part: &mut Part, classic: bool) {
    for len in 0..=3 * 300 {
        let mut relay = good(classic, 0);
        relay.plays = small_plays(len);
        let right = [6, 9, 12, 15, 18, 21, 24].contains(&len);
        told_status(part, &relay, if right { 0 } else { 21 });
    }
}
