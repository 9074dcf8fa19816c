//! Part rising: document 02's L8 over the bytes that the library writes. Rows of Nearest that are
//! alike but for acc are worked in sheets, in any order, with the standard weights and with own ones.
//! Put in the order of their rounded targets, the points of their counts never fall, and equal targets
//! have the same six counts. The left of each is its target less those points. Rows among them whose acc
//! is refused are left out. The totals of each sheet are those of the bytes.

use std::{collections::BTreeSet, fmt, mem};

use crate::{
    inputs::{self, Holds, INSIDE, OUTSIDE, Rng, Size},
    ours,
    own_sheets::{self, WEIGHTINGS},
    query::{ACC, Answer, CHART, MISSES, Method, PASSED, Query, Weights},
    sheet::{self, ANSWER, Chart, QUERIES, TOTALS},
    stride_table,
    tally::Tally,
};

/// The most hits of the charts for which every target is tried.
const SMALL: u32 = 12;

/// All values of the five presence bits, priority and classic.
const TURNS: u64 = 128;

/// All values of the presence bits and classic, as priority plays no part.
const OWN_TURNS: u64 = 64;

/// How far from both ends the targets of the largest charts are tried, and how many between.
const ENDS: u32 = 60;
const BETWEEN: u32 = 40;

/// A row as it came back, in the order of the targets.
#[derive(PartialEq, Eq, PartialOrd, Ord)]
struct Row {
    target: i64,
    points: i64,
    six: [u32; 6],
    acc: u64,
}

impl Row {
    /// A row with status 0.
    fn new(q: &Query, answer: &Answer) -> Self {
        let [six @ .., _tried, _left] = answer.values;

        Self {
            target: q.target(),
            points: q.points(&six[..5]),
            six,
            acc: q.acc.to_bits(),
        }
    }
}

impl fmt::Display for Row {
    fn fmt(&self, f: &mut fmt::Formatter<'_>) -> fmt::Result {
        let acc = f64::from_bits(self.acc);
        write!(f, "acc {acc:?}: target {}, {:?}", self.target, self.six)
    }
}

struct Part<'a> {
    tally: Tally,
    rng: &'a mut Rng,
    ties: [u64; 2],
}

impl Part<'_> {
    /// Works the query at each of these accuracies and judges the rows, which are given back in the
    /// order of their targets.
    fn compare(&mut self, q: &Query, mut accs: Vec<f64>) -> Vec<Row> {
        for i in (1..accs.len()).rev() {
            accs.swap(i, self.rng.upto(i as u32) as usize);
        }

        let mut rows = Vec::with_capacity(accs.len());

        for accs in accs.chunks(QUERIES) {
            let queries: Vec<_> = accs.iter().map(|&acc| Query { acc, ..*q }).collect();

            for (q, answer) in queries.iter().zip(self.work(&queries)) {
                self.tally.inputs += 1;
                self.tally.judge(answer.status == q.status(), || {
                    format!("{q}: {answer}, where document 01 says {}", q.status())
                });

                if answer.status == 0 {
                    self.tally.left(q, &answer, q.left(&answer.values[..5]));
                    rows.push(Row::new(q, &answer));
                }
            }
        }

        rows.sort_unstable();

        for (low, high) in rows.iter().zip(rows.iter().skip(1)) {
            let rises = low.points <= high.points;
            let same = low.target < high.target || low.six == high.six;

            self.tally.judge(rises && same, || {
                let acc = f64::from_bits(low.acc);
                format!("{}, {low}; {high}", Query { acc, ..*q })
            });
        }

        rows
    }

    /// The answers that the library writes for a sheet of queries over one chart.
    fn work(&mut self, queries: &[Query]) -> Vec<Answer> {
        let chart = (queries[0].n_objects, queries[0].n_hold_notes);
        let rows: Vec<_> = queries.iter().map(|q| sheet::row(0, q)).collect();
        let bytes = sheet::weighted(&[chart], queries[0].own, &rows);
        let mut out = vec![0xA5; ANSWER * rows.len()];
        let mut totals = [u64::MAX; TOTALS];
        let status = ours::work_sheet(&bytes, &mut out, &mut totals);

        self.tally.judge(status == 0, || {
            format!("{}: its sheet is refused by {status}", queries[0])
        });

        let answers = sheet::read(&out);
        let sums = sheet::totals(&answers);
        self.tally.judge(totals == sums, || {
            format!(
                "{}: totals {totals:?}, where the answers have {sums:?}",
                queries[0]
            )
        });

        answers
    }

    /// Every target of a query: each is met exactly if any split does, so the points of the rows are
    /// those of all splits, and a row is a tie where another split lies as far on the other side.
    fn every_target(&mut self, q: &Query) {
        let full = q.full_points();
        let rows = self.compare(q, around(full, 0..=full));
        let reached: BTreeSet<_> = rows.iter().map(|row| row.points).collect();

        for Row { target, points, .. } in rows {
            if points != target && reached.contains(&(2 * target - points)) {
                self.ties[usize::from(points > target)] += 1;
            }
        }
    }

    /// The targets around both ends of a query, and some between.
    fn ends(&mut self, q: &Query) {
        let full = q.full_points();
        let ends = (0..=ENDS).chain(full.saturating_sub(ENDS)..=full);
        let between: Vec<_> = (0..BETWEEN).map(|_| self.rng.upto(full)).collect();
        self.compare(q, around(full, ends.chain(between)));
    }

    /// Tells the ties so far, which are forgotten. Both sides must be there.
    fn tell_ties(&mut self, queries: u64, weights: &str, all: bool) {
        let [below, above] = mem::take(&mut self.ties);
        println!(
            "rising: {queries} queries with {weights} weights; {below} ties that went below the target, \
             {above} above"
        );
        self.tally.judge(!all || below > 0 && above > 0, || {
            format!("ties on one side are missing with {weights} weights")
        });
    }
}

/// Accuracies whose products are these numbers of points, and half a point more with both
/// neighbours; all others at the limits, accepted and refused.
fn around(full: u32, points: impl Iterator<Item = u32>) -> Vec<f64> {
    let over = |points: f64| (points / f64::from(full.max(1))).clamp(0.0, 1.0);
    let halves = |n: u32| {
        let half = over(f64::from(n) + 0.5);
        [over(n.into()), half, half.next_up(), half.next_down()].map(|acc| acc.clamp(0.0, 1.0))
    };

    points
        .flat_map(halves)
        .chain(INSIDE)
        .chain(OUTSIDE)
        .collect()
}

/// A query over this chart that no check but 11 stops. A plain one gives neither misses nor passed
/// nor the holds passed.
pub fn query(rng: &mut Rng, chart: Chart, turn: u64, plain: bool) -> Query {
    let holds = if plain {
        Holds::InFull
    } else {
        Holds::OneInFour
    };
    let mut q = inputs::query_over(rng, chart, Method::Nearest, turn, holds);

    q.presence |= ACC;

    if plain {
        q.presence &= !(MISSES | PASSED);
    }

    let mut left = q.remain();

    for i in (0..5).filter(|&i| q.has(1 << i)).collect::<Vec<_>>() {
        q.counts[i] = if q.missing() == 0 && i == 4 {
            left
        } else {
            rng.upto(left)
        };
        left -= q.counts[i];
    }

    q
}

/// A query over a chart of so many hits.
fn small(rng: &mut Rng, hits: u32, turn: u64, plain: bool) -> Query {
    let holds = rng.upto(hits - 1);
    // The turn says, as in `query_over`, whether hold notes count twice.
    let classic = turn >> 6 & 1 == 1;
    let objects = if classic { hits } else { hits - holds };

    query(rng, (objects, holds), turn, plain)
}

/// The turn of a query under own weights.
fn own_turn(query: u64) -> u64 {
    (query % 32) | ((query / 32 % 2) << 6)
}

/// Its weights: each weighting of the list for all turns, then random ones for as many.
fn own_weights(rng: &mut Rng, query: u64) -> Weights {
    let round = (query / OWN_TURNS) as usize % (2 * WEIGHTINGS.len());
    let listed = WEIGHTINGS.get(round).copied();
    listed.unwrap_or_else(|| stride_table::random_set(rng))
}

pub fn run(rng: &mut Rng) -> bool {
    let mut part = Part {
        tally: Tally::new("rising"),
        rng,
        ties: [0; 2],
    };
    let size = Size::new(9_000_000);
    let mut queries = 0;

    // Turns and hits go through all their values in about a quarter of the rows.
    while part.tally.inputs < size.random {
        let round = (queries / TURNS) as u32;
        let q = small(part.rng, round % SMALL + 1, queries, round < SMALL);
        part.every_target(&q);
        queries += 1;
    }

    for turn in 0..TURNS {
        if part.rng.one_in(size.one_in) {
            let q = query(part.rng, (CHART, CHART), turn, turn & 32 == 0);
            part.ends(&q);
            queries += 1;
        }
    }

    part.tell_ties(queries, "the standard", size.one_in == 1);

    // As many rows again, under own weights.
    let rows = part.tally.inputs + size.random;
    let mut queries = 0;

    while part.tally.inputs < rows {
        let own = own_weights(part.rng, queries);
        let hits = part.rng.upto(SMALL - 1) + 1;
        let plain = part.rng.one_in(2);
        let q = small(part.rng, hits, own_turn(queries), plain);
        part.every_target(&q.under(own));
        queries += 1;
    }

    for turn in 0..2 * OWN_TURNS {
        if part.rng.one_in(size.one_in) {
            let own = own_sheets::weights(part.rng);
            let q = query(part.rng, (CHART, CHART), own_turn(turn), turn < OWN_TURNS);
            part.ends(&q.under(own));
            queries += 1;
        }
    }

    part.tell_ties(queries, "own", size.one_in == 1);
    part.tally.finish()
}
