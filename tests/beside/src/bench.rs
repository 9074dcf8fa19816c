//! Part bench: nanoseconds a call, the library's and the Rust's on the same inputs, made
//! beforehand; the best pass of each side. `run` builds it without overflow checks, as the
//! repository's users build the Rust.

use std::{
    hint::black_box,
    time::{Duration, Instant},
};

use crate::{
    inputs::{self, Holds, Rng},
    nearest, ours, plays,
    query::{ACC, CAP, CHART, Method, Query},
    repo,
    sheet::{self, ANSWER, CHARTS, Chart, QUERIES, TOTALS},
    target,
};

/// The least passes over a batch, and the least time that they take.
const PASSES: usize = 5;
const LEAST: Duration = Duration::from_millis(500);

/// Queries of a batch whose calls are short: so many that no branch predictor knows them by heart.
const MANY: usize = 65_536;

/// The candidates of a short walk.
const FEW: u32 = 4;

/// Nanoseconds a call in one pass.
fn pass<T, R>(batch: &[T], call: impl Fn(&T) -> R) -> f64 {
    let start = Instant::now();

    for input in batch {
        black_box(call(black_box(input)));
    }

    start.elapsed().as_nanos() as f64 / batch.len() as f64
}

/// Nanoseconds a call in the best pass.
fn best<T, R>(batch: &[T], call: impl Fn(&T) -> R) -> f64 {
    time(batch, call, |_| ()).0
}

/// Nanoseconds a call in the best pass of each side. The sides take turns, so that other load on
/// the machine falls on both.
fn time<T, R, S>(batch: &[T], ours: impl Fn(&T) -> R, theirs: impl Fn(&T) -> S) -> (f64, f64) {
    let start = Instant::now();
    let mut best = (f64::INFINITY, f64::INFINITY);
    let mut passes = 0;

    while passes < PASSES || start.elapsed() < LEAST {
        best.0 = best.0.min(pass(batch, &ours));
        best.1 = best.1.min(pass(batch, &theirs));
        passes += 1;
    }

    best
}

fn side(ns: f64) -> String {
    format!("{ns:.1} ns, {:.0} rows/s", 1e9 / ns)
}

fn tell(what: &str, whose: &str, (ours, theirs): (f64, f64)) {
    println!(
        "bench {what}: ours {}; {whose} {}; ours is {:.2} times as fast",
        side(ours),
        side(theirs),
        theirs / ours
    );
}

fn generate(q: &Query) -> [u32; 8] {
    let mut out = [0; 8];
    ours::generate(q, &mut out);
    out
}

/// A method beside the Rust, or beside the plain walk for Nearest.
fn method(what: &str, method: Method, batch: &[Query]) {
    match method {
        Method::Nearest => tell(what, "the plain walk", time(batch, generate, nearest::walk)),
        _ => tell(what, "the Rust", time(batch, generate, repo::generate)),
    }
}

/// Queries of up to so many hits with an accuracy, all of them accepted.
fn mixed(rng: &mut Rng, method: Method, n: usize, hits: u32) -> Vec<Query> {
    let mut batch = Vec::with_capacity(n);

    while batch.len() < n {
        let turn = rng.next();
        let q = inputs::query(rng, method, turn, hits, Holds::InFull);

        if q.has(ACC) && q.status() == 0 {
            batch.push(q);
        }
    }

    batch
}

/// Queries for Closest of exactly so many hits, no misses, and so many of the five counts missing.
/// The given ones take at most half the hits, so that there is much left to search.
fn exact(rng: &mut Rng, n: usize, hits: u32, missing: usize) -> Vec<Query> {
    let mut query = || loop {
        let mut q = Query {
            n_objects: hits.min(CHART),
            n_hold_notes: hits - hits.min(CHART),
            method: Method::Closest.code(),
            classic: hits <= CHART && rng.one_in(2),
            presence: ACC | rng.upto(31) as u8,
            counts: std::array::from_fn(|_| rng.upto(hits / 4)),
            ..Query::default()
        };

        if q.missing() == missing {
            q.aim(rng.upto(q.full_points()).into());
            return q;
        }
    };

    (0..n).map(|_| query()).collect()
}

/// The innermost steps of Closest's search with three or more missing, as the bounds of its loops
/// tell: each n200 where the last three are missing, else each pair of n320 and n300. `most` is how
/// many values of a loop are run through.
fn steps(q: &Query, most: i64) -> i64 {
    let [n320, n300, n200, n100, n50] = q.given().map(|n| n.map(i64::from));
    let (w, remain, target) = (i64::from(q.weights()[0]), i64::from(q.remain()), q.target());
    let space: i64 = [n200, n100, n50].into_iter().flatten().sum();
    let all_three = n200.or(n100).or(n50).is_none();
    let up = |n: i64, d: i64| (n.max(0) + d - 1) / d + 1;
    let range = |n: Option<i64>, room: i64, lo: i64, hi: i64| match n {
        Some(n) => n.min(room)..=n.min(room),
        None => room.min(lo)..=room.min(hi).min(room.min(lo) + most - 1),
    };
    let mut steps = 0;

    for x in range(
        n320,
        (remain - space).max(0),
        (target - 10 * remain).max(0) / (w - 10),
        up(target, w),
    ) {
        let (left, score) = (remain - x, target - w * x);

        if left < space {
            continue;
        }

        for y in range(
            n300,
            left - space,
            (score - 10 * left).max(0) / 50,
            up(score, 60),
        ) {
            let (left, score) = (left - y, score - 60 * y);

            if all_three {
                let lo = (score - 20 * left).max(0) / 20;
                let hi = left.min(up(score, 40)).min(lo + most - 1);
                steps += (hi - lo + 1).max(0);
            } else if left >= space {
                steps += 1;
            }
        }
    }

    steps
}

/// The mean and the most steps of a batch.
fn print_steps(what: &str, side: &str, batch: &[Query], most: i64) {
    let steps: Vec<_> = batch.iter().map(|q| steps(q, most)).collect();
    let mean = steps.iter().sum::<i64>() / steps.len() as i64;
    println!(
        "bench {what}: {side} {mean} steps in the mean, {} at the most",
        steps.iter().max().unwrap()
    );
}

fn closest(rng: &mut Rng) {
    for (hits, n) in [(50, 256), (100, 256), (200, 128), (400, 64), (800, 32)] {
        for missing in 3..=5 {
            let batch = exact(rng, n, hits, missing);
            let what = format!("closest, {hits} hits, {missing} missing");
            method(&what, Method::Closest, &batch);
            print_steps(&what, "ours", &batch, 2);
            print_steps(&what, "the Rust", &batch, i64::from(u32::MAX));
        }
    }

    for hits in [10_000, 2 * CHART] {
        for missing in 3..=5 {
            let batch = exact(rng, 256, hits, missing);
            let ns = best(&batch, generate);
            println!(
                "bench closest, {hits} hits, {missing} missing: ours {}",
                side(ns)
            );
            print_steps(
                &format!("closest, {hits} hits, {missing} missing"),
                "ours",
                &batch,
                2,
            );
        }
    }
}

/// The query of the longest walk: no split reaches the target, and every candidate is tried.
fn longest() -> Query {
    let mut q = Query {
        n_objects: CHART,
        n_hold_notes: CHART,
        method: Method::Nearest.code(),
        presence: ACC,
        ..Query::default()
    };
    q.aim(1);
    q
}

fn longest_walk() {
    let q = longest();
    let (_, tried) = nearest::walk(&q);
    let (ours, walk) = time(&[q], generate, nearest::walk);

    println!(
        "bench nearest, {tried} candidates: ours {:.2} ns a candidate; the plain walk {:.2} ns; \
         ours is {:.2} times as fast",
        ours / f64::from(tried),
        walk / f64::from(tried),
        walk / ours
    );
}

/// The longest walk under own weights, alone in its sheet, and a full sheet of it once.
fn longest_own_walk() {
    let q = plays::longest_own_walk();
    let sheet = |rows: usize| Full {
        bytes: sheet::weighted(&[(CHART, CHART)], q.own, &vec![sheet::row(0, &q); rows]),
        queries: vec![q; rows],
    };
    let (_, tried) = nearest::walk(&q);
    let (ours, walk) = time(&[sheet(1)], Full::ours, Full::alone);

    println!(
        "bench nearest under own weights, {tried} candidates: ours {:.2} ns a candidate; the plain walk \
         {:.2} ns; ours is {:.2} times as fast",
        ours / f64::from(tried),
        walk / f64::from(tried),
        walk / ours
    );
    println!(
        "bench a full sheet of longest walks under own weights: ours {:.3} s",
        pass(&[sheet(QUERIES)], Full::ours) / 1e9
    );
}

/// Queries for Nearest whose walk is short, so that what comes before it counts.
fn short_walks(rng: &mut Rng) {
    for missing in 2..=5 {
        let mut batch = mixed(rng, Method::Nearest, 16 * MANY, 20);
        batch.retain(|q| q.missing() == missing && nearest::walk(q).1 <= FEW);
        let what = format!("nearest, {missing} missing, at most {FEW} candidates");
        method(&what, Method::Nearest, &batch);
    }
}

pub fn run(rng: &mut Rng) {
    accuracy(rng);
    target(rng);

    for (of, n, hits) in [
        (Method::IgnoreAcc, MANY, 2_000),
        (Method::Fast, MANY, 2_000),
        (Method::Closest, 4_096, 20),
        (Method::Nearest, 256, 2_000),
    ] {
        let batch = mixed(rng, of, n, hits);
        method(&format!("{}, up to {hits} hits", of.name()), of, &batch);
    }

    closest(rng);
    longest_walk();
    longest_own_walk();
    sheets(rng);
    short_walks(rng);
}

/// A full sheet: its bytes, and its queries as the Rust takes them.
struct Full {
    bytes: Vec<u8>,
    queries: Vec<Query>,
}

impl Full {
    /// The rows go round the charts.
    fn new(charts: &[Chart], mut query: impl FnMut(Chart) -> Query) -> Self {
        let round = charts.iter().copied().enumerate().cycle();
        let (queries, rows): (Vec<_>, Vec<_>) = round
            .take(QUERIES)
            .map(|(index, chart)| {
                let q = query(chart);
                (q, sheet::row(index, &q))
            })
            .unzip();

        Self {
            bytes: sheet::bytes(charts, &rows),
            queries,
        }
    }

    /// A sheet of accepted queries with an accuracy.
    fn accepted(rng: &mut Rng, method: Method, hits: u32) -> Self {
        let charts: Vec<_> = (0..CHARTS).map(|_| inputs::chart(rng, hits)).collect();

        Self::new(&charts, |chart| {
            loop {
                let turn = rng.next();
                let q = inputs::query_over(rng, chart, method, turn, Holds::InFull);

                if q.has(ACC) && q.status() == 0 {
                    return q;
                }
            }
        })
    }

    fn ours(&self) -> (Vec<u8>, [u64; TOTALS]) {
        let mut out = vec![0; ANSWER * QUERIES];
        let mut totals = [0; TOTALS];
        ours::work_sheet(&self.bytes, &mut out, &mut totals);
        (out, totals)
    }

    /// The Rust, or the plain walk, on the same bytes, which sheet.rs reads, checks, writes and sums up.
    fn theirs(&self) -> Result<(Vec<u8>, [u64; TOTALS]), u32> {
        let answers = sheet::answers(&self.bytes)?;
        Ok((sheet::written(&answers), sheet::totals(&answers)))
    }

    /// The Rust, or the plain walk, with nothing read, checked, written or summed up.
    fn alone(&self) {
        for q in &self.queries {
            match q.method() {
                Some(Method::Nearest) => drop(black_box(nearest::walk(q))),
                _ => drop(black_box(repo::generate(q))),
            }
        }
    }
}

fn sheets(rng: &mut Rng) {
    for (method, hits, whose) in [
        (Method::IgnoreAcc, 2_000, "the Rust"),
        (Method::Fast, 2_000, "the Rust"),
        (Method::Closest, 100, "the Rust"),
        (Method::Nearest, 2_000, "the plain walk"),
    ] {
        let what = format!("full sheets of {}, up to {hits} hits", method.name());
        let batch: Vec<_> = (0..16).map(|_| Full::accepted(rng, method, hits)).collect();
        let row = |ns: f64| ns / QUERIES as f64;

        let (ours, theirs) = time(&batch, Full::ours, Full::theirs);
        tell(&what, whose, (row(ours), row(theirs)));
        let (ours, alone) = time(&batch, Full::ours, Full::alone);
        tell(&what, &format!("{whose} alone"), (row(ours), row(alone)));
    }

    let worst = [Full::new(&[(CHART, CHART)], |_| longest())];
    println!(
        "bench a full sheet of longest walks at {} hits: ours {:.3} s",
        2 * CHART,
        best(&worst, Full::ours) / 1e9
    );
}

fn target(rng: &mut Rng) {
    let batch = mixed(rng, Method::IgnoreAcc, MANY, 2_000);

    let ours = |q: &Query| {
        let mut out = [0; 4];
        ours::target(q, &mut out);
        out
    };

    tell("target", "the Rust", time(&batch, ours, target::answer));
}

fn accuracy(rng: &mut Rng) {
    let batch: Vec<_> = (0..MANY)
        .map(|_| std::array::from_fn::<_, 6, _>(|_| rng.upto(CAP)))
        .collect();

    let ours = |counts: &[u32; 6]| {
        let mut value = 0.0;
        ours::accuracy(counts, false, &mut value);
        value
    };

    let rust = |counts: &[u32; 6]| repo::results(counts).accuracy(false);

    tell("accuracy", "the Rust", time(&batch, ours, rust));
}
