//! Writes a fixed list of answers, the Rust's and for Nearest the plain walk's, which a program can
//! replay without the repository. Of each kind the limits and the document's plays come first, random
//! inputs after them. Records with holds passed follow those of all kinds without.
//!
//! A record has 92 bytes, little-endian:
//! - 0: kind u8 (0 accuracy, 1 target, 2 ignore_acc, 3 fast, 4 closest, 5 nearest). 1: priority u8.
//!   2: classic u8. 3: presence u8. 4: n_objects. 8: n_hold_notes. 12, 16, 20, 24, 28: the five
//!   counts. 32: misses. 36: passed, each u32. 40: acc, f64 bits. 48: 1 where holds passed is given,
//!   else 0. 52: holds passed, each u32. A missing field holds a number that means nothing.
//! - 56: status u32. Eight u32 from 60, zeros where the status is not 0: for accuracy its f64 bits,
//!   low half first; for target total hits, misses and the rounded target; for the others the five
//!   counts, misses, tried and left, which is the bits of an i32.

use std::{env, fs, io};

use crate::{
    accuracy, generate,
    inputs::{self, Holds, Rng},
    plays,
    query::{ACC, Answer, MISSES, Method, PASSED, Query},
    target,
};

/// Records of each kind without holds passed, and of each but accuracy with it.
const RECORDS: usize = 400;
const WITH_HOLDS: usize = 80;

/// The list's own seeds, without and with holds passed, so that it stays the same.
const SEEDS: [u64; 2] = [1, 2];

fn record(kind: u8, q: &Query, answer: &Answer) -> Vec<u8> {
    let mut bytes = vec![kind, q.priority, q.classic.into(), q.presence];
    let mut number = |n: u32| bytes.extend(n.to_le_bytes());

    number(q.n_objects);
    number(q.n_hold_notes);
    q.counts.into_iter().for_each(&mut number);
    number(q.misses);
    number(q.passed);
    number(q.acc.to_bits() as u32);
    number((q.acc.to_bits() >> 32) as u32);
    number(q.holds_passed.is_some().into());
    number(q.holds_passed.unwrap_or(0));
    number(answer.status);
    answer.values.into_iter().for_each(&mut number);

    bytes
}

fn accuracies(rng: &mut Rng) -> Vec<Vec<u8>> {
    let mut inputs = Vec::new();

    accuracy::limits(|counts| {
        let alone = counts.iter().filter(|&&n| n != 0).count() < 2;
        let alike = counts.iter().all(|n| n == &counts[0]);

        if alone || alike || rng.one_in(500) {
            inputs.push(*counts);
        }
    });

    while inputs.len() < RECORDS / 2 {
        inputs.push(accuracy::random(rng));
    }

    let both = |counts| [(counts, false), (counts, true)];

    inputs
        .into_iter()
        .flat_map(both)
        .map(|(input, classic)| {
            let [counts @ .., misses] = input;
            let q = Query {
                classic,
                counts,
                misses,
                ..Query::default()
            };
            let answer = match accuracy::answer(&input, classic) {
                Ok(bits) => Answer {
                    status: 0,
                    values: [bits as u32, (bits >> 32) as u32, 0, 0, 0, 0, 0, 0],
                },
                Err(status) => Answer::refused(status),
            };

            record(0, &q, &answer)
        })
        .collect()
}

fn targets(rng: &mut Rng) -> Vec<Vec<u8>> {
    let mut inputs = Vec::new();

    target::limits(|q| {
        if rng.one_in(1_200) {
            inputs.push(*q);
        }
    });

    while inputs.len() < RECORDS {
        inputs.push(target::random(rng, Holds::InFull));
    }

    target_records(inputs)
}

fn target_records(mut inputs: Vec<Query>) -> Vec<Vec<u8>> {
    // A target has an acc, and neither counts nor a priority.
    for q in &mut inputs {
        q.priority = 0;
        q.presence = q.presence & (MISSES | PASSED) | ACC;
    }

    let answer = |q: &Query| {
        let (status, [total_hits, misses, _, target]) = target::answer(q);
        Answer {
            status,
            values: [total_hits, misses, target, 0, 0, 0, 0, 0],
        }
    };

    inputs.iter().map(|q| record(1, q, &answer(q))).collect()
}

fn generated(method: Method, rng: &mut Rng) -> Vec<Vec<u8>> {
    let mut inputs: Vec<_> = plays::of(method)
        .into_iter()
        .map(|play| play.query)
        .collect();

    for turn in inputs.len()..RECORDS {
        // One in ten is refused by a check that all methods have, each in its turn.
        let wanted = turn
            .is_multiple_of(10)
            .then(|| [7, 8, 10, 11][turn / 10 % 4]);

        inputs.push(loop {
            let hits = generate::hits(rng, method);
            let q = inputs::query(rng, method, turn as u64, hits, Holds::InFull);

            if wanted.is_none_or(|status| status == q.status()) {
                break q;
            }
        });
    }

    generated_records(method, &inputs)
}

fn generated_records(method: Method, inputs: &[Query]) -> Vec<Vec<u8>> {
    inputs
        .iter()
        .map(|q| record(method.code() + 2, q, &generate::answer(q)))
        .collect()
}

fn targets_with_holds(rng: &mut Rng) -> Vec<Vec<u8>> {
    let told = plays::targets_with_holds().into_iter().map(|(q, _)| q);

    target_records(with_holds(told.collect(), || {
        target::random(rng, Holds::Passed)
    }))
}

fn generated_with_holds(method: Method, rng: &mut Rng) -> Vec<Vec<u8>> {
    let broken_off = plays::broken_off(method).into_iter().map(|play| play.query);
    let told = plays::with_holds().into_iter().map(|(q, _)| q);
    let told = told.filter(|q| q.method() == Some(method) && q.holds_passed.is_some());

    let inputs = with_holds(broken_off.chain(told).collect(), || {
        let hits = generate::hits(rng, method);
        let turn = rng.next();
        inputs::query(rng, method, turn, hits, Holds::Passed)
    });

    generated_records(method, &inputs)
}

/// Adds random queries with holds passed, three in four of them worked and shorter than in full.
fn with_holds(mut inputs: Vec<Query>, mut random: impl FnMut() -> Query) -> Vec<Query> {
    while inputs.len() < WITH_HOLDS {
        let q = random();
        let shorter = !q.classic && q.holds_reached() < q.n_hold_notes && q.status() == 0;

        if shorter || inputs.len().is_multiple_of(4) {
            inputs.push(q);
        }
    }

    inputs
}

/// Writes the kinds that KINDS names, 0 and 1 by default, to the file LIST_OUT; then those with holds
/// passed.
pub fn write() -> io::Result<()> {
    let path = env::var_os("LIST_OUT").ok_or_else(|| io::Error::other("LIST_OUT is not set"))?;
    let kinds = env::var("KINDS").unwrap_or_else(|_| "0,1".into());
    let kinds: Vec<_> = kinds.split(',').map(str::trim).collect();
    let mut bytes = Vec::new();

    for (with_holds, seed) in [false, true].into_iter().zip(SEEDS) {
        for &kind in &kinds {
            let mut rng = Rng::new(seed);
            let rng = &mut rng;

            let records = match (kind, with_holds) {
                ("0", false) => accuracies(rng),
                // An accuracy is of counts alone.
                ("0", true) => continue,
                ("1", false) => targets(rng),
                ("1", true) => targets_with_holds(rng),
                (_, false) => generated(method_of(kind)?, rng),
                (_, true) => generated_with_holds(method_of(kind)?, rng),
            };
            let with = if with_holds { " with holds passed" } else { "" };

            println!("list: {} records of kind {kind}{with}", records.len());
            bytes.extend(records.concat());
        }
    }

    fs::write(path, bytes)
}

/// The method of one of the kinds 2 to 5.
fn method_of(kind: &str) -> io::Result<Method> {
    Method::ALL
        .into_iter()
        .find(|method| kind == (method.code() + 2).to_string())
        .ok_or_else(|| io::Error::other(format!("unknown kind {kind:?} in KINDS")))
}
