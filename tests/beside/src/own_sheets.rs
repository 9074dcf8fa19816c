//! Sheets with document 02's own weights: small charts for all splits, the largest, sheets cut at every
//! byte and rows, whose statuses are told by hand, and the stored sheets.

use crate::{
    holds_sheets::TOLD_CHARTS,
    inputs::{self, Holds, Rng},
    nearest::ALL_SPLITS,
    plays,
    query::{ACC, CHART, MISSES, Method, PASSED, Query, Weights},
    rising,
    sheet::{self, CHARTS, Chart, QUERIES, ROW, Row},
    sheet_inputs::{self, OVER_WEIGHTS, put_u32},
    stride_table,
};

/// Weights close together and far apart, at both limits, with the first two equal and not, and the two
/// standard ones.
pub const WEIGHTINGS: [Weights; 10] = [
    [5, 4, 3, 2, 1],
    [4, 4, 3, 2, 1],
    [100, 99, 98, 97, 96],
    [100, 100, 99, 98, 97],
    [100, 98, 3, 2, 1],
    [100, 100, 3, 2, 1],
    [61, 60, 40, 20, 10],
    [60, 60, 40, 20, 10],
    [97, 64, 27, 8, 5],
    [90, 90, 50, 30, 6],
];

/// Random weightings of the fixed sheets.
const RANDOM: usize = 14;

/// The hits of the exhaustive list, and one in how many of it are taken.
const SMALL: u32 = 3;
const ONE_IN: u32 = 8;

/// Weights of that list, or random ones.
pub fn weights(rng: &mut Rng) -> Weights {
    if rng.one_in(2) {
        rng.pick(&WEIGHTINGS)
    } else {
        stride_table::random_set(rng)
    }
}

/// The sheets that every run takes.
pub fn fixed(rng: &mut Rng, visit: &mut dyn FnMut(&[u8])) {
    let random: Vec<_> = (0..RANDOM).map(|_| stride_table::random_set(rng)).collect();

    for own in WEIGHTINGS.into_iter().chain(random) {
        let charts: Vec<_> = (0..CHARTS)
            .map(|_| inputs::chart(rng, ALL_SPLITS))
            .collect();
        visit(&nearest(rng, own, &charts, QUERIES));
        visit(&by_all(rng, own, &charts));
        visit(&nearest(rng, own, &[(CHART, CHART)], QUERIES / 8));
    }

    for own in WEIGHTINGS {
        exhaustive(rng, own, visit);
    }

    for (_, bytes) in stored() {
        visit(&bytes);
    }
}

/// Sheets of the exhaustive list of small queries for Nearest.
fn exhaustive(rng: &mut Rng, own: Weights, visit: &mut dyn FnMut(&[u8])) {
    let mut queries = Vec::new();

    inputs::exhaustive(Method::Nearest, Some(own), SMALL, &mut |q| {
        if rng.one_in(ONE_IN) {
            queries.push(*q);
        }
    });

    for queries in queries.chunks(CHARTS) {
        visit(&sheet_inputs::own_charts(queries));
    }
}

/// A sheet of rows of Nearest that have a split. Every presence of the five counts comes up, classic
/// and not.
fn nearest(rng: &mut Rng, own: Weights, charts: &[Chart], rows: usize) -> Vec<u8> {
    let row = |i: usize| {
        let index = i % charts.len();
        let mut q = rising::query(rng, charts[index], i as u64, false).under(own);
        inputs::give_acc(rng, &mut q);
        sheet::row(index, &q)
    };
    let rows: Vec<_> = (0..rows).map(row).collect();

    sheet::weighted(charts, Some(own), &rows)
}

/// A full sheet of rows of all methods, with a split and without.
fn by_all(rng: &mut Rng, own: Weights, charts: &[Chart]) -> Vec<u8> {
    let row = |i: usize| {
        let (index, turn) = (i % charts.len(), i as u64 / 4);
        let method = Method::ALL[i % 4];
        let q = inputs::query_over(rng, charts[index], method, turn, Holds::OneInFour);
        let mut q = q.under(own);
        inputs::give_acc(rng, &mut q);
        sheet::row(index, &q)
    };
    let rows: Vec<_> = (0..QUERIES).map(row).collect();

    sheet::weighted(charts, Some(own), &rows)
}

/// Weights that fall, "strictly, from at most 100 to at least 1", or have their first two equal.
const GOOD: [Weights; 6] = [
    [5, 4, 3, 2, 1],
    [4, 4, 3, 2, 1],
    [100, 99, 98, 97, 96],
    [100, 100, 99, 98, 97],
    [100, 4, 3, 2, 1],
    [100, 100, 3, 2, 1],
];

/// Weights that do not.
const BAD: [Weights; 30] = [
    // Outside 1 to 100.
    [101, 60, 40, 20, 10],
    [101, 100, 40, 20, 10],
    [101, 101, 40, 20, 10],
    [256, 60, 40, 20, 10],
    [u32::MAX, 60, 40, 20, 10],
    [61, 60, 40, 20, 0],
    [60, 60, 40, 20, 0],
    [4, 3, 2, 1, 0],
    [0, 0, 0, 0, 0],
    // The lowest byte alone would do.
    [256 + 61, 60, 40, 20, 10],
    [61, 256 + 60, 40, 20, 10],
    [61, 60, 256 + 40, 20, 10],
    [61, 60, 40, 65_536 + 20, 10],
    [61, 60, 40, 20, (1 << 24) + 10],
    [61, 60, 40, 20, (1 << 31) + 10],
    // A weight above the one before it.
    [60, 61, 40, 20, 10],
    [61, 40, 60, 20, 10],
    [61, 60, 20, 40, 10],
    [61, 60, 40, 10, 20],
    [61, 60, 62, 20, 10],
    [61, 60, 40, 41, 10],
    [61, 60, 40, 20, 21],
    [61, 60, 40, 20, 100],
    [1, 2, 3, 4, 5],
    // Equal ones that are not the first two.
    [61, 60, 60, 20, 10],
    [60, 60, 60, 20, 10],
    [61, 60, 40, 40, 10],
    [61, 60, 40, 10, 10],
    [60, 60, 40, 20, 20],
    [50, 50, 50, 50, 50],
];

/// Visits these bytes cut at every length, and the status that is told from each of these lengths on.
fn every_cut(bytes: &[u8], told: &[(usize, u32)], visit: &mut dyn FnMut(&[u8], u32)) {
    for len in 0..=bytes.len() {
        let last = told.iter().rev().find(|(from, _)| *from <= len);
        visit(&bytes[..len], last.unwrap().1);
    }
}

/// Sheets and their statuses, told by hand, 0 for an accepted one. Each has one chart, so that the
/// weights' count stands at 12, the weights from 16 to 36, the query count there, and two rows from 40
/// to 136; more bytes follow.
pub fn told_sheets(visit: &mut dyn FnMut(&[u8], u32)) {
    let q = Query {
        presence: ACC,
        acc: 0.5,
        ..Query::default()
    };
    let rows = [Method::IgnoreAcc, Method::Nearest].map(|method| sheet::row(0, &q.by(method)));
    let with = |own: Weights| {
        let mut bytes = sheet::weighted(&[(20, 7)], Some(own), &rows);
        bytes.extend([0; ROW + 1]);
        bytes
    };
    let put = |mut bytes: Vec<u8>, at: usize, n: usize| {
        put_u32(&mut bytes, at, n);
        bytes
    };

    for own in GOOD {
        every_cut(&with(own), &[(0, 1), (136, 0), (137, 4)], visit);
        // The query count is judged before the queries.
        every_cut(&put(with(own), 36, 1_025), &[(0, 1), (40, 3)], visit);
    }

    for own in BAD {
        every_cut(&with(own), &[(0, 1), (36, 18)], visit);
        every_cut(&put(with(own), 36, 1_025), &[(0, 1), (36, 18)], visit);
        every_cut(&put(with(own), 0, 257), &[(0, 1), (4, 2)], visit);
    }

    // A count over 1 is judged before any weight, good or bad.
    for count in OVER_WEIGHTS {
        for own in [GOOD[0], BAD[0]] {
            let bytes = put(with(own), 12, count);
            every_cut(&bytes, &[(0, 1), (16, 18)], visit);
            every_cut(&put(bytes, 0, 257), &[(0, 1), (4, 2)], visit);
        }
    }

    // With a count of 0 the weights are no more: the first of them is a query count.
    let none = |own| put(with(own), 12, 0);
    every_cut(&none([2, 2, 2, 2, 2]), &[(0, 1), (116, 0), (117, 4)], visit);
    every_cut(&none([1_025, 0, 0, 0, 0]), &[(0, 1), (20, 3)], visit);
}

/// The row on which `TOLD` is told, before its method and classic: Nearest has a split of it. n320 and
/// misses are given, and acc is 1, whose highest bytes are 42 and 43.
const BASE: Query = Query {
    n_objects: 20,
    n_hold_notes: 7,
    method: 0,
    priority: 0,
    classic: false,
    presence: ACC | MISSES | 1,
    counts: [3, 0, 0, 0, 0],
    misses: 2,
    passed: 0,
    acc: 1.0,
    holds_passed: None,
    own: None,
};

/// A byte of a row and what it becomes.
type Edit = (usize, u8);

// What breaks a check: 6, no such chart; 7, over objects; 8, priority; 9, byte 7; 10, n320 of
// 1,000,001; 11, acc of -1; 13, acc missing; 14, n320 of 99.
const NO_CHART: Edit = (0, 9);
const OVER_CHART: Edit = (0, 2);
const UNKNOWN: Edit = (3, 2);
const LEFT: Edit = (7, 1);
const OVER: [Edit; 3] = [(8, 0x41), (9, 0x42), (10, 0x0F)];
const OUTSIDE: Edit = (43, 0xBF);
const NO_ACC: [Edit; 3] = [(5, MISSES | 1), (42, 0), (43, 0)];
const OVERFULL: Edit = (8, 99);

/// What is broken of a row in a sheet with own weights, and its statuses by methods 0 to 3.
const TOLD: [(&[Edit], [u32; 4]); 38] = [
    (&[], [0, 19, 19, 0]),
    // No such chart, whatever else.
    (&[NO_CHART], [6; 4]),
    (&[(1, 1)], [6; 4]),
    (&[NO_CHART, UNKNOWN, LEFT, OUTSIDE], [6; 4]),
    (&[NO_CHART, OVER[0], OVER[1], OVER[2]], [6; 4]),
    // The chart's holds or objects are over the limit.
    (&[(0, 1)], [7; 4]),
    (&[OVER_CHART], [7; 4]),
    (&[OVER_CHART, UNKNOWN, LEFT, OUTSIDE], [7; 4]),
    (&[OVER_CHART, OVER[0], OVER[1], OVER[2]], [7; 4]),
    // Method, priority, classic.
    (&[(2, 4)], [8; 4]),
    (&[(2, 255)], [8; 4]),
    (&[UNKNOWN], [8; 4]),
    (&[(4, 2)], [8; 4]),
    (&[UNKNOWN, LEFT, OUTSIDE], [8; 4]),
    (&[UNKNOWN, OVER[0], OVER[1], OVER[2]], [8; 4]),
    // Bytes 6 and 7, the last field, and a missing n300 and passed.
    (&[(6, 2)], [9; 4]),
    (&[LEFT], [9; 4]),
    (&[(44, 1)], [9; 4]),
    (&[(12, 1)], [9; 4]),
    (&[(35, 128)], [9; 4]),
    (&[LEFT, OUTSIDE], [9; 4]),
    (&[LEFT, OVER[0], OVER[1], OVER[2]], [9; 4]),
    (&[LEFT, OVERFULL], [9; 4]),
    (&[LEFT, NO_ACC[0], NO_ACC[1], NO_ACC[2]], [9; 4]),
    // A missing acc that is not zero.
    (&[NO_ACC[0]], [9; 4]),
    // Methods 1 and 2, before any later check.
    (&OVER, [10, 19, 19, 10]),
    (&[(28, 0x41), (29, 0x42), (30, 0x0F)], [10, 19, 19, 10]),
    (&[OVER[0], OVER[1], OVER[2], OUTSIDE], [10, 19, 19, 10]),
    (&[OUTSIDE], [11, 19, 19, 11]),
    (&[(36, 1)], [11, 19, 19, 11]),
    (&[OUTSIDE, OVERFULL], [11, 19, 19, 11]),
    (&NO_ACC, [0, 19, 19, 13]),
    (
        &[NO_ACC[0], NO_ACC[1], NO_ACC[2], OVERFULL],
        [0, 19, 19, 13],
    ),
    (&[OVERFULL], [0, 19, 19, 14]),
    // With two missing. The first would be 12 by Closest with the standard weights.
    (&[(5, ACC | 0b0_0111), (28, 0), OVERFULL], [0, 19, 19, 14]),
    (&[(5, ACC | 0b0_0111), (28, 0)], [0, 19, 19, 0]),
    // Holds passed, and worst case.
    (&[(6, 1), (44, 3)], [0, 19, 19, 0]),
    (&[(3, 1)], [0, 19, 19, 0]),
];

/// Rows over `TOLD_CHARTS` in a sheet with own weights and their statuses, told by hand: as they are,
/// and with what other checks ask for broken, so that the order 6, 7, 8, 9, 19, 10, 11, 13, 14 shows.
pub fn told(classic: bool) -> impl Iterator<Item = (Row, u32)> {
    TOLD.into_iter().flat_map(move |(edits, statuses)| {
        let rows = Method::ALL.map(|method| {
            let mut row = sheet::row(0, &Query { classic, ..BASE }.by(method));
            edits.iter().for_each(|&(at, byte)| row[at] = byte);
            row
        });
        rows.into_iter().zip(statuses)
    })
}

/// The stored sheets: rows whose pair does not fold, classic or not, and the same where it does; the
/// longest walk; one for each 18, and for each 1 of the section.
pub fn stored() -> Vec<(&'static str, Vec<u8>)> {
    let told: Vec<_> = told(false).map(|(row, _)| row).collect();
    let of = |own, rows: &[Row]| sheet::weighted(&TOLD_CHARTS, Some(own), rows);
    let with = |own| sheet::weighted(&[], Some(own), &[]);
    let bad = with([101, 60, 40, 20, 10]);
    let mut queries_over = bad.clone();
    put_u32(&mut queries_over, 28, 1_025);

    let mut rows = stored_rows();
    let equal = of([60, 60, 40, 20, 10], &rows);
    // Those by Closest and by Nearest.
    rows.extend(told.chunks(4).flat_map(|by_all| &by_all[2..]));

    vec![
        ("own.sheet", of([97, 64, 27, 8, 5], &rows)),
        ("own_equal.sheet", equal),
        (
            "own_longest.sheet",
            sheet_inputs::own_charts(&[plays::longest_own_walk()]),
        ),
        ("weights_count_cut.sheet", bad[..7].to_vec()),
        ("weights_count_2.sheet", vec![0, 0, 0, 0, 2, 0, 0, 0]),
        // In the third weight.
        ("weights_cut.sheet", bad[..19].to_vec()),
        ("weights_over.sheet", bad),
        ("weights_zero.sheet", with([61, 60, 40, 20, 0])),
        ("weights_rising.sheet", with([60, 61, 40, 20, 10])),
        ("weights_equal.sheet", with([61, 60, 60, 20, 10])),
        ("weights_queries_over.sheet", queries_over),
    ]
}

/// Rows over the first of `TOLD_CHARTS`, classic and not: by each method, then by Nearest with the first
/// two missing, or one of them, or also n50, with points left over on both sides, with one missing and
/// with none, with passed, holds passed and misses, and stopped by 13 and 14.
fn stored_rows() -> Vec<Row> {
    let (n_objects, n_hold_notes) = TOLD_CHARTS[0];
    let mut rows = Vec::new();

    for classic in [false, true] {
        let q = Query {
            n_objects,
            n_hold_notes,
            classic,
            presence: ACC,
            acc: 0.75,
            ..Query::default()
        };
        let given = |presence, counts| Query {
            presence: ACC | presence,
            counts,
            ..q
        };
        let at = |acc, q| Query { acc, ..q };
        let remain = q.remain();

        rows.extend(Method::ALL.map(|method| q.by(method)));
        rows.extend(
            [
                given(0b1_1100, [0; 5]),
                given(0b1_1110, [0, 4, 0, 0, 0]),
                given(0b1_1101, [4, 0, 0, 0, 0]),
                given(0b0_1100, [0; 5]),
                given(0b1_0011, [0; 5]),
                at(0.0, q),
                at(1.0, given(0b0_0011, [0; 5])),
                at(1.0, given(0b0_1111, [0; 5])),
                at(0.0, given(0b1_1110, [0; 5])),
                given(0b1_1111, [remain - 4, 1, 1, 1, 1]),
                given(0b1_1111, [remain - 4, 1, 1, 1, 0]),
                given(0b0_0100, [0, 0, remain + 1, 0, 0]),
                Query { presence: 0, ..q },
                Query {
                    presence: ACC | MISSES | PASSED,
                    misses: 2,
                    passed: 12,
                    holds_passed: Some(3),
                    ..q
                },
            ]
            .map(|q| q.by(Method::Nearest)),
        );
    }

    rows.iter().map(|q| sheet::row(0, q)).collect()
}
