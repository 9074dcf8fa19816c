//! Sheets with document 02's holds passed: rows that are alike but for them, those of part holds, rows
//! whose statuses are told by hand, and the stored sheet.

use crate::{
    holds,
    inputs::Rng,
    query::{ACC, CAP, CHART, MISSES, Method, PASSED, Query},
    sheet::{self, CHARTS, Chart, HOLDS_GIVEN, HOLDS_PASSED, Row},
    sheet_inputs,
};

/// The sheets that every run takes.
pub fn fixed(rng: &mut Rng, visit: &mut dyn FnMut(&[u8])) {
    visit(&stored());
    alike(visit);
    listed(rng, visit);
}

/// Numbers of holds passed around those of a chart.
fn around_holds(holds: u32) -> Vec<Option<u32>> {
    let given = [0, 1, holds - 1, holds, holds + 1, u32::MAX].map(Some);
    given.into_iter().chain([None]).collect()
}

/// Sheets of one chart, whose rows are alike but for the holds passed, there and back again.
fn alike(visit: &mut dyn FnMut(&[u8])) {
    let chart @ (n_objects, n_hold_notes) = (10, 4);
    let holds = around_holds(n_hold_notes);

    for method in Method::ALL {
        for classic in [false, true] {
            let row = |&holds_passed: &Option<u32>| {
                let q = Query {
                    n_objects,
                    n_hold_notes,
                    classic,
                    presence: ACC,
                    acc: 0.75,
                    holds_passed,
                    ..Query::default()
                };
                sheet::row(0, &q.by(method))
            };
            let rows: Vec<_> = holds.iter().chain(holds.iter().rev()).map(row).collect();

            visit(&sheet::bytes(&[chart], &rows));
        }
    }
}

/// The queries of part holds, in rows.
fn listed(rng: &mut Rng, visit: &mut dyn FnMut(&[u8])) {
    let mut queries = Vec::new();
    holds::small(rng, &mut |q| queries.push(*q));
    holds::limits(rng, &mut |q| queries.push(*q));

    for queries in queries.chunks(CHARTS) {
        visit(&sheet_inputs::own_charts(queries));
    }
}

/// Byte 6, byte 7 and the last field, with the status that document 02 tells of a row that no other
/// check stops: 9 for "a nonzero last field there", with byte 6 at 0, "a byte 6 above 1 or a nonzero
/// byte 7".
const TOLD: [(u8, u8, u32, u32); 28] = [
    (0, 0, 0, 0),
    (1, 0, 0, 0),
    (1, 0, 1, 0),
    (1, 0, 7, 0),
    (1, 0, CAP + 1, 0),
    (1, 0, 1 << 31, 0),
    (1, 0, u32::MAX, 0),
    (0, 0, 1, 9),
    (0, 0, 1 << 8, 9),
    (0, 0, 1 << 16, 9),
    (0, 0, 1 << 24, 9),
    (0, 0, 1 << 31, 9),
    (0, 0, u32::MAX, 9),
    (2, 0, 0, 9),
    (2, 0, 1, 9),
    (3, 0, 7, 9),
    (128, 0, 0, 9),
    (129, 0, 7, 9),
    (255, 0, 0, 9),
    (255, 0, 1, 9),
    (0, 1, 0, 9),
    (0, 255, 1, 9),
    (1, 1, 0, 9),
    (1, 1, 1, 9),
    (1, 128, u32::MAX, 9),
    (1, 255, 0, 9),
    (2, 1, 0, 9),
    (255, 255, u32::MAX, 9),
];

/// How many rows `told` makes of each of these.
const TOLD_ROWS: usize = 11;

/// The charts of `told`; the second and the third are over the limit.
pub const TOLD_CHARTS: [Chart; 3] = [(20, 7), (20, CHART + 1), (CHART + 1, 7)];

/// Rows over those charts with every such byte 6, byte 7 and last field, and their statuses, told by
/// hand: as they are, and with what another check asks for broken too, so that the order shows.
pub fn told() -> Vec<(Row, u32)> {
    let mut rows = Vec::new();

    for (method, classic) in Method::ALL
        .into_iter()
        .flat_map(|method| [false, true].map(|classic| (method, classic)))
    {
        let q = Query {
            classic,
            presence: ACC | MISSES,
            misses: 2,
            acc: 1.0,
            ..Query::default()
        };

        for (given, zero, holds_passed, status) in TOLD {
            let mut row = sheet::row(0, &q.by(method));
            row[HOLDS_GIVEN] = given;
            row[7] = zero;
            row[HOLDS_PASSED].copy_from_slice(&holds_passed.to_le_bytes());
            let broken = |at: usize, bytes: &[u8], by: u32| {
                let mut row = row;
                row[at..at + bytes.len()].copy_from_slice(bytes);
                (row, by)
            };
            // A later check is told only where check 9 passes.
            let later = |by: u32| if status == 9 { 9 } else { by };

            let told: [_; TOLD_ROWS] = [
                (row, status),
                // No such chart.
                broken(0, &[9], 6),
                broken(1, &[1], 6),
                // The chart's own holds or objects are over the limit, whatever the holds passed.
                broken(0, &[1], 7),
                broken(0, &[2], 7),
                // Method, priority, classic.
                broken(2, &[4], 8),
                broken(3, &[2], 8),
                broken(4, &[2], 8),
                // n300 is missing.
                broken(12, &[1], 9),
                // Misses, and an accuracy of -1.
                broken(28, &(CAP + 1).to_le_bytes(), later(10)),
                broken(43, &[0xBF], later(11)),
            ];
            rows.extend(told);
        }
    }

    rows
}

/// The stored sheet of rows with holds passed: by all methods, classic or not, with misses, with
/// passed, and with given counts that fit some numbers of holds and not others; on the largest chart;
/// and rows that the checks 6 to 11 stop.
pub fn stored() -> Vec<u8> {
    let charts = [TOLD_CHARTS.as_slice(), &[(100_000, 100_000)]].concat();
    let mut rows = Vec::new();

    for (method, classic) in Method::ALL
        .into_iter()
        .flat_map(|method| [false, true].map(|classic| (method, classic)))
    {
        for holds_passed in around_holds(7) {
            let q = Query {
                classic,
                holds_passed,
                acc: 0.75,
                misses: 2,
                passed: 12,
                // Where one hold was passed, these are all that remains of 21 hits.
                counts: [15, 4, 0, 0, 0],
                ..Query::default()
            };

            for presence in [ACC | MISSES, ACC | MISSES | PASSED, ACC | MISSES | 0b0_0111] {
                rows.push(sheet::row(0, &Query { presence, ..q }.by(method)));
            }
        }

        for holds_passed in [0, 99_999, u32::MAX].map(Some) {
            let q = Query {
                classic,
                holds_passed,
                presence: ACC | MISSES | 0b1_1100,
                acc: 0.75,
                misses: CAP,
                ..Query::default()
            };
            rows.push(sheet::row(3, &q.by(method)));
        }
    }

    for (fields, told) in TOLD.into_iter().zip(told().chunks(TOLD_ROWS)) {
        let all = matches!(fields, (1, 0, 7, _) | (0, 0, 1, _) | (2, 0, 0, _));
        let told = if all { told } else { &told[..1] };
        rows.extend(told.iter().map(|(row, _)| row));
    }

    sheet::bytes(&charts, &rows)
}
