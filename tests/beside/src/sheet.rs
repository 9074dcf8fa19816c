//! Document 01's sheet, with document 02's longer queries, own weights and totals: how its bytes lie, and
//! what the call that works it must answer.

use std::{iter, ops::Range};

use crate::{
    generate,
    query::{Answer, Query, Weights},
    stride_table,
};

pub const CHARTS: usize = 256;
pub const QUERIES: usize = 1_024;

/// Bytes of a chart, of own weights, of a query and of an answer.
const CHART: usize = 8;
pub const WEIGHTS: usize = 20;
pub const ROW: usize = 48;
pub const ANSWER: usize = 36;

/// The numbers of the totals.
pub const TOTALS: usize = 7;

/// The bytes of a query that say whether the holds passed are given, and how many they are.
pub const HOLDS_GIVEN: usize = 6;
pub const HOLDS_PASSED: Range<usize> = 44..48;

pub type Chart = (u32, u32);
pub type Row = [u8; ROW];

/// The bytes of the fields that may be missing, in the order of their presence bits.
const FIELDS: [Range<usize>; 8] = [
    8..12,
    12..16,
    16..20,
    20..24,
    24..28,
    28..32,
    36..44,
    32..36,
];

/// The bytes of the fields that this presence leaves out.
pub fn missing(presence: u8) -> impl Iterator<Item = Range<usize>> {
    FIELDS
        .into_iter()
        .enumerate()
        .filter(move |(bit, _)| presence & 1 << bit == 0)
        .map(|(_, bytes)| bytes)
}

/// The row of a query whose chart has this index.
pub fn row(index: usize, q: &Query) -> Row {
    let mut row = [0; ROW];
    row[..2].copy_from_slice(&(index as u16).to_le_bytes());
    row[2..6].copy_from_slice(&[q.method, q.priority, q.classic.into(), q.presence]);

    let [n320, n300, n200, n100, n50] = q.counts;
    let numbers = [n320, n300, n200, n100, n50, q.misses, q.passed];

    for (at, n) in (8..).step_by(4).zip(numbers) {
        row[at..at + 4].copy_from_slice(&n.to_le_bytes());
    }

    row[36..44].copy_from_slice(&q.acc.to_le_bytes());

    for bytes in missing(q.presence) {
        row[bytes].fill(0);
    }

    if let Some(holds) = q.holds_passed {
        row[HOLDS_GIVEN] = 1;
        row[HOLDS_PASSED].copy_from_slice(&holds.to_le_bytes());
    }

    row
}

/// A whole sheet with the standard weights.
pub fn bytes(charts: &[Chart], rows: &[Row]) -> Vec<u8> {
    weighted(charts, None, rows)
}

/// A whole sheet, with own weights where there are some.
pub fn weighted(charts: &[Chart], own: Option<Weights>, rows: &[Row]) -> Vec<u8> {
    let mut bytes = (charts.len() as u32).to_le_bytes().to_vec();

    for (n_objects, n_hold_notes) in charts {
        bytes.extend(n_objects.to_le_bytes());
        bytes.extend(n_hold_notes.to_le_bytes());
    }

    bytes.extend(u32::from(own.is_some()).to_le_bytes());
    bytes.extend(own.iter().flatten().flat_map(|weight| weight.to_le_bytes()));
    bytes.extend((rows.len() as u32).to_le_bytes());
    bytes.extend(rows.as_flattened());

    bytes
}

/// Where the weights' count stands in a sheet of so many charts.
pub fn weights_at(charts: usize) -> usize {
    4 + CHART * charts
}

fn u32_at(bytes: &[u8], at: usize) -> u32 {
    u32::from_le_bytes(bytes[at..at + 4].try_into().unwrap())
}

/// A row's query, or the number, 6 to 9, that stops it.
fn query(row: &[u8], charts: &[u8], own: Option<Weights>) -> Result<Query, u32> {
    let index = u16::from_le_bytes([row[0], row[1]]);
    let chart = charts.chunks_exact(CHART).nth(index.into()).ok_or(6_u32)?;

    let q = Query {
        n_objects: u32_at(chart, 0),
        n_hold_notes: u32_at(chart, 4),
        method: row[2],
        priority: row[3],
        classic: row[4] == 1,
        presence: row[5],
        counts: std::array::from_fn(|i| u32_at(row, 8 + 4 * i)),
        misses: u32_at(row, 28),
        passed: u32_at(row, 32),
        acc: f64::from_le_bytes(row[36..44].try_into().unwrap()),
        holds_passed: (row[HOLDS_GIVEN] == 1).then(|| u32_at(row, HOLDS_PASSED.start)),
        own,
    };

    let nonzero = |bytes: Range<usize>| row[bytes].iter().any(|&byte| byte != 0);
    let holds_left = match row[HOLDS_GIVEN] {
        0 => nonzero(HOLDS_PASSED),
        given => given > 1,
    };

    if q.chart_over() {
        Err(7)
    } else if q.method().is_none() || q.priority > 1 || row[4] > 1 {
        Err(8)
    } else if holds_left || row[7] != 0 || missing(q.presence).any(nonzero) {
        Err(9)
    } else {
        Ok(q)
    }
}

/// Takes the next bytes off the sheet.
fn take<'a>(sheet: &mut &'a [u8], len: usize) -> Result<&'a [u8], u32> {
    let (taken, rest) = sheet.split_at_checked(len).ok_or(1_u32)?;
    *sheet = rest;
    Ok(taken)
}

/// Takes a section's count, which is judged first, and its records.
fn section<'a>(
    sheet: &mut &'a [u8],
    record: usize,
    most: usize,
    over: u32,
) -> Result<&'a [u8], u32> {
    match u32_at(take(sheet, 4)?, 0) as usize {
        count if count > most => Err(over),
        count => take(sheet, record * count),
    }
}

/// Takes the own weights, if there are any. All their bytes are there before they are judged.
fn own_weights(sheet: &mut &[u8]) -> Result<Option<Weights>, u32> {
    let section = section(sheet, WEIGHTS, 1, 18)?;

    if section.is_empty() {
        return Ok(None);
    }

    let own = std::array::from_fn(|i| u32_at(section, 4 * i));
    stride_table::legal(&own).then_some(Some(own)).ok_or(18)
}

/// Every row's query or the number, 6 to 9, that stops it; or the number, 1 to 4 or 18, that refuses
/// the sheet.
pub fn queries(mut sheet: &[u8]) -> Result<Vec<Result<Query, u32>>, u32> {
    let charts = section(&mut sheet, CHART, CHARTS, 2)?;
    let own = own_weights(&mut sheet)?;
    let rows = section(&mut sheet, ROW, QUERIES, 3)?;

    if !sheet.is_empty() {
        return Err(4);
    }

    let queries = rows.chunks_exact(ROW).map(|row| query(row, charts, own));
    Ok(queries.collect())
}

/// The answer to a row.
pub fn answer(query: &Result<Query, u32>) -> Answer {
    match query {
        Ok(q) => generate::answer(q),
        &Err(status) => Answer::refused(status),
    }
}

/// Every row's answer, or the number, 1 to 4 or 18, that refuses the sheet.
pub fn answers(sheet: &[u8]) -> Result<Vec<Answer>, u32> {
    Ok(queries(sheet)?.iter().map(answer).collect())
}

/// The bytes of the answers.
pub fn written(answers: &[Answer]) -> Vec<u8> {
    let mut bytes = Vec::with_capacity(ANSWER * answers.len());

    for answer in answers {
        for n in iter::once(answer.status).chain(answer.values) {
            bytes.extend(n.to_le_bytes());
        }
    }

    bytes
}

/// The answers that these bytes hold.
pub fn read(written: &[u8]) -> Vec<Answer> {
    let answer = |bytes: &[u8]| Answer {
        status: u32_at(bytes, 0),
        values: std::array::from_fn(|i| u32_at(bytes, 4 + 4 * i)),
    };

    written.chunks_exact(ANSWER).map(answer).collect()
}

/// The totals of these answers: "the number of rows with status 0, and the sums of their six counts".
pub fn totals(answers: &[Answer]) -> [u64; TOTALS] {
    let mut totals = [0; TOTALS];

    for answer in answers.iter().filter(|answer| answer.status == 0) {
        let [six @ .., _tried, _left] = answer.values;

        for (total, n) in totals.iter_mut().zip(iter::once(1).chain(six)) {
            *total += u64::from(n);
        }
    }

    totals
}
