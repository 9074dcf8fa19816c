//! Sheets: document 01's example, a fixed list at the limits, and random ones, many of them damaged.

use crate::{
    holds_sheets,
    inputs::{self, Holds, Rng},
    own_sheets, plays,
    query::{CHART, Method, Query, Weights},
    sheet::{self, CHARTS, Chart, HOLDS_GIVEN, HOLDS_PASSED, QUERIES, ROW, Row, WEIGHTS},
};

/// The most hits for which the Rust's Closest searches with three or more missing.
const SEARCHED: u32 = 300;

const OVER_CHARTS: [usize; 6] = [257, 258, 512, 65_536, 1 << 31, u32::MAX as usize];
const OVER_QUERIES: [usize; 6] = [1_025, 1_026, 2_048, 65_536, 1 << 31, u32::MAX as usize];
pub const OVER_WEIGHTS: [usize; 7] = [2, 3, 255, 256, 65_536, 1 << 31, u32::MAX as usize];

pub fn put_u32(bytes: &mut [u8], at: usize, n: usize) {
    bytes[at..at + 4].copy_from_slice(&(n as u32).to_le_bytes());
}

/// Document 01's two-row example: play E by Nearest, and Nearest with presence 0.
pub fn example() -> Vec<u8> {
    let e = plays::of(Method::Nearest)
        .into_iter()
        .find(|play| play.label == 'E')
        .unwrap()
        .query;
    let bare = Query { presence: 0, ..e };

    sheet::bytes(&[(20, 0)], &[sheet::row(0, &e), sheet::row(0, &bare)])
}

/// The gate's stored sheets by their files' names, in the order in which crates/stored_sheets prints
/// them. Those whose rows are zeros are full, with bytes after them: the program reads one byte more
/// than a full sheet with own weights has.
pub fn stored() -> Vec<(&'static str, Vec<u8>)> {
    let example = example();
    let zeros = |own| sheet::weighted(&vec![(0, 0); CHARTS], own, &vec![[0; ROW]; QUERIES]);
    let (standard, own) = (zeros(None), zeros(Some([5, 4, 3, 2, 1])));
    let with = |bytes: &[u8], more: &[u8]| [bytes, more].concat();

    let mut stored = vec![
        ("example.sheet", example.clone()),
        ("no_bytes.sheet", Vec::new()),
        ("no_queries.sheet", sheet::bytes(&[], &[])),
        ("cut.sheet", example[..example.len() - 1].to_vec()),
        ("charts_over.sheet", 257_u32.to_le_bytes().to_vec()),
        (
            "queries_over.sheet",
            with(&[0; 8], &1_025_u32.to_le_bytes()),
        ),
        ("one_byte_follows.sheet", with(&example, &[0])),
        ("full.sheet", full(&mut Rng::new(1))),
        ("full_one_follows.sheet", with(&own, &[0])),
        ("full_two_follow.sheet", with(&own, &[0; 2])),
        ("holds_passed.sheet", holds_sheets::stored()),
        ("full_standard_one_follows.sheet", with(&standard, &[0])),
        ("full_standard_22_follow.sheet", with(&standard, &[0; 22])),
    ];
    stored.extend(own_sheets::stored());
    stored
}

/// The sheets that every run takes.
pub fn fixed(visit: &mut dyn FnMut(&[u8])) {
    let mut rng = Rng::new(1);
    let rng = &mut rng;

    cuts(rng, visit);
    limits(rng, visit);
    nonzero(rng, visit);
    presences(rng, visit);
    documented(visit);
    visit(&left_over());
    holds_sheets::fixed(rng, visit);
    own_sheets::fixed(rng, visit);
}

/// A row for each method, over two charts.
fn four(rng: &mut Rng, charts: [Chart; 2]) -> Vec<Row> {
    let row = |method: Method| {
        let index = usize::from(method.code() % 2);
        sheet::row(index, &query(rng, charts[index], method, Holds::OneInFour))
    };

    Method::ALL.map(row).to_vec()
}

/// A small sheet, with more bytes after it and cut at every byte; the same where a count is over
/// its limit.
fn cuts(rng: &mut Rng, visit: &mut dyn FnMut(&[u8])) {
    let charts = [(20, 0), (5, 3)];
    let mut bytes = sheet::bytes(&charts, &four(rng, charts));
    bytes.extend([0; 2 * ROW]);

    let mut every_cut = |bytes: &[u8]| (0..=bytes.len()).for_each(|len| visit(&bytes[..len]));
    every_cut(&bytes);

    let queries = sheet::weights_at(charts.len()) + 4;

    for (at, counts) in [(0, OVER_CHARTS), (queries, OVER_QUERIES)] {
        for count in counts {
            let mut bytes = bytes.clone();
            put_u32(&mut bytes, at, count);
            every_cut(&bytes);
        }
    }
}

/// Sheets as large as allowed and larger, with all their bytes or one less or more, without own weights
/// and with them; the last are longer than the program reads.
fn limits(rng: &mut Rng, visit: &mut dyn FnMut(&[u8])) {
    let charts = [(20, 0), (5, 3)];
    let rows = four(rng, charts);
    let numbers = [
        (0, 0),
        (0, 1),
        (1, 0),
        (CHARTS, 0),
        (CHARTS + 1, 0),
        (0, QUERIES),
        (0, QUERIES + 1),
        (CHARTS, QUERIES),
        (CHARTS + 1, QUERIES),
        (CHARTS, QUERIES + 1),
    ];

    for (own, (n_charts, n_rows)) in [None, Some([5, 4, 3, 2, 1])]
        .into_iter()
        .flat_map(|own| numbers.map(|numbers| (own, numbers)))
    {
        let charts: Vec<_> = charts.into_iter().cycle().take(n_charts).collect();
        let rows: Vec<_> = rows.iter().copied().cycle().take(n_rows).collect();
        let mut bytes = sheet::weighted(&charts, own, &rows);
        visit(&bytes[..bytes.len() - 1]);
        visit(&bytes);

        // With 21 bytes more, a full sheet with the standard weights has as many as the program reads.
        for more in [1, 1, 19, 1, ROW, 100_000] {
            bytes.extend(vec![0; more]);
            visit(&bytes);
        }
    }
}

/// Rows with one nonzero byte where zeros belong, for no field given and for all but the byte's; with
/// and without holds passed.
fn nonzero(rng: &mut Rng, visit: &mut dyn FnMut(&[u8])) {
    let chart = (20, 5);

    for (method, holds) in Method::ALL
        .into_iter()
        .flat_map(|method| [Holds::InFull, Holds::Passed].map(|holds| (method, holds)))
    {
        let mut rows = Vec::new();

        for (at, byte) in (6..ROW).flat_map(|at| [(at, 1), (at, 0x80)]) {
            let mut others = (0..8).map(|bit| !(1 << bit));
            let others = others.find(|&others| sheet::missing(others).any(|m| m.contains(&at)));

            for presence in [0, others.unwrap_or(u8::MAX)] {
                let q = query(rng, chart, method, holds);
                let mut row = sheet::row(0, &Query { presence, ..q });
                row[at] = byte;
                rows.push(row);
            }
        }

        visit(&sheet::bytes(&[chart], &rows));
    }
}

/// Full sheets of every presence with every method, one for each priority with and without classic.
fn presences(rng: &mut Rng, visit: &mut dyn FnMut(&[u8])) {
    let charts: Vec<_> = (0..CHARTS).map(|_| inputs::chart(rng, 30)).collect();

    for priority_and_classic in 0..4 {
        let mut row = |i: usize| loop {
            let (presence, method) = (i % CHARTS, Method::ALL[i / CHARTS]);
            let turn = presence as u64 % 32 + 32 * priority_and_classic;
            let q = inputs::query_over(rng, charts[presence], method, turn, Holds::OneInFour);

            if usize::from(q.presence) == presence {
                return sheet::row(presence, &q);
            }
        };
        let rows: Vec<_> = (0..QUERIES).map(&mut row).collect();

        visit(&sheet::bytes(&charts, &rows));
    }
}

/// Document 01's plays, broken off too.
fn documented(visit: &mut dyn FnMut(&[u8])) {
    let broken_off = Method::ALL.into_iter().flat_map(plays::broken_off);
    let plays = Method::ALL
        .into_iter()
        .flat_map(plays::of)
        .chain(broken_off);
    let queries: Vec<_> = plays.map(|play| play.query).collect();

    visit(&own_charts(&queries));
}

/// The plays of which Nearest leaves points, by every method.
pub fn left_over() -> Vec<u8> {
    let by_all = |(q, _): (Query, i64)| Method::ALL.map(|method| q.by(method));
    let queries: Vec<_> = plays::left_over().into_iter().flat_map(by_all).collect();

    own_charts(&queries)
}

/// A sheet of these queries, each with a chart of its own. Its weights are the first query's.
pub fn own_charts(queries: &[Query]) -> Vec<u8> {
    let charts: Vec<_> = queries
        .iter()
        .map(|q| (q.n_objects, q.n_hold_notes))
        .collect();
    let rows: Vec<_> = queries
        .iter()
        .enumerate()
        .map(|(i, q)| sheet::row(i, q))
        .collect();

    sheet::weighted(&charts, queries[0].own, &rows)
}

/// A chart: small, so large that Closest's search is long, at the limit, or over it.
fn chart(rng: &mut Rng) -> Chart {
    match rng.upto(15) {
        0 => rng.pick(&[
            (CHART + 1, 0),
            (0, CHART + 1),
            (CHART + 1, CHART + 1),
            (u32::MAX, u32::MAX),
        ]),
        1 => inputs::chart(rng, CHART + 1),
        2 => inputs::chart(rng, CHART),
        3..=5 => inputs::chart(rng, SEARCHED),
        _ => inputs::chart(rng, 30),
    }
}

/// A query over this chart, or any chart if it is over the limit.
fn query(rng: &mut Rng, chart: Chart, method: Method, holds: Holds) -> Query {
    let over = chart.0 > CHART || chart.1 > CHART;
    let chart = if over { (20, 5) } else { chart };

    loop {
        let turn = rng.next();
        let q = inputs::query_over(rng, chart, method, turn, holds);
        let short = q.missing() < 3 || q.total_hits() <= SEARCHED;

        if method != Method::Closest || short {
            return q;
        }
    }
}

/// A random row of a sheet with these charts and own weights, if there are any; one in eight breaks a
/// check of the direct call, one in four has damaged bytes.
fn row(rng: &mut Rng, charts: &[Chart], own: Option<Weights>, holds: Holds) -> Row {
    let index = if charts.is_empty() || rng.one_in(32) {
        charts.len() + rng.upto(1) as usize
    } else {
        rng.upto(charts.len() as u32 - 1) as usize
    };

    let method = rng.pick(&Method::ALL);
    let chart = charts.get(index).copied().unwrap_or((5, 0));
    let mut q = query(rng, chart, method, holds);

    if let Some(own) = own {
        q = q.under(own);
        inputs::give_acc(rng, &mut q);
    }

    if rng.one_in(8) {
        inputs::spoil(rng, &mut q);
    }

    let mut row = sheet::row(index, &q);

    if rng.one_in(4) {
        damage(rng, &mut row);
    }

    if !matches!(holds, Holds::InFull) && rng.one_in(16) {
        damage_holds(rng, &mut row);
    }

    row
}

/// Breaks what check 9 asks of byte 6, byte 7 or the last field.
fn damage_holds(rng: &mut Rng, row: &mut Row) {
    match rng.upto(2) {
        0 => row[HOLDS_GIVEN] = rng.pick(&[2, 3, 128, 255]),
        1 => row[7] = rng.pick(&[1, 2, 128, 255]),
        _ => {
            row[HOLDS_GIVEN] = 0;
            row[HOLDS_PASSED][rng.upto(3) as usize] = 1 << rng.upto(7);
        }
    }
}

/// Breaks what the checks 6, 8 and 9 ask for, often in several places.
fn damage(rng: &mut Rng, row: &mut Row) {
    if rng.one_in(4) {
        row[1] = rng.pick(&[1, 2, 255]);
    }

    for (code, first_unknown) in [(2, 4), (3, 2), (4, 2)] {
        if rng.one_in(6) {
            row[code] = rng.pick(&[first_unknown, first_unknown + 1, 128, 255]);
        }
    }

    if rng.one_in(4) {
        row[rng.pick(&[6, 7])] = 1 << rng.upto(7);
    }

    let missing: Vec<_> = sheet::missing(row[5]).flatten().collect();

    if !missing.is_empty() && rng.one_in(2) {
        row[rng.pick(&missing)] = 1 << rng.upto(7);
    }
}

/// A full sheet, whose rows have every method and every status. The gate stores it.
pub fn full(rng: &mut Rng) -> Vec<u8> {
    let charts: Vec<_> = (0..CHARTS).map(|_| chart(rng)).collect();
    let rows: Vec<_> = (0..QUERIES)
        .map(|_| row(rng, &charts, None, Holds::InFull))
        .collect();

    sheet::bytes(&charts, &rows)
}

/// A random sheet; one in 400 is full, one in three has own weights, and one in three is damaged as a
/// whole.
pub fn random(rng: &mut Rng) -> Vec<u8> {
    let (charts, rows) = match rng.upto(399) {
        0 => (CHARTS, QUERIES),
        1 => (rng.upto(256) as usize, 1_000 + rng.upto(24) as usize),
        2..=20 => (rng.upto(256) as usize, rng.upto(100) as usize),
        _ => (rng.upto(4) as usize, rng.upto(10) as usize),
    };

    let own = rng.one_in(3).then(|| own_sheets::weights(rng));
    let charts: Vec<_> = (0..charts).map(|_| chart(rng)).collect();
    let rows: Vec<_> = (0..rows)
        .map(|_| row(rng, &charts, own, Holds::OneInFour))
        .collect();
    let mut bytes = sheet::weighted(&charts, own, &rows);

    if rng.one_in(3) {
        spoil(
            rng,
            &mut bytes,
            [charts.len(), own.iter().len(), rows.len()],
        );
    }

    bytes
}

/// Damages a sheet of so many charts, own weights and rows as a whole.
fn spoil(rng: &mut Rng, bytes: &mut Vec<u8>, [charts, own, rows]: [usize; 3]) {
    let weights = sheet::weights_at(charts);
    let queries = weights + 4 + WEIGHTS * own;

    match rng.upto(9) {
        0 => put_u32(bytes, 0, rng.pick(&OVER_CHARTS)),
        1 => put_u32(bytes, queries, rng.pick(&OVER_QUERIES)),
        2 => put_u32(bytes, 0, rng.pick(&[charts + 1, charts.saturating_sub(1)])),
        3 => put_u32(
            bytes,
            queries,
            rng.pick(&[rows + 1, rows.saturating_sub(1)]),
        ),
        4 => bytes.extend((0..=rng.upto(90)).map(|_| rng.next() as u8)),
        // Too few bytes for a row, so that no long search comes about.
        5 => *bytes = (0..rng.upto(55)).map(|_| rng.next() as u8 & 1).collect(),
        6 => put_u32(bytes, weights, rng.pick(&OVER_WEIGHTS)),
        7 => put_u32(bytes, weights, 1 - own),
        8 if own == 1 => {
            let at = weights + 4 + 4 * rng.upto(4) as usize;
            put_u32(bytes, at, rng.pick(&[0, 1, 50, 100, 101, 256, 1 << 31]));
        }
        _ => {}
    }

    if rng.one_in(2) {
        bytes.truncate(rng.upto(bytes.len() as u32) as usize);
    }
}
