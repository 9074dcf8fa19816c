//! Sheets whose totals, document 02's seven numbers, are told by hand.

use crate::{
    plays,
    query::{ACC, CAP, CHART, MISSES, Method, PASSED, Query, Weights},
    sheet::{self, CHARTS, Chart, QUERIES, TOTALS},
    sheet_inputs,
};

pub struct Told {
    pub what: &'static str,
    pub bytes: Vec<u8>,
    /// The statuses of the rows.
    pub statuses: Vec<u32>,
    pub totals: [u64; TOTALS],
}

/// A query and the status of its row.
type Row = (Query, u32);

/// A row that has these six counts: IgnoreAccuracy keeps them where they are all the hits of the chart.
fn six(counts: [u32; 6]) -> Row {
    let [n320, n300, n200, n100, n50, misses] = counts;
    let q = Query {
        n_objects: counts.iter().sum(),
        presence: MISSES | 0b1_1111,
        counts: [n320, n300, n200, n100, n50],
        misses,
        ..Query::default()
    };

    (q, 0)
}

/// A row that this check stops; the counts that it gives are 1,000 and more.
fn stopped(status: u32) -> Row {
    let (q, _) = six([1_000; 6]);
    let with_acc = Query {
        presence: q.presence | ACC,
        acc: 1.0,
        ..q
    };

    let q = match status {
        // `of` breaks the row's bytes.
        6 | 9 => q,
        7 => Query {
            n_objects: CHART + 1,
            ..q
        },
        8 => Query { priority: 2, ..q },
        10 => Query {
            misses: CAP + 1,
            ..q
        },
        11 => Query {
            acc: 2.0,
            ..with_acc
        },
        12 => Query {
            presence: ACC | 0b0_0111,
            counts: [2_001; 5],
            ..with_acc
        }
        .by(Method::Closest),
        13 => q.by(Method::Nearest),
        14 => Query {
            counts: [1_001; 5],
            ..with_acc
        }
        .by(Method::Nearest),
        19 => q.by(Method::Fast),
        _ => unreachable!("no row has the status {status}"),
    };

    (q, status)
}

/// A sheet of these rows, with each of their charts once.
fn of(what: &'static str, own: Option<Weights>, rows: &[Row], totals: [u64; TOTALS]) -> Told {
    let mut charts: Vec<Chart> = Vec::new();
    let mut row = |(q, status): &Row| {
        let chart = (q.n_objects, q.n_hold_notes);
        let known = charts.iter().position(|&other| other == chart);
        let mut row = sheet::row(known.unwrap_or(charts.len()), q);

        if known.is_none() {
            charts.push(chart);
        }

        match status {
            6 => row[1] = 255,
            9 => row[7] = 1,
            _ => {}
        }

        row
    };
    let bytes: Vec<_> = rows.iter().map(&mut row).collect();

    Told {
        what,
        bytes: sheet::weighted(&charts, own, &bytes),
        statuses: rows.iter().map(|&(_, status)| status).collect(),
        totals,
    }
}

/// Each status of a row with the standard weights that is not 0.
const STOPPED: [u32; 9] = [6, 7, 8, 9, 10, 11, 12, 13, 14];

/// No row has status 0.
const NONE: [u64; TOTALS] = [0; TOTALS];

pub fn told() -> Vec<Told> {
    let mut told = vec![Told {
        what: "the example",
        bytes: sheet_inputs::example(),
        statuses: vec![0, 13],
        totals: [1, 0, 0, 20, 0, 0, 0],
    }];

    told.extend(without_queries());
    told.extend(stopped_rows());
    told.extend(by_method());
    told.extend(many_rows());
    told.extend(largest_sums());
    told
}

fn without_queries() -> Vec<Told> {
    [
        sheet::bytes(&[], &[]),
        sheet::bytes(&[(20, 7)], &[]),
        sheet::bytes(&[(20, 7); CHARTS], &[]),
        sheet::weighted(&[], Some([5, 4, 3, 2, 1]), &[]),
    ]
    .map(|bytes| Told {
        what: "no queries",
        bytes,
        statuses: Vec::new(),
        totals: NONE,
    })
    .into()
}

/// Rows with status 0, whose counts share no digit of a sum, and stopped ones before, between and after
/// them; then rows with one count alone.
fn stopped_rows() -> Vec<Told> {
    let ones = six([1, 2, 3, 4, 5, 6]);
    let tens = six([10, 20, 30, 40, 50, 60]);
    let hundreds = six([100, 200, 300, 400, 500, 600]);
    let three = [3, 111, 222, 333, 444, 555, 666];
    let all = STOPPED.map(stopped);
    let rows = |what, rows: &[Row], totals| of(what, None, rows, totals);

    let mut told = vec![
        rows("one row", &[ones], [1, 1, 2, 3, 4, 5, 6]),
        rows("three rows", &[ones, tens, hundreds], three),
        rows(
            "stopped rows between",
            &[ones, stopped(13), tens, stopped(14), hundreds],
            three,
        ),
        rows(
            "the first stopped",
            &[stopped(7), ones, tens, hundreds],
            three,
        ),
        rows(
            "the last stopped",
            &[ones, tens, hundreds, stopped(8)],
            three,
        ),
        rows(
            "the first and the last stopped",
            &[stopped(6), ones, tens, stopped(9)],
            [2, 11, 22, 33, 44, 55, 66],
        ),
        rows(
            "all but one stopped",
            &[stopped(10), stopped(9), hundreds, stopped(13)],
            [1, 100, 200, 300, 400, 500, 600],
        ),
        rows("all stopped", &all, NONE),
        of(
            "all stopped under own weights",
            Some([5, 4, 3, 2, 1]),
            &[6, 7, 8, 9, 19, 10, 11, 13, 14].map(stopped),
            NONE,
        ),
        rows(
            "each stopped among others",
            &all.map(|row| [ones, row, tens]).concat(),
            [18, 99, 198, 297, 396, 495, 594],
        ),
    ];

    told.extend(all.map(|row| rows("one stopped", &[row], NONE)));
    told.extend(all.map(|row| rows("one stopped, one not", &[row, ones], [1, 1, 2, 3, 4, 5, 6])));

    for (i, totals) in [
        [1, 7, 0, 0, 0, 0, 0],
        [1, 0, 7, 0, 0, 0, 0],
        [1, 0, 0, 7, 0, 0, 0],
        [1, 0, 0, 0, 7, 0, 0],
        [1, 0, 0, 0, 0, 7, 0],
        [1, 0, 0, 0, 0, 0, 7],
    ]
    .into_iter()
    .enumerate()
    {
        let mut counts = [0; 6];
        counts[i] = 7;
        told.push(rows("one count", &[six(counts)], totals));
    }

    told
}

/// Plays by all methods, with tried and left, without hits, and under own weights.
fn by_method() -> Vec<Told> {
    let documented: Vec<_> = Method::ALL
        .into_iter()
        .flat_map(plays::of)
        .map(|play| (play.query, play.status))
        .collect();

    let q = Query {
        presence: ACC,
        ..Query::default()
    };
    let over = |n_objects, acc| Query {
        n_objects,
        acc,
        ..q
    };
    let largest = Query {
        n_hold_notes: CHART,
        acc: 1.0 / 12_200_000.0,
        ..over(CHART, 0.0)
    };
    let missed = |q: Query, misses| Query {
        presence: q.presence | MISSES,
        misses,
        ..q
    };
    let given = |q: Query, presence, counts| Query {
        presence: q.presence | presence,
        counts,
        ..q
    };
    let not_passed = Query {
        presence: ACC | PASSED,
        ..over(20, 1.0)
    };
    let nearest = |q: Query| (q.by(Method::Nearest), 0);

    // Play G by IgnoreAccuracy, 5 0 0 3 0 and two misses.
    let g = missed(given(over(10, 1.0), 1 << 3, [0, 0, 0, 3, 0]), 2);

    vec![
        // Those of method 0: 5 0 0 3 0 and 0 0 0 3 5, each with two misses; of 1: 4 0 0 0 6, and four misses;
        // of 2: 8 12 0 0 0, 2 3 0 0 0, 9 0 0 5 6, 0 0 9 0 5, 0 0 0 0 20, four misses, stopped, 3 2 0 0 0;
        // of 3: 8 12 0 0 0, 5 0 0 0 0, 5 0 5 10 0, stopped, 0 0 20 0 0, four misses.
        of(
            "document 01's plays",
            None,
            &documented,
            [16, 49, 29, 34, 21, 42, 16],
        ),
        // Tried and left are 3 and 420; many and -100; 88,434 and -1,999,999; 1 and 244.
        of(
            "tried and left",
            None,
            &[
                nearest(given(over(20, 1.0), 0b0_0011, [0; 5])),
                nearest(over(10, 0.0)),
                nearest(largest),
                nearest(missed(over(4, 1.0), 9)),
            ],
            [4, 0, 0, 20, 0, 200_010, 4],
        ),
        of(
            "no hits",
            None,
            &Method::ALL.map(|method| (q.by(method), 0)),
            [4, 0, 0, 0, 0, 0, 0],
        ),
        of(
            "no hits, and stopped rows",
            None,
            &[
                nearest(not_passed),
                stopped(13),
                nearest(q),
                stopped(6),
                six([0; 6]),
            ],
            [3, 0, 0, 0, 0, 0, 0],
        ),
        of(
            "misses",
            None,
            &Method::ALL.map(|method| (missed(over(4, 1.0), 9).by(method), 0)),
            [4, 0, 0, 0, 0, 0, 16],
        ),
        // A 100 for the target of 2.5; four 320s, 20 points above it; no hits left of 50; play G.
        of(
            "own weights",
            Some([5, 4, 3, 2, 1]),
            &[
                nearest(over(1, 0.5)),
                stopped(19),
                nearest(given(over(4, 0.0), 0b1_1110, [0; 5])),
                stopped(13),
                nearest(missed(over(10, 1.0), 12)),
                (g, 0),
                stopped(14),
            ],
            [4, 9, 0, 0, 4, 0, 12],
        ),
        // 1,940,598 are tried, and -199,999 is left.
        of(
            "the longest walk",
            plays::longest_own_walk().own,
            &[nearest(plays::longest_own_walk())],
            [1, 0, 0, 0, 0, 200_000, 0],
        ),
    ]
}

/// The same row many times, and full sheets with some rows stopped.
fn many_rows() -> Vec<Told> {
    let same = six([1, 2, 3, 4, 5, 6]);
    let mut told = Vec::new();

    for (n, totals) in [
        (2, [2, 2, 4, 6, 8, 10, 12]),
        (255, [255, 255, 510, 765, 1_020, 1_275, 1_530]),
        (256, [256, 256, 512, 768, 1_024, 1_280, 1_536]),
        (257, [257, 257, 514, 771, 1_028, 1_285, 1_542]),
        (1_023, [1_023, 1_023, 2_046, 3_069, 4_092, 5_115, 6_138]),
        (1_024, [1_024, 1_024, 2_048, 3_072, 4_096, 5_120, 6_144]),
    ] {
        told.push(of("the same row", None, &vec![same; n], totals));
    }

    let full = |what, worked: fn(usize) -> bool, totals| {
        let row = |i| if worked(i) { same } else { stopped(13) };
        let rows: Vec<_> = (0..QUERIES).map(row).collect();
        of(what, None, &rows, totals)
    };

    told.extend([
        full("all of a full sheet stopped", |_| false, NONE),
        full("the first worked", |i| i == 0, [1, 1, 2, 3, 4, 5, 6]),
        full("the last worked", |i| i == 1_023, [1, 1, 2, 3, 4, 5, 6]),
        full(
            "the first and the last stopped of a full sheet",
            |i| i != 0 && i != 1_023,
            [1_022, 1_022, 2_044, 3_066, 4_088, 5_110, 6_132],
        ),
        full(
            "every other row stopped",
            |i| i % 2 == 1,
            [512, 512, 1_024, 1_536, 2_048, 2_560, 3_072],
        ),
    ]);

    let no_hits = vec![six([0; 6]); QUERIES];
    told.push(of(
        "a full sheet without hits",
        None,
        &no_hits,
        [1_024, 0, 0, 0, 0, 0, 0],
    ));
    told
}

/// The largest sums that there are. Closest keeps the counts that are given, at most 1,000,000 each, where
/// three or more are missing and one of n200, n100 and n50 is over remain, and n50 takes remain if it is
/// missing; of no other method is a count over remain.
fn largest_sums() -> Vec<Told> {
    let full = |what, n_objects, n_hold_notes, presence, totals| {
        let q = Query {
            n_objects,
            n_hold_notes,
            presence: ACC | presence,
            counts: [CAP; 5],
            misses: CAP,
            acc: 1.0,
            ..Query::default()
        };
        let rows = vec![(q.by(Method::Closest), 0); QUERIES];
        of(what, None, &rows, totals)
    };
    let of_largest = |what, presence, totals| full(what, CHART, CHART, presence, totals);

    vec![
        // In the manner of play D.
        full(
            "n200 of 1,000,000",
            5,
            0,
            0b0_0100,
            [1_024, 0, 0, 1_024_000_000, 0, 5_120, 0],
        ),
        of_largest(
            "n320 and n200",
            0b0_0101,
            [1_024, 1_024_000_000, 0, 1_024_000_000, 0, 204_800_000, 0],
        ),
        of_largest(
            "n300 and n100",
            0b0_1010,
            [1_024, 0, 1_024_000_000, 0, 1_024_000_000, 204_800_000, 0],
        ),
        of_largest(
            "n320 and n50",
            0b1_0001,
            [1_024, 1_024_000_000, 0, 0, 0, 1_024_000_000, 0],
        ),
        of_largest("misses", MISSES, [1_024, 0, 0, 0, 0, 0, 204_800_000]),
    ]
}
