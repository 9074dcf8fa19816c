//! The plays of document 01 that name a method's answer, A to I, with document 02's left; J and K are
//! among the limits of every part. The same plays broken off, so that only some of their holds count.
//! Then other plays, whose answers are told by hand: those of which Nearest leaves points, those with
//! holds passed, and rows of sheets with own weights.

use crate::query::{ACC, Answer, CAP, CHART, MISSES, Method, NAMES, PASSED, Query, Weights};

pub struct Play {
    pub label: char,
    pub query: Query,
    pub status: u32,
    counts: [u32; 5],
    misses: u32,
    /// Where the document gives it.
    tried: Option<u32>,
    left: i32,
}

impl Play {
    pub fn holds(&self, answer: &Answer) -> bool {
        let [counts @ .., misses, tried, _left] = answer.values;

        answer.status == self.status
            && (self.status != 0 || counts == self.counts && misses == self.misses)
            && self.tried.is_none_or(|n| n == tried)
            && answer.left() == self.left
    }
}

/// A non-classic chart of so many objects with acc 1 and these counts given.
fn chart(n_objects: u32, given: &[(&str, u32)]) -> Query {
    let mut q = Query {
        n_objects,
        presence: ACC,
        acc: 1.0,
        ..Query::default()
    };

    for &(name, n) in given {
        let i = NAMES.iter().position(|&known| known == name).unwrap();
        q.presence |= 1 << i;
        q.counts[i] = n;
    }

    q
}

fn aimed(mut q: Query, target: i64) -> Query {
    q.aim(target);
    q
}

fn missed(q: Query, misses: u32) -> Query {
    Query {
        presence: q.presence | MISSES,
        misses,
        ..q
    }
}

/// Zeros for all five counts but those that are missing.
fn zeros_but(missing: &[&str]) -> Vec<(&'static str, u32)> {
    let mut given = NAMES.map(|name| (name, 0)).to_vec();
    given.retain(|(name, _)| !missing.contains(name));
    given
}

/// The answer to a play that no check stops.
fn counts(counts: [u32; 5], misses: u32, tried: u32, left: i32) -> Answer {
    let [n320, n300, n200, n100, n50] = counts;

    Answer {
        status: 0,
        values: [n320, n300, n200, n100, n50, misses, tried, left as u32],
    }
}

pub fn of(method: Method) -> Vec<Play> {
    let last_three = [("n200", 0), ("n100", 0), ("n50", 0)];
    let a = aimed(chart(20, &last_three), 1_208);
    let b = Query {
        classic: true,
        ..chart(5, &last_three)
    };
    let c = aimed(chart(20, &[]), 705);
    let d = chart(5, &[("n200", 9)]);
    let e = chart(20, &[("n320", 0), ("n300", 0)]);
    let f = Query {
        acc: 0.5,
        ..chart(10, &[])
    };
    let g = Query {
        presence: MISSES | 1 << 3,
        ..missed(chart(10, &[("n100", 3)]), 2)
    };
    let worst = Query { priority: 1, ..g };
    let h = missed(chart(4, &[]), 9);
    let over = chart(5, &[("n320", 3), ("n300", 3), ("n200", 0)]);
    let full = chart(5, &[("n320", 3), ("n300", 2), ("n200", 0)]);

    let play = |label, query: Query, counts| Play {
        label,
        query: query.by(method),
        status: 0,
        counts,
        misses: query.capped_misses(),
        tried: None,
        left: 0,
    };
    let stopped = |label, query, status| Play {
        status,
        ..play(label, query, [0; 5])
    };
    let tried = |n, play| Play {
        tried: Some(n),
        ..play
    };
    let left = |n, play| Play { left: n, ..play };

    match method {
        Method::IgnoreAcc => vec![
            play('G', g, [5, 0, 0, 3, 0]),
            play('G', worst, [0, 0, 0, 3, 5]),
        ],
        Method::Fast => vec![play('F', f, [4, 0, 0, 0, 6]), play('H', h, [0; 5])],
        Method::Closest => vec![
            play('A', a, [8, 12, 0, 0, 0]),
            play('B', b, [2, 3, 0, 0, 0]),
            play('C', c, [9, 0, 0, 5, 6]),
            play('D', d, [0, 0, 9, 0, 5]),
            play('E', e, [0, 0, 0, 0, 20]),
            play('H', h, [0; 5]),
            stopped('I', over, 12),
            play('I', full, [3, 2, 0, 0, 0]),
        ],
        Method::Nearest => vec![
            tried(1, play('A', a, [8, 12, 0, 0, 0])),
            play('B', b, [5, 0, 0, 0, 0]),
            play('C', c, [5, 0, 5, 10, 0]),
            stopped('D', d, 14),
            left(420, tried(3, play('E', e, [0, 0, 20, 0, 0]))),
            left(244, play('H', h, [0; 5])),
        ],
    }
}

/// The same plays of charts that have more holds than were passed: a third of the hits are holds, so
/// that total hits and answer are as before. In a classic play the holds do not count.
pub fn broken_off(method: Method) -> Vec<Play> {
    let broken = |play: Play| {
        let q = play.query;
        let holds = q.n_objects / 3;
        let objects = q.n_objects - if q.classic { 0 } else { holds };

        Play {
            query: Query {
                n_objects: objects,
                n_hold_notes: holds + 5,
                holds_passed: Some(holds),
                ..q
            },
            ..play
        }
    };

    of(method).into_iter().map(broken).collect()
}

/// Plays by Nearest and what they leave, told by hand: targets below, between and above all splits,
/// and the largest charts.
pub fn left_over() -> Vec<(Query, i64)> {
    let zeros = NAMES.map(|name| (name, 0));
    // All five given, one of them with all the hits.
    let all = |of, n| NAMES.map(|name| (name, if name == of { n } else { 0 }));
    let ten = |given: &[_]| chart(10, given);
    let classic = |q| Query { classic: true, ..q };
    let largest = |given: &[_]| Query {
        n_hold_notes: CHART,
        ..chart(CHART, given)
    };

    // Its splits have 100 points, 130, and so on to 400.
    let stepped = ten(&zeros_but(&["n200", "n50"]));

    // Each with its rounded target and what is left.
    let told = [
        (ten(&[]), 0, -100),
        (ten(&[]), 99, -1),
        (ten(&[]), 101, 1),
        (ten(&[]), 105, 5),
        (ten(&[]), 106, -4),
        (missed(ten(&[]), 3), 610, 183),
        (stepped, 0, -100),
        (stepped, 99, -1),
        (stepped, 100, 0),
        (stepped, 101, 1),
        (stepped, 309, -1),
        (stepped, 310, 0),
        (stepped, 311, 1),
        (stepped, 325, 15),
        (stepped, 326, -14),
        (stepped, 399, -1),
        (stepped, 400, 0),
        (stepped, 401, 1),
        (stepped, 430, 30),
        (stepped, 610, 210),
        // The only split that there is, by one missing count, by none, and without hits.
        (ten(&zeros_but(&["n50"])), 0, -100),
        (ten(&zeros_but(&["n50"])), 610, 510),
        (ten(&zeros_but(&["n320"])), 0, -610),
        (classic(ten(&zeros_but(&["n320", "n300"]))), 599, -1),
        (ten(&all("n320", 10)), 0, -610),
        (ten(&all("n320", 10)), 609, -1),
        (ten(&all("n50", 10)), 610, 510),
        (classic(ten(&all("n320", 10))), 588, -12),
        (missed(ten(&[]), 10), 610, 610),
        (missed(ten(&[]), 10), 0, 0),
        (missed(ten(&zeros), 10), 305, 305),
        (largest(&[]), 0, -2_000_000),
        (largest(&[("n50", 2 * CHART)]), 12_200_000, 10_200_000),
        (largest(&all("n320", 2 * CHART)), 0, -12_200_000),
        (missed(largest(&[]), 2 * CHART), 12_200_000, 12_200_000),
    ];

    told.map(|(q, target, left)| (aimed(q, target).by(Method::Nearest), left))
        .to_vec()
}

/// Ten objects and four holds at an accuracy of 1, with these counts given, and the holds passed.
fn reached(given: &[(&str, u32)], holds: u32) -> Query {
    Query {
        n_hold_notes: 4,
        holds_passed: Some(holds),
        ..chart(10, given)
    }
}

fn shortened(q: Query, passed: u32) -> Query {
    Query {
        presence: q.presence | PASSED,
        passed,
        ..q
    }
}

/// Plays with holds passed and their answers, told by hand from document 02: total hits are the ten
/// objects, or the fewer that passed tells, plus the smaller of four and the holds passed; if classic,
/// the objects alone.
pub fn with_holds() -> Vec<(Query, Answer)> {
    let bare = |holds| reached(&[], holds);
    let in_full = |q| Query {
        holds_passed: None,
        ..q
    };
    let classic = |q| Query { classic: true, ..q };
    let worst = |q| Query { priority: 1, ..q };
    let of_holds = |n_hold_notes, q| Query { n_hold_notes, ..q };
    let zeros = NAMES.map(|name| (name, 0));
    let eleven = [&[("n320", 11)][..], &zeros[1..]].concat();
    let twelve = [("n320", 6), ("n300", 6), ("n200", 0)];

    let best = |n| counts([n, 0, 0, 0, 0], 0, 0, 0);
    let refused = Answer::refused;

    // By IgnoreAccuracy, where nothing is given every hit is a 320, or a 50 in the worst case.
    let ignore_acc = [
        (bare(0), best(10)),
        (bare(1), best(11)),
        (bare(3), best(13)),
        (bare(4), best(14)),
        (bare(5), best(14)),
        (bare(CAP + 1), best(14)),
        (bare(1 << 31), best(14)),
        (bare(u32::MAX), best(14)),
        (in_full(bare(1)), best(14)),
        (classic(bare(0)), best(10)),
        (classic(bare(1)), best(10)),
        (classic(bare(u32::MAX)), best(10)),
        (worst(bare(1)), counts([0, 0, 0, 0, 11], 0, 0, 0)),
        (shortened(bare(2), 6), best(8)),
        (shortened(bare(9), 6), best(10)),
        (shortened(bare(2), u32::MAX), best(12)),
        (shortened(bare(0), 0), best(0)),
        (shortened(bare(3), 0), best(3)),
        (classic(shortened(bare(3), 6)), best(6)),
        // Misses are capped by the new total.
        (missed(bare(1), 3), counts([8, 0, 0, 0, 0], 3, 0, 0)),
        (missed(bare(1), 12), counts([0; 5], 11, 0, 0)),
        (missed(shortened(bare(2), 6), 9), counts([0; 5], 8, 0, 0)),
        (
            missed(in_full(bare(1)), 12),
            counts([2, 0, 0, 0, 0], 12, 0, 0),
        ),
        // Check 7 is asked of the chart's own holds.
        (of_holds(CHART, bare(5)), best(15)),
        (of_holds(CHART, bare(0)), best(10)),
        (of_holds(CHART, bare(u32::MAX)), best(10 + CHART)),
        (of_holds(CHART + 1, bare(5)), refused(7)),
        (of_holds(CHART + 1, bare(0)), refused(7)),
        (classic(of_holds(CHART + 1, bare(5))), refused(7)),
    ];

    // At an accuracy of 1 all are 320s.
    let fast = [
        (bare(0), best(10)),
        (bare(1), best(11)),
        (bare(u32::MAX), best(14)),
        (classic(bare(1)), best(10)),
        (missed(bare(1), 12), counts([0; 5], 11, 0, 0)),
        (of_holds(CHART + 1, bare(5)), refused(7)),
    ];

    // With two missing, twelve given hits are too many for eleven, and just right for twelve.
    let closest = [
        (reached(&zeros[2..], 1), best(11)),
        (reached(&zeros[2..], 9), best(14)),
        (reached(&twelve, 1), refused(12)),
        (reached(&twelve, 2), counts([6, 6, 0, 0, 0], 0, 0, 0)),
        (classic(reached(&twelve, 2)), refused(12)),
        (missed(bare(1), 12), counts([0; 5], 11, 0, 0)),
        (of_holds(CHART + 1, bare(5)), refused(7)),
    ];

    // Of n hits, all missing, the first candidate has D = 61 n - 10 n and lo = 51 n div 51 = n, at the
    // target. Four given zeros leave one split, of 10 n points where 61 n are wanted, or 60 n if
    // classic. Five given counts are a split only where their sum remains.
    let nearest = [
        (bare(0), counts([10, 0, 0, 0, 0], 0, 1, 0)),
        (bare(1), counts([11, 0, 0, 0, 0], 0, 1, 0)),
        (bare(4), counts([14, 0, 0, 0, 0], 0, 1, 0)),
        (bare(u32::MAX), counts([14, 0, 0, 0, 0], 0, 1, 0)),
        (reached(&zeros[..4], 0), counts([0, 0, 0, 0, 10], 0, 1, 510)),
        (reached(&zeros[..4], 1), counts([0, 0, 0, 0, 11], 0, 1, 561)),
        (reached(&zeros[..4], 5), counts([0, 0, 0, 0, 14], 0, 1, 714)),
        (
            classic(reached(&zeros[..4], 1)),
            counts([0, 0, 0, 0, 10], 0, 1, 500),
        ),
        (reached(&eleven, 0), refused(14)),
        (reached(&eleven, 1), counts([11, 0, 0, 0, 0], 0, 0, 0)),
        (reached(&eleven, 2), refused(14)),
        (in_full(reached(&eleven, 1)), refused(14)),
        (classic(reached(&eleven, 1)), refused(14)),
        (reached(&[("n300", 12)], 1), refused(14)),
        // No hits are left of the target of 671.
        (missed(bare(1), 12), counts([0; 5], 11, 1, 671)),
        (of_holds(CHART + 1, bare(5)), refused(7)),
    ];

    let by = |method: Method, (q, answer): (Query, Answer)| (q.by(method), answer);

    ignore_acc
        .map(|play| by(Method::IgnoreAcc, play))
        .into_iter()
        .chain(fast.map(|play| by(Method::Fast, play)))
        .chain(closest.map(|play| by(Method::Closest, play)))
        .chain(nearest.map(|play| by(Method::Nearest, play)))
        .collect()
}

/// Plays with holds passed and their total hits, misses, remaining hits and rounded target, told by
/// hand as above: 61 points a hit, 60 if classic, and a half to the even number.
pub fn targets_with_holds() -> Vec<(Query, [u32; 4])> {
    let half = |holds| Query {
        acc: 0.5,
        ..reached(&[], holds)
    };
    let whole = |holds| reached(&[], holds);
    let classic = Query {
        classic: true,
        ..whole(1)
    };

    vec![
        (whole(0), [10, 0, 10, 610]),
        (whole(1), [11, 0, 11, 671]),
        (whole(3), [13, 0, 13, 793]),
        (whole(4), [14, 0, 14, 854]),
        (whole(5), [14, 0, 14, 854]),
        (whole(u32::MAX), [14, 0, 14, 854]),
        (classic, [10, 0, 10, 600]),
        // 335.5, 366 and 396.5.
        (half(1), [11, 0, 11, 336]),
        (half(2), [12, 0, 12, 366]),
        (half(3), [13, 0, 13, 396]),
        (missed(whole(1), 3), [11, 3, 8, 671]),
        (missed(shortened(whole(2), 6), 9), [8, 8, 0, 488]),
    ]
}

/// Rows of sheets with own weights and their answers, told by hand from document 02: points and target
/// are by those weights, the first of them being w, and classic decides holds only.
pub fn with_own_weights() -> Vec<(Query, Answer)> {
    const FALLING: Weights = [5, 4, 3, 2, 1];
    const EQUAL: Weights = [80, 80, 40, 20, 10];
    const STANDARD: Weights = [61, 60, 40, 20, 10];
    const CLASSIC: Weights = [60, 60, 40, 20, 10];

    let first_two = zeros_but(&["n320", "n300"]);
    let classic = |q| Query { classic: true, ..q };
    let worst = |q| Query { priority: 1, ..q };
    let holds = |n_hold_notes, q| Query { n_hold_notes, ..q };
    let at = |acc, q| Query { acc, ..q };
    let without_acc = |q: Query| Query {
        presence: q.presence & !ACC,
        ..q
    };
    let aimed = |own: Weights, q: Query, target| aimed(q.under(own), target);
    let ones = NAMES.map(|name| (name, 1));
    let e = chart(20, &[("n320", 0), ("n300", 0)]);
    let g = missed(chart(10, &[("n100", 3)]), 2);
    let largest = |given: &[_]| holds(CHART, chart(CHART, given));
    let all_n320 = [&[("n320", 2 * CHART)][..], &zeros_but(&["n320"])].concat();

    let nearest = [
        // T = 2.5, to even. The hit as n50 (1 away), as n320 (3 away), as n100.
        (
            at(0.5, chart(1, &[])).under(FALLING),
            counts([0, 0, 0, 1, 0], 0, 3, 0),
        ),
        // T = 7.5, to even, and three points.
        (
            at(0.5, chart(3, &zeros_but(&["n50"]))).under(FALLING),
            counts([0, 0, 0, 0, 3], 0, 1, 5),
        ),
        (
            at(0.0, chart(4, &zeros_but(&["n320"]))).under(FALLING),
            counts([4, 0, 0, 0, 0], 0, 1, -20),
        ),
        // T = 0.5 x 100 x 10 = 500. D = 500 - 50 x 10 = 0, so lo = 0: ten of the lighter weight.
        (
            at(0.5, chart(10, &first_two)).under([100, 50, 3, 2, 1]),
            counts([0, 10, 0, 0, 0], 0, 1, 0),
        ),
        // n200 goes from 0 to q - 1 = 8 / gcd(8, 2) - 1 = 3, with lo = 1 each time. Points 13 and 21, 15
        // and 23, 17 and 25, 19 and 27: 21 is the first that is 1 away.
        (
            aimed(
                [9, 6, 3, 2, 1],
                chart(5, &zeros_but(&["n320", "n200", "n50"])),
                20,
            ),
            counts([2, 0, 0, 0, 3], 0, 8, -1),
        ),
        // n300, n200 and n100 go up to 3, 1 and 3. Points 192, 196; 193, 197; 194; 194, 198; 195.
        (
            aimed([100, 99, 98, 97, 96], chart(2, &[]), 195),
            counts([0, 0, 1, 1, 0], 0, 8, 0),
        ),
        // The pair folds whatever classic says: n320 takes the six hits, or the four without holds.
        (
            at(0.5, holds(2, chart(4, &first_two))).under(EQUAL),
            counts([6, 0, 0, 0, 0], 0, 1, -240),
        ),
        (
            at(0.5, classic(holds(2, chart(4, &first_two)))).under(EQUAL),
            counts([4, 0, 0, 0, 0], 0, 1, -160),
        ),
        (
            at(0.5, holds(3, chart(5, &first_two))).under(CLASSIC),
            counts([8, 0, 0, 0, 0], 0, 1, -240),
        ),
        // It leaves n320 and n50: D = 150 - 30 = 120, lo = 120 div 70 = 1, points 100 and 170.
        (
            aimed(EQUAL, chart(3, &zeros_but(&["n320", "n300", "n50"])), 150),
            counts([2, 0, 0, 0, 1], 0, 2, -20),
        ),
        // There is no pair where one of the two is given.
        (
            chart(3, &[("n300", 1), ("n200", 0), ("n100", 0), ("n50", 0)]).under(EQUAL),
            counts([2, 1, 0, 0, 0], 0, 1, 0),
        ),
        (
            chart(3, &[("n320", 1), ("n200", 0), ("n100", 0), ("n50", 0)]).under(EQUAL),
            counts([1, 2, 0, 0, 0], 0, 1, 0),
        ),
        // Unequal weights do not fold in a classic row: of five hits D = 302 - 300 = 2, lo = 2. If it is
        // not classic there are eight, and 480 points come nearest to 302.
        (
            aimed(STANDARD, classic(holds(3, chart(5, &first_two))), 302),
            counts([2, 3, 0, 0, 0], 0, 1, 0),
        ),
        (
            aimed(STANDARD, holds(3, chart(5, &first_two)), 302),
            counts([0, 8, 0, 0, 0], 0, 2, -178),
        ),
        // Play E, whose w is 61 in a classic row too.
        (e.under(STANDARD), counts([0, 0, 20, 0, 0], 0, 3, 420)),
        (
            classic(e).under(STANDARD),
            counts([0, 0, 20, 0, 0], 0, 3, 420),
        ),
        // Five given: T = 7 x 6 = 42, and 7 + 6 + 5 + 2 + 1 = 21 points.
        (
            missed(chart(6, &ones), 1).under([7, 6, 5, 2, 1]),
            counts([1; 5], 1, 0, 21),
        ),
        (
            missed(chart(6, &ones), 2).under([7, 6, 5, 2, 1]),
            Answer::refused(14),
        ),
        // One missing: T = 450, and 300 + 200 + 3 points.
        (
            at(
                0.75,
                chart(6, &[("n300", 2), ("n200", 1), ("n100", 0), ("n50", 0)]),
            )
            .under([100, 100, 3, 2, 1]),
            counts([3, 2, 1, 0, 0], 0, 1, -53),
        ),
        // Of n hits, all missing, D = 5 n - n and lo = 4 n div 4 = n.
        (
            reached(&[], 1).under(FALLING),
            counts([11, 0, 0, 0, 0], 0, 1, 0),
        ),
        (
            classic(reached(&[], 1)).under(FALLING),
            counts([10, 0, 0, 0, 0], 0, 1, 0),
        ),
        // No hits are left of the target of 50.
        (
            missed(chart(10, &[]), 12).under(FALLING),
            counts([0; 5], 10, 1, 50),
        ),
        (chart(5, &[("n200", 6)]).under(FALLING), Answer::refused(14)),
        (
            without_acc(chart(5, &[])).under(FALLING),
            Answer::refused(13),
        ),
        (
            largest(&[("n50", 2 * CHART)]).under([100, 99, 98, 97, 1]),
            counts([0, 0, 0, 0, 2 * CHART], 0, 1, 19_800_000),
        ),
        (
            at(0.0, largest(&all_n320)).under([100, 99, 98, 97, 1]),
            counts([2 * CHART, 0, 0, 0, 0], 0, 0, -20_000_000),
        ),
        (
            longest_own_walk(),
            counts([0, 0, 0, 0, 2 * CHART], 0, 1_940_598, -199_999),
        ),
    ];

    // Play G, with an accuracy and without: its answers need no weights.
    let ignore_acc = [
        (g, counts([5, 0, 0, 3, 0], 2, 0, 0)),
        (without_acc(g), counts([5, 0, 0, 3, 0], 2, 0, 0)),
        (worst(g), counts([0, 0, 0, 3, 5], 2, 0, 0)),
        (classic(holds(4, g)), counts([5, 0, 0, 3, 0], 2, 0, 0)),
        (holds(4, g), counts([9, 0, 0, 3, 0], 2, 0, 0)),
    ];

    let by = |method: Method, q: Query| q.by(method).under(FALLING);
    let refused = [Method::Fast, Method::Closest]
        .into_iter()
        .flat_map(|method| {
            [g, without_acc(g), classic(g), e].map(|q| (by(method, q), Answer::refused(19)))
        });

    nearest
        .map(|(q, answer)| (q.by(Method::Nearest), answer))
        .into_iter()
        .chain(ignore_acc.map(|(q, answer)| (by(Method::IgnoreAcc, q), answer)))
        .chain(refused)
        .collect()
}

/// The longest walk under own weights: all three middles have q = 99, as 97, 2 and 1 share no factor
/// with 99. D is below 0 in each of the 99 x 99 x 99 settings and hits are left, so two candidates
/// are tried in each. None reaches the target of 1, and the first, all n50, stays.
pub fn longest_own_walk() -> Query {
    let q = Query {
        n_hold_notes: CHART,
        ..chart(CHART, &[])
    };
    aimed(q.under([100, 98, 3, 2, 1]), 1).by(Method::Nearest)
}
