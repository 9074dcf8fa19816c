//! Part relay: the library's call for a relay, beside document 02's L9. The pool is one play of all the
//! charts, which the plain walk of nearest.rs splits; its counts are dealt judgement by judgement. Where
//! the charts are small, all sets of splits are made, and none lies nearer to the pooled target
//! (relay_inputs.rs, which has the random relays and the refusals too). A list is told by hand.

use std::ops::RangeInclusive;

use crate::{
    inputs::{Rng, Size},
    nearest, ours,
    query::{ACC, CAP, CHART, MISSES, Query},
    relay_inputs,
    tally::{Tally, first_wrong},
};

/// How many charts a relay may have.
pub const CHARTS: RangeInclusive<usize> = 2..=8;

/// What the input and the output have of each chart.
pub type Play = [u32; 3];
pub type Six = [u32; 6];

/// What stands in lent memory before a call, and how much of it lies on both sides of the output.
const SENTINEL: u32 = 0x5E17_1CED;
const AROUND: usize = 4;

/// A refused chart, which stands behind the plays. The call must not look at it.
const BEHIND: Play = [u32::MAX; 3];

/// What the call takes but for its output. The plays may be of a length that is no multiple of three.
#[derive(Clone, Debug)]
pub struct Relay {
    pub classic: bool,
    pub acc_given: bool,
    pub acc: f64,
    pub plays: Vec<u32>,
}

impl Relay {
    /// A relay whose accuracy is given.
    pub fn new(classic: bool, acc: f64, plays: &[Play]) -> Self {
        Self {
            classic,
            acc_given: true,
            acc,
            plays: plays.concat(),
        }
    }

    /// Each chart as a play of its own, which says its total hits, its misses and what remains.
    pub fn charts(&self) -> impl ExactSizeIterator<Item = Query> {
        let (plays, _rest) = self.plays.as_chunks();

        plays
            .iter()
            .map(|&[n_objects, n_hold_notes, misses]| Query {
                n_objects,
                n_hold_notes,
                classic: self.classic,
                presence: MISSES | ACC,
                misses,
                acc: self.acc,
                ..Query::default()
            })
    }

    /// All charts as one play: of more objects than a chart may have, and of no hold notes, since the
    /// totals have them already.
    pub fn pool(&self) -> Query {
        Query {
            n_objects: self.charts().map(|q| q.total_hits()).sum(),
            n_hold_notes: 0,
            misses: self.charts().map(|q| q.capped_misses()).sum(),
            classic: self.classic,
            presence: MISSES | ACC,
            acc: self.acc,
            ..Query::default()
        }
    }

    /// How many numbers the output has.
    pub fn places(&self) -> usize {
        1 + 6 * self.charts().len()
    }

    /// The number by which document 02 refuses the relay with an output of so many places, or 0.
    pub fn status(&self, places: usize) -> u32 {
        if !self.plays.len().is_multiple_of(3) || !CHARTS.contains(&self.charts().len()) {
            21
        } else if places < self.places() {
            5
        } else if self.charts().any(|q| q.chart_over()) {
            7
        } else if self.charts().any(|q| q.misses > CAP) {
            10
        } else if self.acc_given && !(0.0..=1.0).contains(&self.acc) {
            11
        } else if !self.acc_given {
            13
        } else {
            0
        }
    }

    /// tried of the pooled walk and each chart's six, for a relay that no check stops. The hits go best
    /// first into the charts' places, as judgement after judgement is handed out.
    pub fn answer(&self) -> Vec<u32> {
        let (counts, tried) = nearest::walk(&self.pool());
        let mut rooms: Vec<_> = self.charts().map(|q| q.remain()).collect();
        let mut sixes: Vec<Six> = vec![[0; 6]; rooms.len()];

        for (judgement, mut hits) in counts.into_iter().enumerate() {
            for (six, room) in sixes.iter_mut().zip(&mut rooms) {
                let dealt = hits.min(*room);
                six[judgement] = dealt;
                *room -= dealt;
                hits -= dealt;
            }
        }

        for (six, q) in sixes.iter_mut().zip(self.charts()) {
            six[5] = q.capped_misses();
        }

        [&[tried], sixes.as_flattened()].concat()
    }

    /// What the call writes if this is its status: nothing where it refuses.
    pub fn written(&self, status: u32) -> Vec<u32> {
        match status {
            0 => self.answer(),
            _ => Vec::new(),
        }
    }
}

pub struct Part<'a> {
    pub tally: Tally,
    pub rng: &'a mut Rng,
}

impl Part<'_> {
    /// Compares the call with an output of so many places: its status and all the memory around and in
    /// the output, which is given back. The values are those that status 0 writes.
    pub fn expect(
        &mut self,
        relay: &Relay,
        places: usize,
        status: u32,
        values: &[u32],
    ) -> Vec<u32> {
        let mut memory = vec![SENTINEL; places + 2 * AROUND];
        let mut right = memory.clone();

        if status == 0 {
            right[AROUND..AROUND + values.len()].copy_from_slice(values);
        }

        let acc = (relay.acc_given, relay.acc);
        let plays = [relay.plays.as_slice(), &BEHIND].concat();
        let plays = &plays[..relay.plays.len()];
        let out = &mut memory[AROUND..AROUND + places];
        let ours = ours::relay(relay.classic, acc, plays, out);

        self.tally.judge(ours == status && memory == right, || {
            let wrong = first_wrong(&memory, &right, AROUND);
            format!(
                "{relay:?}, an output of {places}: ours {ours} {:?}, expected {status} {values:?}; first \
                 wrong number {wrong:?}",
                &memory[AROUND..AROUND + places]
            )
        });

        memory.drain(AROUND..AROUND + places).collect()
    }

    /// Compares the call with an output that is long enough, exactly or with some places more; every
    /// fifth relay also with one that is too short. The first output is given back.
    pub fn compare(&mut self, relay: &Relay) -> Vec<u32> {
        self.tally.inputs += 1;

        let places = relay.places();
        let longer = places + self.tally.inputs as usize % 3;
        let status = relay.status(longer);
        let values = relay.written(status);
        let out = self.expect(relay, longer, status, &values);

        if self.tally.inputs.is_multiple_of(5) {
            let short = (self.tally.inputs / 5) as usize % places;
            self.expect(relay, short, relay.status(short), &values);
        }

        out
    }

    /// Compares the relays told by hand: the call's answer, and that of the plain walk and the dealing
    /// here.
    fn told(&mut self) {
        for told in TOLD {
            let relay = Relay::new(told.classic, told.acc, told.plays);
            let values = [&[told.tried], told.sixes.as_flattened()].concat();
            let here = relay.answer();

            self.tally.inputs += 1;
            self.expect(&relay, relay.places(), 0, &values);
            self.tally.judge(here == values, || {
                format!("{relay:?}: the answer here is {here:?}, where {values:?} is told")
            });
        }
    }
}

/// A relay and its answer as worked out on paper.
struct Told {
    classic: bool,
    acc: f64,
    plays: &'static [Play],
    tried: u32,
    sixes: &'static [Six],
}

/// A chart at the limit, 200,000 hits.
const FULL: Play = [CHART, CHART, 0];

/// In the sums below: T is the pooled target, R the hits of the pool, then the candidates as they are
/// tried, with their distances.
const TOLD: [Told; 10] = [
    // T = 61 * 2, R = 2. 2 * 61 = 122, 0.
    Told {
        classic: false,
        acc: 1.0,
        plays: &[[1, 0, 0], [1, 0, 0]],
        tried: 1,
        sixes: &[[1, 0, 0, 0, 0, 0], [1, 0, 0, 0, 0, 0]],
    },
    // T = 142 of 244, R = 4. D = 142 - 40 = 102, lo = 2: 2 * 61 + 2 * 10 = 142, 0. A chart alone, at
    // 71, would have one of each.
    Told {
        classic: false,
        acc: 142.0 / 244.0,
        plays: &[[2, 0, 0], [2, 0, 0]],
        tried: 1,
        sixes: &[[2, 0, 0, 0, 0, 0], [0, 0, 0, 0, 2, 0]],
    },
    // A chart of no hits in the middle. T = 101 of 183, R = 3. 61 + 2 * 10 = 81, 20; 2 * 61 + 10 = 132,
    // 31; with one 100 61 + 20 + 10 = 91, 10; 2 * 61 + 20 = 142, 41; with two 61 + 2 * 20 = 101, 0.
    Told {
        classic: false,
        acc: 101.0 / 183.0,
        plays: &[[1, 0, 0], [0, 0, 0], [2, 0, 0]],
        tried: 5,
        sixes: &[[1, 0, 0, 0, 0, 0], [0; 6], [0, 0, 0, 2, 0, 0]],
    },
    // All misses, some of them too many: T = 61 * 5 and R = 0, so that the one candidate is 0, at 305.
    Told {
        classic: false,
        acc: 1.0,
        plays: &[[3, 0, 3], [1, 1, CAP]],
        tried: 1,
        sixes: &[[0, 0, 0, 0, 0, 3], [0, 0, 0, 0, 0, 2]],
    },
    // The target is that of all six hits, not of the five that remain. T = 203 of 366, R = 5. D = 203 -
    // 50 = 153, lo = 3: 3 * 61 + 2 * 10 = 203, 0.
    Told {
        classic: false,
        acc: 203.0 / 366.0,
        plays: &[[3, 0, 1], [2, 1, 0]],
        tried: 1,
        sixes: &[[2, 0, 0, 0, 0, 1], [1, 0, 0, 0, 2, 0]],
    },
    // Classic: the hold notes are not counted, and no 300 is tried. T = 140 of 180, R = 3. 2 * 60 + 10 =
    // 130, 10; 3 * 60 = 180, 40; with one 100 2 * 60 + 20 = 140, 0.
    Told {
        classic: true,
        acc: 140.0 / 180.0,
        plays: &[[2, CHART, 0], [1, CHART, 0]],
        tried: 3,
        sixes: &[[2, 0, 0, 0, 0, 0], [0, 0, 0, 1, 0, 0]],
    },
    // A half goes to the even number: T = 30 of 61, R = 1. A 50 lies 20 away, a 320 31, a 100 10, a 200
    // 10 too, a 300 30. At 31 the 200 would be nearer.
    Told {
        classic: false,
        acc: 0.5,
        plays: &[[0, 0, 1], [0, 1, 0]],
        tried: 5,
        sixes: &[[0; 6], [0, 0, 0, 1, 0, 0]],
    },
    // T = 0, R = 2, which nothing meets: two candidates with no middle, two for each of the three with
    // one, one for each of the six with two.
    Told {
        classic: false,
        acc: -0.0,
        plays: &[[1, 0, 0], [1, 0, 0]],
        tried: 14,
        sixes: &[[0, 0, 0, 0, 1, 0], [0, 0, 0, 0, 1, 0]],
    },
    // T = 97,600,000, R = 1,600,000: all are 320s.
    Told {
        classic: false,
        acc: 1.0,
        plays: &[FULL; 8],
        tried: 1,
        sixes: &[[2 * CHART, 0, 0, 0, 0, 0]; 8],
    },
    // Two candidates for each of 51 * 17 * 51 settings.
    Told {
        classic: false,
        acc: 0.0,
        plays: &[FULL; 8],
        tried: 88_434,
        sixes: &[[0, 0, 0, 0, 2 * CHART, 0]; 8],
    },
];

pub fn run(rng: &mut Rng) -> bool {
    let size = Size::new(100_000);
    let mut part = Part {
        tally: Tally::new("relay"),
        rng,
    };

    part.told();

    for (what, inputs) in relay_inputs::ALL {
        let before = part.tally.inputs;
        inputs(&mut part, &size);
        println!("relay: {} {what}", part.tally.inputs - before);
    }

    part.tally.finish()
}
