//! A query, and what documents 01 and 02 say of it before a method works.

use std::fmt;

/// The most that a given count may be.
pub const CAP: u32 = 1_000_000;
/// The most objects, and the most hold notes, of a chart.
pub const CHART: u32 = 100_000;

/// The presence bits; the five counts have the bits below these.
pub const MISSES: u8 = 1 << 5;
pub const ACC: u8 = 1 << 6;
pub const PASSED: u8 = 1 << 7;

pub const NAMES: [&str; 5] = ["n320", "n300", "n200", "n100", "n50"];

/// Five weights, from n320 to n50.
pub type Weights = [u32; 5];

#[derive(Clone, Copy, Debug, PartialEq, Eq)]
pub enum Method {
    IgnoreAcc,
    Fast,
    Closest,
    Nearest,
}

impl Method {
    /// In the order of their codes.
    pub const ALL: [Self; 4] = [Self::IgnoreAcc, Self::Fast, Self::Closest, Self::Nearest];

    pub fn code(self) -> u8 {
        self as u8
    }

    pub fn name(self) -> &'static str {
        match self {
            Self::IgnoreAcc => "ignore_acc",
            Self::Fast => "fast",
            Self::Closest => "closest",
            Self::Nearest => "nearest",
        }
    }
}

/// What a direct call takes, or what a row and its sheet say. A missing field's number is there but
/// means nothing. The default is IgnoreAccuracy of an empty chart, not classic, with nothing given and
/// the standard weights.
#[derive(Clone, Copy, Debug, Default)]
pub struct Query {
    pub n_objects: u32,
    pub n_hold_notes: u32,
    pub method: u8,
    pub priority: u8,
    pub classic: bool,
    pub presence: u8,
    pub counts: [u32; 5],
    pub misses: u32,
    pub passed: u32,
    pub acc: f64,
    /// How many hold notes were passed, where that is given.
    pub holds_passed: Option<u32>,
    /// The own weights of the row's sheet, where it has them. A direct call takes none.
    pub own: Option<Weights>,
}

/// A status and, where it is 0, the five counts, misses, tried and the bits of left.
#[derive(Clone, Copy, Debug, PartialEq, Eq)]
pub struct Answer {
    pub status: u32,
    pub values: [u32; 8],
}

impl Answer {
    pub fn refused(status: u32) -> Self {
        Self {
            status,
            values: [0; 8],
        }
    }

    pub fn left(&self) -> i32 {
        self.values[7] as i32
    }
}

impl Query {
    pub fn method(&self) -> Option<Method> {
        Method::ALL.get(usize::from(self.method)).copied()
    }

    /// The same query for another method.
    pub fn by(self, method: Method) -> Self {
        Self {
            method: method.code(),
            ..self
        }
    }

    /// The same query as a row of a sheet with own weights.
    pub fn under(self, own: Weights) -> Self {
        Self {
            own: Some(own),
            ..self
        }
    }

    pub fn has(&self, bit: u8) -> bool {
        self.presence & bit != 0
    }

    /// The five counts, the missing ones as `None`.
    pub fn given(&self) -> [Option<u32>; 5] {
        std::array::from_fn(|i| self.has(1 << i).then_some(self.counts[i]))
    }

    pub fn given_misses(&self) -> Option<u32> {
        self.has(MISSES).then_some(self.misses)
    }

    pub fn given_passed(&self) -> Option<u32> {
        self.has(PASSED).then_some(self.passed)
    }

    pub fn given_acc(&self) -> Option<f64> {
        self.has(ACC).then_some(self.acc)
    }

    pub fn given_sum(&self) -> u32 {
        self.given().into_iter().flatten().sum()
    }

    /// How many of the five counts are missing.
    pub fn missing(&self) -> usize {
        self.given().into_iter().filter(Option::is_none).count()
    }

    pub fn weights(&self) -> Weights {
        let standard = [if self.classic { 60 } else { 61 }, 60, 40, 20, 10];
        self.own.unwrap_or(standard)
    }

    /// The hold notes that the player reached: the smaller of the passed ones and the chart's, or the
    /// chart's in full.
    pub fn holds_reached(&self) -> u32 {
        self.n_hold_notes.min(self.holds_passed.unwrap_or(u32::MAX))
    }

    pub fn total_hits(&self) -> u32 {
        let objects = self.n_objects.min(self.given_passed().unwrap_or(u32::MAX));

        if self.classic {
            objects
        } else {
            objects + self.holds_reached()
        }
    }

    pub fn capped_misses(&self) -> u32 {
        self.given_misses().unwrap_or(0).min(self.total_hits())
    }

    pub fn remain(&self) -> u32 {
        self.total_hits() - self.capped_misses()
    }

    /// The points of a play without fault, by which acc is multiplied.
    pub fn full_points(&self) -> u32 {
        self.weights()[0] * self.total_hits()
    }

    /// The rounded target.
    pub fn target(&self) -> i64 {
        (self.acc * f64::from(self.full_points())).round_ties_even() as i64
    }

    /// Sets acc to the f64 nearest to this rounded target over the full points.
    pub fn aim(&mut self, target: i64) {
        let full = self.full_points().max(1);
        self.acc = target.clamp(0, full.into()) as f64 / f64::from(full);
    }

    /// The points of these five counts.
    pub fn points(&self, counts: &[u32]) -> i64 {
        let points = |(&n, w): (&u32, u32)| i64::from(n) * i64::from(w);

        counts.iter().zip(self.weights()).map(points).sum()
    }

    /// What these counts leave of the rounded target, negative where their points are above it.
    pub fn left(&self, counts: &[u32]) -> i64 {
        self.target() - self.points(counts)
    }

    /// How far these counts lie from the rounded target.
    pub fn distance(&self, counts: &[u32]) -> u64 {
        self.left(counts).unsigned_abs()
    }

    pub fn chart_over(&self) -> bool {
        self.n_objects > CHART || self.n_hold_notes > CHART
    }

    pub fn acc_outside(&self) -> bool {
        !(0.0..=1.0).contains(&self.acc)
    }

    /// The number by which the documents stop a direct call, or a row that the checks 6 to 9 pass, or
    /// 0.
    pub fn status(&self) -> u32 {
        let over = |given: Option<u32>| given.is_some_and(|n| n > CAP);

        if self.chart_over() {
            return 7;
        }

        let Some(method) = self.method().filter(|_| self.priority <= 1) else {
            return 8;
        };

        if self.own.is_some() && matches!(method, Method::Fast | Method::Closest) {
            return 19;
        } else if self.given().into_iter().any(over) || over(self.given_misses()) {
            return 10;
        } else if self.has(ACC) && self.acc_outside() {
            return 11;
        }

        let (sum, remain, missing) = (self.given_sum(), self.remain(), self.missing());

        match method {
            Method::Closest if self.has(ACC) && remain > 0 && missing == 2 && sum > remain => 12,
            Method::Nearest if !self.has(ACC) => 13,
            Method::Nearest if sum > remain || missing == 0 && sum != remain => 14,
            _ => 0,
        }
    }
}

impl fmt::Display for Query {
    fn fmt(&self, f: &mut fmt::Formatter<'_>) -> fmt::Result {
        write!(
            f,
            "objects {} holds {} method {} priority {} classic {} presence {:#04x}",
            self.n_objects,
            self.n_hold_notes,
            self.method,
            self.priority,
            self.classic,
            self.presence
        )?;

        for (name, n) in NAMES.into_iter().zip(self.given()) {
            if let Some(n) = n {
                write!(f, " {name} {n}")?;
            }
        }

        if let Some(misses) = self.given_misses() {
            write!(f, " misses {misses}")?;
        }

        if let Some(passed) = self.given_passed() {
            write!(f, " passed {passed}")?;
        }

        if let Some(holds) = self.holds_passed {
            write!(f, " holds passed {holds}")?;
        }

        if let Some(own) = self.own {
            write!(f, " own weights {own:?}")?;
        }

        write!(f, " acc {:?} ({:#018x})", self.acc, self.acc.to_bits())
    }
}

impl fmt::Display for Answer {
    fn fmt(&self, f: &mut fmt::Formatter<'_>) -> fmt::Result {
        match self.status {
            0 => write!(f, "{:?} left {}", &self.values[..7], self.left()),
            status => write!(f, "refused {status}"),
        }
    }
}
