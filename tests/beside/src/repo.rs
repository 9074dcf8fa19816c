//! The repository's side: the smallest types that its files ask for around them, and one call for
//! each generator.

use std::{
    cell::Cell,
    fmt::Debug,
    panic::{self, AssertUnwindSafe},
};

use crate::{
    any::{
        HitResultGenerator,
        hitresult_generator::{Closest, Fast, IgnoreAccuracy},
    },
    mania::{InspectManiaPerformance, ManiaHitResults},
    query::{Answer, Method, Query},
};

pub trait IGameMode {
    type DifficultyAttributes;
    type Performance<'map>;
    type HitResults;
}

pub trait InspectablePerformance: IGameMode {
    type InspectPerformance<'a>;

    fn inspect_performance<'a>(
        perf: &'a Self::Performance<'_>,
        attrs: &'a Self::DifficultyAttributes,
    ) -> Self::InspectPerformance<'a>;
}

#[derive(Clone, Copy, Debug)]
pub enum HitResultPriority {
    BestCase,
    WorstCase,
}

#[derive(Clone, Debug)]
pub struct Difficulty {
    classic: bool,
    passed_objects: Option<u32>,
}

impl Difficulty {
    pub fn get_lazer(&self) -> bool {
        !self.classic
    }

    pub fn get_passed_objects(&self) -> usize {
        self.passed_objects.map_or(usize::MAX, |n| n as usize)
    }

    pub fn get_mods(&self) -> NoMods {
        NoMods
    }
}

pub struct NoMods;

impl NoMods {
    pub fn cl(&self) -> bool {
        false
    }
}

#[derive(Clone, Debug)]
pub struct ManiaDifficultyAttributes {
    pub n_objects: u32,
    pub n_hold_notes: u32,
}

pub struct ManiaPerformance {
    pub difficulty: Difficulty,
    pub n320: Option<u32>,
    pub n300: Option<u32>,
    pub n200: Option<u32>,
    pub n100: Option<u32>,
    pub n50: Option<u32>,
    pub misses: Option<u32>,
    pub acc: Option<f64>,
    pub hitresult_priority: HitResultPriority,
}

pub struct Mania;

impl IGameMode for Mania {
    type DifficultyAttributes = ManiaDifficultyAttributes;
    type Performance<'map> = ManiaPerformance;
    type HitResults = ManiaHitResults;
}

/// The other modes, which any/hitresult_generator.rs names and nothing here uses.
macro_rules! other_modes {
    ($($mode:ident)*) => {$(
        pub struct $mode;

        impl IGameMode for $mode {
            type DifficultyAttributes = ();
            type Performance<'map> = ();
            type HitResults = ();
        }

        impl InspectablePerformance for $mode {
            type InspectPerformance<'a> = ();

            fn inspect_performance<'a>((): &'a (), (): &'a ()) {}
        }
    )*};
}

other_modes!(Osu Taiko Catch);

/// Lets `f` look at the query as the repository inspects it.
pub fn inspect<T>(q: &Query, f: impl FnOnce(InspectManiaPerformance<'_>) -> T) -> T {
    let [n320, n300, n200, n100, n50] = q.given();

    // Document 02 compares with the Rust on the chart that has only the holds reached.
    let attrs = ManiaDifficultyAttributes {
        n_objects: q.n_objects,
        n_hold_notes: q.holds_reached(),
    };

    let perf = ManiaPerformance {
        difficulty: Difficulty {
            classic: q.classic,
            passed_objects: q.given_passed(),
        },
        n320,
        n300,
        n200,
        n100,
        n50,
        misses: q.given_misses(),
        acc: q.given_acc(),
        hitresult_priority: match q.priority {
            0 => HitResultPriority::BestCase,
            _ => HitResultPriority::WorstCase,
        },
    };

    f(Mania::inspect_performance(&perf, &attrs))
}

/// Six counts, from n320 to misses, as the repository holds them.
pub fn results(counts: &[u32; 6]) -> ManiaHitResults {
    let [n320, n300, n200, n100, n50, misses] = *counts;

    ManiaHitResults {
        n320,
        n300,
        n200,
        n100,
        n50,
        misses,
    }
}

/// Runs one of the repository's generators.
pub fn generate(q: &Query) -> ManiaHitResults {
    inspect(q, |inspect| match q.method() {
        Some(Method::IgnoreAcc) => {
            <IgnoreAccuracy as HitResultGenerator<Mania>>::generate_hitresults(inspect)
        }
        Some(Method::Fast) => <Fast as HitResultGenerator<Mania>>::generate_hitresults(inspect),
        Some(Method::Closest) => {
            <Closest as HitResultGenerator<Mania>>::generate_hitresults(inspect)
        }
        _ => unreachable!("the repository has no method {}", q.method),
    })
}

/// The status that stands for a panic which document 01 does not name.
const PANIC: u32 = u32::MAX;

/// What the repository answers: document 01's number for what the document stops beforehand, else
/// the counts, 12 for an overflow in Closest, and `PANIC` for any other panic.
pub fn answer(q: &Query) -> Answer {
    match q.status() {
        0 | 12 => {}
        status => return Answer::refused(status),
    }

    QUIET.set(true);
    let outcome = panic::catch_unwind(AssertUnwindSafe(|| generate(q)));
    QUIET.set(false);

    match outcome {
        Ok(r) => Answer {
            status: 0,
            values: [r.n320, r.n300, r.n200, r.n100, r.n50, r.misses, 0, 0],
        },
        Err(panic) => match panic.downcast_ref::<&str>() {
            Some(message)
                if q.method() == Some(Method::Closest) && message.ends_with("overflow") =>
            {
                Answer::refused(12)
            }
            _ => Answer::refused(PANIC),
        },
    }
}

thread_local! {
    /// Whether a panic is an answer and not to be printed.
    static QUIET: Cell<bool> = const { Cell::new(false) };
}

/// Keeps the panics that `answer` catches from being printed.
pub fn quiet_panics() {
    let usual = panic::take_hook();

    panic::set_hook(Box::new(move |info| {
        if !QUIET.get() {
            usual(info);
        }
    }));
}
