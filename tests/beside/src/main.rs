//! Runs the original repository's Rust beside the Nuqsillay library, on the same inputs and in one
//! program.
//!
//! The repository's files are compiled unchanged from where they lie (build.rs), among the few
//! types that they ask for (repo.rs). The library is linked through its C interface (ours.rs).
//! Nearest, which is not the repository's, has a plain walk written from document 01 beside it, for any
//! weights; a relay has that walk of its pool, dealt judgement by judgement. Typed sheets have a reader
//! and a writer written from their page alone.
//!
//! `run [part ..]` builds and runs the parts that `PARTS` lists; all of them if none is named. `run
//! parts` prints their names. Each but bench ends with a line
//! `part: N inputs, D differences, S s`, and any difference ends the program with 1. `run list`
//! writes the Rust's answers to a file instead (list.rs), `run stored` the gate's stored sheets, and
//! `run stored_strides` its stored weights.
//!
//! Variables: SEED and COUNT (random inputs a part) for the inputs, NUQSILLAY_ROOT for the
//! repository that holds this crate, ROSU_SRC for the folder with the original's src/, LIST_OUT for
//! what is written, KINDS for the list.

use std::{env, process::ExitCode};

use crate::{inputs::Rng, query::Method};

mod accuracy;
mod bench;
mod closest;
mod generate;
mod holds;
mod holds_sheets;
mod inputs;
mod list;
mod nearest;
mod ours;
mod own_sheets;
mod percent;
mod plain;
mod plays;
mod program;
mod query;
mod relay;
mod relay_inputs;
mod repo;
mod rising;
mod sheet;
mod sheet_inputs;
mod sheets;
mod stride_table;
mod strides;
mod tally;
mod target;
mod totals_sheets;
mod typed;
mod typed_back;
mod typed_inputs;
mod typed_texts;
mod typed_told;

// The repository's modules, which expect to stand at the root.
include!(concat!(env!("OUT_DIR"), "/tree.rs"));

/// The parts in their order, each with what runs it and says whether nothing differed.
type Part = (&'static str, fn(&mut Rng) -> bool);

const PARTS: [Part; 15] = [
    ("accuracy", accuracy::run),
    ("target", target::run),
    ("ignore_acc", |rng| plain::run(Method::IgnoreAcc, rng)),
    ("fast", |rng| plain::run(Method::Fast, rng)),
    ("closest", closest::run),
    ("strides", strides::run),
    ("stride_table", stride_table::run),
    ("nearest", nearest::run),
    ("generate", generate::run),
    ("holds", holds::run),
    ("sheets", sheets::run),
    ("rising", rising::run),
    ("relay", relay::run),
    ("typed", typed_texts::run),
    ("bench", |rng| {
        bench::run(rng);
        true
    }),
];

fn main() -> ExitCode {
    repo::quiet_panics();

    let named: Vec<String> = env::args().skip(1).collect();

    let written = match named.as_slice() {
        [one] if one == "list" => Some(list::write()),
        [one] if one == "stored" => Some(sheets::write_stored()),
        [one] if one == "stored_strides" => Some(stride_table::write_stored()),
        _ => None,
    };

    if let Some(written) = written {
        return match written {
            Ok(()) => ExitCode::SUCCESS,
            Err(e) => {
                eprintln!("beside: {e}");
                ExitCode::from(2)
            }
        };
    }

    let names = PARTS.map(|(name, _)| name);

    if named == ["parts"] {
        println!("{}", names.join(" "));
        return ExitCode::SUCCESS;
    }

    if let Some(unknown) = named.iter().find(|part| !names.contains(&part.as_str())) {
        eprintln!(
            "beside: no part {unknown}; there are {}, list, stored and stored_strides",
            names.join(", ")
        );
        return ExitCode::from(2);
    }

    let mut good = true;

    for (name, run) in PARTS {
        if named.is_empty() || named.iter().any(|part| part == name) {
            good &= run(&mut Rng::new(inputs::number("SEED", 1)));
        }
    }

    if good {
        ExitCode::SUCCESS
    } else {
        ExitCode::FAILURE
    }
}
