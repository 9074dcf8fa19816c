//! Part strides: the table of strides as the code and the definitions write it, all 320 numbers,
//! beside the formula of document 01 with a gcd of its own. The missing weights that stand behind
//! each row are compared too, since a reviewer reads the row by them.

use std::{env, fs, path::PathBuf};

use crate::{inputs::Rng, nearest, query::Query, tally::Tally};

/// The rows of the table: 32 presence patterns, not classic and classic.
const ROWS: usize = 64;

/// The two places where the table stands, each with the line before its first row.
const PLACES: [(&str, &str); 2] = [
    ("src/lib.rt", "const STRIDES: [[u8; 5]; 64] = ["),
    ("specs/Strides.antt", "stride_table ="),
];

/// The places whose counts these presence bits leave out.
fn missing(bits: usize) -> Vec<usize> {
    (0..5).filter(|place| bits & 1 << place == 0).collect()
}

/// The formula's strides: q at each middle and 1 elsewhere; n300 is folded away where it weighs what
/// n320 does and both are missing.
pub fn formula(weights: [i64; 5], bits: usize) -> [i64; 5] {
    let mut walked = missing(bits);
    let mut strides = [1; 5];

    if walked.starts_with(&[0, 1]) && weights[0] == weights[1] {
        walked.remove(1);
    }

    if let [first, middles @ .., last] = walked.as_slice() {
        for middle in middles {
            strides[*middle] = nearest::stride(weights[*first], weights[*middle], weights[*last]);
        }
    }

    strides
}

/// What the line of a row says: five strides, the row's number, the missing weights. A weight that
/// is folded away is still missing from the query.
fn row(number: usize) -> Vec<i64> {
    let q = Query {
        classic: number >= 32,
        ..Query::default()
    };
    let weights = q.weights().map(i64::from);
    let bits = number % 32;
    let mut said = formula(weights, bits).to_vec();

    said.push(number as i64);
    said.extend(missing(bits).iter().map(|place| weights[*place]));
    said
}

/// The numbers in a line.
fn numbers(line: &str) -> Vec<i64> {
    line.split(|c: char| !c.is_ascii_digit())
        .filter_map(|word| word.parse().ok())
        .collect()
}

pub fn run(_: &mut Rng) -> bool {
    let root = PathBuf::from(env::var_os("NUQSILLAY_ROOT").unwrap_or_default());
    let mut tally = Tally::new("strides");

    for (file, head) in PLACES {
        let path = root.join("crates/stride_rows").join(file);
        let text = fs::read_to_string(&path).unwrap_or_default();
        let rows: Vec<_> = text
            .lines()
            .skip_while(|line| *line != head)
            .skip(1)
            .take(ROWS)
            .map(numbers)
            .collect();

        tally.judge(rows.len() == ROWS, || {
            format!("{}: {} rows", path.display(), rows.len())
        });

        for (number, said) in rows.iter().enumerate() {
            let right = row(number);
            tally.inputs += 5;
            tally.judge(*said == right, || {
                format!("{file}, row {number}: {said:?}, where the formula gives {right:?}")
            });
        }
    }

    tally.finish()
}
