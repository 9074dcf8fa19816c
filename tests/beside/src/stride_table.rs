//! Part stride_table: the library's call that fills a buffer with the strides of two weightings, and
//! for some of them the program `strides`, beside document 02, L6: the formula with a gcd of its own,
//! and L4's conditions read anew.

use std::io;

use crate::{
    inputs::{Rng, Size},
    ours,
    program::{self, Program},
    query::Weights,
    strides,
    tally::{Tally, first_wrong},
};

/// The numbers of a table.
const TABLE: usize = 320;

/// The most that the program reads, a byte more than ten weights have.
const READ: usize = 41;

/// What stands in lent memory before a call, and how much of it lies on both sides of a buffer.
const SENTINEL: u32 = 0x5E17_1CED;
const AROUND: usize = 4;

const STANDARD: [Weights; 2] = [[61, 60, 40, 20, 10], [60, 60, 40, 20, 10]];

/// The first folds, the second does not.
const OWN: [Weights; 2] = [[90, 90, 50, 30, 5], [100, 73, 41, 17, 1]];

/// "The first two may be equal ..; otherwise weights fall strictly, from at most 100 to at least 1."
pub fn legal(set: &Weights) -> bool {
    let [first, second, ..] = *set;
    let strictly = set[1..].windows(2).all(|pair| pair[0] > pair[1]);

    first >= second && strictly && set.iter().all(|weight| (1..=100).contains(weight))
}

/// The table's 320 numbers, or 18.
fn table(sets: &[Weights; 2]) -> Result<Vec<u32>, u32> {
    if !sets.iter().all(legal) {
        return Err(18);
    }

    let rows = sets
        .iter()
        .flat_map(|set| (0..32).map(|bits| strides::formula(set.map(i64::from), bits)));
    Ok(rows.flatten().map(|stride| stride as u32).collect())
}

fn bytes(sets: &[Weights; 2]) -> Vec<u8> {
    let weights = sets.as_flattened().iter();
    weights.flat_map(|weight| weight.to_le_bytes()).collect()
}

/// What the program prints of the bytes that it read.
fn text(bytes: &[u8]) -> String {
    if bytes.len() != 40 {
        return String::from("refused 1\n");
    }

    let weight = |at: usize| u32::from_le_bytes(bytes[at..at + 4].try_into().unwrap());
    let sets = [0, 20].map(|from| std::array::from_fn(|i| weight(from + 4 * i)));

    match table(&sets) {
        Err(status) => format!("refused {status}\n"),
        Ok(table) => table
            .chunks(5)
            .map(|row| format!("{} {} {} {} {}\n", row[0], row[1], row[2], row[3], row[4]))
            .collect(),
    }
}

struct Part<'a> {
    tally: Tally,
    rng: &'a mut Rng,
    program: Program,
}

impl Part<'_> {
    /// Compares the call with buffers of the exact length, longer and too short: its answer, and
    /// all the memory around and in the buffer.
    fn compare(&mut self, sets: &[Weights; 2]) {
        let table = table(sets);
        let any = self.rng.upto(400) as usize;
        self.tally.inputs += 1;

        for len in [0, 1, any, TABLE - 1, TABLE, TABLE + 1] {
            let mut memory = vec![SENTINEL; len + 2 * AROUND];
            let mut right = memory.clone();

            let status = match &table {
                &Err(status) => status,
                Ok(_) if len < TABLE => 5,
                Ok(table) => {
                    right[AROUND..AROUND + TABLE].copy_from_slice(table);
                    0
                }
            };

            let ours = ours::strides(sets, &mut memory[AROUND..AROUND + len]);

            self.tally.judge(ours == status && memory == right, || {
                format!(
                    "{sets:?}, a buffer of {len}: ours {ours}, expected {status}; first wrong number {:?}",
                    first_wrong(&memory, &right, AROUND)
                )
            });
        }
    }

    /// Compares what the program prints.
    fn print(&mut self, bytes: &[u8]) {
        let right = text(&bytes[..bytes.len().min(READ)]);
        self.program.compare(&mut self.tally, bytes, &right);
    }

    /// Each kind of bad weight in each of the ten places, and in two of them at once.
    fn bad(&mut self, legal: &[Weights; 2]) {
        for set in 0..2 {
            for place in 0..5 {
                let good = legal[set];
                let before = good[place.max(1) - 1];
                let after = good[(place + 1).min(4)];
                let kinds = [
                    0,
                    101,
                    1 << 31,
                    u32::MAX,
                    before,
                    before + 1,
                    after,
                    after - 1,
                    // A weight of 256 or 65,536 more has the same lowest bytes.
                    good[place] + 256,
                    good[place] + 65_536,
                ];

                for weight in kinds {
                    let mut sets = *legal;
                    sets[set][place] = weight;
                    self.compare(&sets);
                    self.print(&bytes(&sets));

                    sets[1 - set][4 - place] = 0;
                    self.compare(&sets);
                }
            }
        }
    }

    /// All sets of five numbers from `least` on, `span` of them, in either place beside another.
    fn all(&mut self, least: u32, span: u32, other: Weights) {
        for number in 0..span.pow(5) {
            let set = std::array::from_fn(|place| least + number / span.pow(place as u32) % span);
            self.compare(&[set, other]);
            self.compare(&[other, set]);
        }
    }
}

/// Weights that fall as L4 asks; one in three has its first two equal.
pub fn random_set(rng: &mut Rng) -> Weights {
    let mut left: Vec<u32> = (1..=100).collect();
    let mut set = [0; 5];

    for weight in &mut set {
        *weight = left.swap_remove(rng.upto(left.len() as u32 - 1) as usize);
    }

    set.sort_unstable_by(|x, y| y.cmp(x));

    if rng.one_in(3) {
        set[1] = set[0];
    }

    set
}

/// The gate's stored weights.
pub fn write_stored() -> io::Result<()> {
    let own = bytes(&OWN);
    let with = |set: usize, place: usize, weight: u32| {
        let mut sets = STANDARD;
        sets[set][place] = weight;
        bytes(&sets)
    };

    let inputs = vec![
        ("standard.weights", bytes(&STANDARD)),
        ("own.weights", own.clone()),
        ("no_bytes.weights", Vec::new()),
        ("39_bytes.weights", own[..39].to_vec()),
        ("41_bytes.weights", [own.as_slice(), &[0]].concat()),
        ("42_bytes.weights", [own.as_slice(), &[0; 2]].concat()),
        ("over.weights", with(0, 0, 101)),
        ("rising.weights", with(1, 1, 61)),
        ("equal.weights", with(0, 2, 60)),
        ("zero.weights", with(1, 4, 0)),
    ];
    program::write_stored(inputs, READ, text)
}

pub fn run(rng: &mut Rng) -> bool {
    let mut part = Part {
        tally: Tally::new("stride_table"),
        rng,
        program: Program::new("strides"),
    };

    for sets in [STANDARD, OWN, [OWN[1], OWN[0]], [OWN[0]; 2], [OWN[1]; 2]] {
        part.compare(&sets);
        part.print(&bytes(&sets));
        part.bad(&sets);
    }

    // Every length to past what is read.
    let mut longer = bytes(&OWN);
    longer.resize(60, 1);
    for len in 0..=longer.len() {
        part.print(&longer[..len]);
    }

    let size = Size::new(25_000);
    if size.one_in == 1 {
        part.all(0, 8, OWN[0]);
        part.all(95, 7, OWN[1]);
    }

    for _ in 0..size.random {
        let sets = [random_set(part.rng), random_set(part.rng)];
        part.compare(&sets);

        if part.rng.one_in(50) {
            part.print(&bytes(&sets));
        }
    }

    println!(
        "stride_table: {} inputs through the program",
        part.program.runs
    );
    part.tally.finish()
}
