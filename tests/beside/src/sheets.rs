//! Part sheets: the library's sheet call, and for a sample of the sheets the program `sheet`,
//! beside document 01's reading of a sheet over the Rust's generators, byte for byte, and document 02's
//! totals. The answers of Nearest, under own weights too, are judged as in part nearest.

use std::io;

use crate::{
    holds_sheets,
    inputs::{Rng, Size},
    nearest, ours, own_sheets, plays,
    program::{self, Program, hex},
    query::{Answer, Method},
    sheet::{self, ANSWER, QUERIES, TOTALS},
    sheet_inputs,
    tally::{Tally, first_wrong},
    totals_sheets,
};

/// What stands in lent memory before a call. Zeros are answers with status 0, which are not to be counted.
const SENTINEL: u8 = 0xA5;
const BEFORE: [u8; 2] = [SENTINEL, 0];
const NUMBER: u64 = 0xA5A5_5E17_1CED_A5A5;

/// The memory on both sides of an output, and the numbers on both sides of the totals.
const AROUND: usize = 16;
const NUMBERS_AROUND: usize = 4;

/// The most that the program reads, a byte more than a full sheet with own weights has.
const READ: usize = 51_233;

/// A full sheet with the standard weights.
const FULL: usize = 51_212;

/// What document 01 prints for its example, with document 02's left and closing line.
const EXAMPLE: &str = "query status n320 n300 n200 n100 n50 misses tried left
0 0 0 0 20 0 0 0 3 420
1 13 0 0 0 0 0 0 0 0
total 1 0 0 20 0 0 0
";

/// What is printed for a sheet without queries.
const NO_QUERIES: &str = "query status n320 n300 n200 n100 n50 misses tried left
total 0 0 0 0 0 0 0
";

struct Part<'a> {
    tally: Tally,
    rng: &'a mut Rng,
    program: Program,
    rows: usize,
}

impl Part<'_> {
    /// Compares a sheet with outputs of the exact length, longer, and too short, and with totals of seven
    /// numbers, more, and too few.
    fn compare(&mut self, bytes: &[u8]) {
        let queries = sheet::queries(bytes);
        let answers = queries
            .as_ref()
            .map(|queries| queries.iter().map(sheet::answer).collect::<Vec<_>>())
            .map_err(|&status| status);
        let exact = answers.as_ref().map_or(2 * ANSWER, |a| ANSWER * a.len());
        let longer = exact + 1 + self.rng.upto(80) as usize;
        let last = exact.saturating_sub(1);
        let shorter = self.rng.upto(last as u32) as usize;
        let shorter = self.rng.pick(&[0, shorter, last]);
        let more = TOTALS + 1 + self.rng.upto(9) as usize;

        self.tally.inputs += 1;
        self.rows += answers.as_ref().map_or(0, Vec::len);
        self.work(bytes, &answers, exact, TOTALS);
        self.work(bytes, &answers, longer, more);
        self.work(bytes, &answers, shorter, TOTALS);

        for few in 0..TOTALS {
            self.work(bytes, &answers, exact, few);
            self.work(bytes, &answers, shorter, few);
        }

        // Full sheets and larger ones all go through the program.
        if bytes.len() >= FULL || self.rng.one_in(48) {
            self.run(bytes);
        }

        for (q, answer) in queries.iter().flatten().zip(answers.iter().flatten()) {
            if let Ok(q) = q
                && q.method() == Some(Method::Nearest)
            {
                nearest::judge(&mut self.tally, q, answer);
            }
        }
    }

    /// Compares the library's call: its answer, and all the memory around and in the output and the
    /// totals.
    fn work(
        &mut self,
        bytes: &[u8],
        answers: &Result<Vec<Answer>, u32>,
        len: usize,
        totals_len: usize,
    ) {
        // Neither the sheet nor the output stands at a round address.
        let shift = self.rng.upto(7) as usize;
        let start = AROUND - shift;
        let shifted = [&vec![SENTINEL; shift], bytes].concat();
        let mut memory = vec![self.rng.pick(&BEFORE); len + 2 * AROUND];
        let mut right = memory.clone();
        let mut numbers = vec![NUMBER; totals_len + 2 * NUMBERS_AROUND];
        let mut right_numbers = numbers.clone();
        let totals = NUMBERS_AROUND..NUMBERS_AROUND + TOTALS;

        let status = match answers {
            _ if totals_len < TOTALS => 5,
            &Err(status) => status,
            Ok(answers) if len < ANSWER * answers.len() => 5,
            Ok(answers) => {
                let written = sheet::written(answers);
                right[start..start + written.len()].copy_from_slice(&written);
                right_numbers[totals.clone()].copy_from_slice(&sheet::totals(answers));
                0
            }
        };

        let ours = ours::work_sheet(
            &shifted[shift..],
            &mut memory[start..start + len],
            &mut numbers[NUMBERS_AROUND..NUMBERS_AROUND + totals_len],
        );

        let same = ours == status && memory == right && numbers == right_numbers;
        self.tally.judge(same, || {
            format!(
                "an output of {len}, totals of {totals_len}: ours {ours}, expected {status}; first wrong \
                 byte {:?}, first wrong total {:?}; {}",
                first_wrong(&memory, &right, start),
                first_wrong(&numbers, &right_numbers, NUMBERS_AROUND),
                hex(bytes)
            )
        });

        // Of the bytes that the library wrote, right or wrong.
        if let (0, 0, Ok(answers)) = (ours, status, answers) {
            let written = sheet::read(&memory[start..start + ANSWER * answers.len()]);
            let (sums, totals) = (sheet::totals(&written), &numbers[totals]);
            self.tally.judge(totals == sums, || {
                format!(
                    "totals {totals:?}, where the answers written have {sums:?}; {}",
                    hex(bytes)
                )
            });
        }
    }

    /// Compares rows alone in their sheets, with outputs of every length up to one past the answer and
    /// totals of every length up to one past the seven.
    fn one_row(&mut self) {
        let left_over = plays::left_over().into_iter().map(|(q, _)| q);
        let with_holds = plays::with_holds().into_iter().map(|(q, _)| q);
        let with_own_weights = plays::with_own_weights().into_iter().map(|(q, _)| q);

        for q in left_over.chain(with_holds).chain(with_own_weights) {
            let bytes = sheet_inputs::own_charts(&[q]);
            let answers = sheet::answers(&bytes);
            self.tally.inputs += 1;

            for totals_len in 0..=TOTALS + 1 {
                (0..=ANSWER + 1).for_each(|len| self.work(&bytes, &answers, len, totals_len));
            }
        }
    }

    /// Compares sheets whose totals are told by hand.
    fn totals_told_by_hand(&mut self) {
        for told in totals_sheets::told() {
            let answers = sheet::answers(&told.bytes).map(|answers| {
                let statuses = answers.iter().map(|answer| answer.status);
                (statuses.collect::<Vec<_>>(), sheet::totals(&answers))
            });
            let right = Ok((told.statuses, told.totals));
            self.tally.judge(answers == right, || {
                format!("{}: {answers:?}, by hand {right:?}", told.what)
            });
            self.compare(&told.bytes);
            self.run(&told.bytes);
        }
    }

    /// Compares rows with holds passed, whose answers or statuses are told by hand.
    fn told_by_hand(&mut self) {
        let (queries, right): (Vec<_>, Vec<_>) = plays::with_holds().into_iter().unzip();
        let bytes = sheet_inputs::own_charts(&queries);
        let answers = sheet::answers(&bytes);
        self.tally.judge(answers.as_ref() == Ok(&right), || {
            format!("with holds passed: {answers:?}, by hand {right:?}")
        });
        self.compare(&bytes);
        self.run(&bytes);

        for rows in holds_sheets::told().chunks(QUERIES) {
            let (rows, right): (Vec<_>, Vec<_>) = rows.iter().copied().unzip();
            let bytes = sheet::bytes(&holds_sheets::TOLD_CHARTS, &rows);
            let answers = sheet::answers(&bytes).unwrap_or_default();
            let statuses: Vec<_> = answers.iter().map(|answer| answer.status).collect();
            self.tally.judge(statuses == right, || {
                format!("statuses {statuses:?}, by hand {right:?}")
            });
            self.compare(&bytes);
            self.run(&bytes);
        }
    }

    /// Compares rows and sheets with own weights, whose answers or statuses are told by hand.
    fn own_told_by_hand(&mut self) {
        for (_, bytes) in own_sheets::stored() {
            self.run(&bytes);
        }

        for (q, right) in plays::with_own_weights() {
            let bytes = sheet_inputs::own_charts(&[q]);
            let answers = sheet::answers(&bytes);
            self.tally.judge(answers == Ok(vec![right]), || {
                format!("{q}: {answers:?}, by hand {right}")
            });
            self.compare(&bytes);
            self.run(&bytes);
        }

        for (own, classic) in own_sheets::WEIGHTINGS
            .into_iter()
            .flat_map(|own| [false, true].map(|classic| (own, classic)))
        {
            let (rows, right): (Vec<_>, Vec<_>) = own_sheets::told(classic).unzip();
            let bytes = sheet::weighted(&holds_sheets::TOLD_CHARTS, Some(own), &rows);
            let answers = sheet::answers(&bytes).unwrap_or_default();
            let statuses: Vec<_> = answers.iter().map(|answer| answer.status).collect();
            self.tally.judge(statuses == right, || {
                format!("own weights {own:?}: statuses {statuses:?}, by hand {right:?}")
            });
            self.compare(&bytes);
            self.run(&bytes);
        }

        own_sheets::told_sheets(&mut |bytes, right| {
            let status = sheet::answers(bytes).err().unwrap_or(0);
            self.tally.judge(status == right, || {
                format!("status {status}, by hand {right}; {}", hex(bytes))
            });
            self.compare(bytes);
        });
    }

    /// Compares what the program prints.
    fn run(&mut self, bytes: &[u8]) {
        let right = text(&sheet::answers(&bytes[..bytes.len().min(READ)]));
        self.program.compare(&mut self.tally, bytes, &right);
    }
}

/// What the program prints.
pub fn text(answers: &Result<Vec<Answer>, u32>) -> String {
    let answers = match answers {
        Ok(answers) => answers,
        Err(status) => return format!("refused {status}\n"),
    };

    let mut text = String::from("query status n320 n300 n200 n100 n50 misses tried left\n");

    for (i, answer) in answers.iter().enumerate() {
        let [values @ .., _left] = answer.values.map(|n| n.to_string());
        let (status, left) = (answer.status, answer.left());
        text += &format!("{i} {status} {} {left}\n", values.join(" "));
    }

    let totals = sheet::totals(answers).map(|n| n.to_string());
    text += &format!("total {}\n", totals.join(" "));
    text
}

/// The gate's stored sheets.
pub fn write_stored() -> io::Result<()> {
    program::write_stored(sheet_inputs::stored(), READ, |read| {
        text(&sheet::answers(read))
    })
}

pub fn run(rng: &mut Rng) -> bool {
    let mut part = Part {
        tally: Tally::new("sheets"),
        rng,
        program: Program::new("sheet"),
        rows: 0,
    };

    for (bytes, right) in [
        (sheet_inputs::example(), EXAMPLE),
        (sheet::bytes(&[], &[]), NO_QUERIES),
    ] {
        let answers = text(&sheet::answers(&bytes));
        part.tally.judge(answers == right, || {
            format!("{answers}, where the documents say {right}")
        });
        part.run(&bytes);
    }

    part.run(&sheet_inputs::left_over());
    part.run(&holds_sheets::stored());
    part.one_row();
    part.told_by_hand();
    part.own_told_by_hand();
    part.totals_told_by_hand();

    sheet_inputs::fixed(&mut |bytes| part.compare(bytes));

    for _ in 0..Size::new(25_000).random {
        let bytes = sheet_inputs::random(part.rng);
        part.compare(&bytes);
    }

    println!(
        "sheets: {} rows worked, {} sheets through the program",
        part.rows, part.program.runs
    );
    part.tally.finish()
}
