//! Part typed: the library's calls that read and write typed sheets, and for some texts the programs, beside a
//! reader and a writer made from the format's page alone (typed.rs, typed_back.rs, percent.rs). Where the
//! library has no such calls the two are held against the list told by hand, against what texts were made from
//! and against each other.

use crate::{
    inputs::{Rng, Size},
    ours,
    percent::{self, PLACES},
    program::Program,
    query::{Method, Query},
    sheet, sheet_inputs, sheets,
    tally::{Tally, first_wrong},
    typed::{self, Fault},
    typed_back::{self, Refused},
    typed_inputs, typed_told,
};

/// What stands in lent memory before a call.
const SENTINEL: u8 = 0xA5;
const BEFORE: [u8; 3] = [SENTINEL, 0, b' '];
const NUMBER: u64 = 0xA5A5_5E17_1CED_A5A5;

/// The memory on both sides of an output, and the numbers on both sides of what is told.
const AROUND: usize = 16;
const NUMBERS_AROUND: usize = 4;

/// What a fault tells.
const TOLD: usize = 3;

/// One in so many of the listed texts goes through the programs.
const RUN: u32 = 200;

/// A full sheet with the standard weights.
const FULL: usize = 51_212;

/// The most hits for which the Rust's Closest searches with three or more missing.
const SEARCHED: u32 = 300;

/// What a call is to answer: its status, what it writes at the front of its output, and what it tells.
type Right<'a> = (u32, &'a [u8], &'a [u64]);

struct Part<'a> {
    tally: Tally,
    rng: &'a mut Rng,
    type_sheet: Program,
    typed: Program,
    sheet_text: Program,
    /// Texts by the number of their fault, those without one in the first place.
    by_fault: [u64; 15],
    sheets: u64,
    refused: u64,
    percentages: u64,
}

/// The bytes as text.
fn shown(bytes: &[u8]) -> String {
    let first = &bytes[..bytes.len().min(300)];
    format!("{} bytes \"{}\"", bytes.len(), first.escape_ascii())
}

impl Part<'_> {
    /// Calls the library with an input and an output of so many bytes and places for numbers: its answer, and all
    /// the memory around and in both.
    fn call(
        &mut self,
        call: fn(&[u8], &mut [u8], &mut [u64]) -> u32,
        input: &[u8],
        [len, told_len]: [usize; 2],
        (status, written, told): Right,
    ) {
        // Neither the input nor the output stands at a round address.
        let shift = self.rng.upto(7) as usize;
        let start = AROUND - shift;
        let shifted = [&vec![SENTINEL; shift], input].concat();
        let mut memory = vec![self.rng.pick(&BEFORE); len + 2 * AROUND];
        let mut right = memory.clone();
        let mut numbers = vec![NUMBER; told_len + 2 * NUMBERS_AROUND];
        let mut right_numbers = numbers.clone();

        right[start..start + written.len()].copy_from_slice(written);
        right_numbers[NUMBERS_AROUND..NUMBERS_AROUND + told.len()].copy_from_slice(told);

        let ours = call(
            &shifted[shift..],
            &mut memory[start..start + len],
            &mut numbers[NUMBERS_AROUND..NUMBERS_AROUND + told_len],
        );

        let same = ours == status && memory == right && numbers == right_numbers;
        self.tally.judge(same, || {
            format!(
                "an output of {len}, {told_len} places: ours {ours} {:x?}, expected {status} {told:x?}; first wrong \
                 byte {:?}; {}",
                &numbers[NUMBERS_AROUND..NUMBERS_AROUND + told_len],
                first_wrong(&memory, &right, start),
                shown(input)
            )
        });
    }

    /// Compares the library's reader with outputs of the exact length, longer and too short, and with the places
    /// for what is told, more and too few.
    fn read(&mut self, text: &[u8], right: &Result<Vec<u8>, Fault>) {
        let exact = right.as_ref().map_or(self.rng.upto(70) as usize, Vec::len);
        let longer = exact + 1 + self.rng.upto(80) as usize;
        let shorter = self.rng.upto(exact as u32) as usize;
        let more = TOLD + self.rng.upto(3) as usize;
        let few = self.rng.upto(TOLD as u32 - 1) as usize;

        for (len, places) in [
            (exact, TOLD),
            (longer, more),
            (exact.saturating_sub(1), TOLD),
            (shorter, more),
            (0, TOLD),
            (exact, few),
            (longer, few),
        ] {
            let right: Right = match right {
                _ if places < TOLD => (15, &[], &[]),
                Err(fault) => (
                    fault.number,
                    &[],
                    &[fault.line, fault.start as u64, fault.len as u64],
                ),
                Ok(sheet) if len < sheet.len() => (15, &[], &[]),
                Ok(sheet) => (0, sheet, &[sheet.len() as u64]),
            };

            self.call(ours::sheet_of, text, [len, places], right);
        }
    }

    /// The same of the library's writer.
    fn write(&mut self, sheet: &[u8], right: &Result<Vec<u8>, Refused>) {
        let exact = right.as_ref().map_or(self.rng.upto(70) as usize, Vec::len);
        let longer = exact + 1 + self.rng.upto(80) as usize;
        let shorter = self.rng.upto(exact as u32) as usize;
        let more = 1 + self.rng.upto(3) as usize;

        for (len, places) in [
            (exact, 1),
            (longer, more),
            (exact.saturating_sub(1), 1),
            (shorter, more),
            (0, 1),
            (exact, 0),
            (longer, 0),
        ] {
            let right: Right = match right {
                _ if places == 0 => (5, &[], &[]),
                &Err(Refused::Sheet(number)) => (number, &[], &[]),
                Err(Refused::Row(index, number)) => (*number, &[], &[*index]),
                Ok(text) if len < text.len() => (5, &[], &[]),
                Ok(text) => (0, text, &[text.len() as u64]),
            };

            self.call(ours::text_of, sheet, [len, places], right);
        }
    }

    /// Compares a text. A sheet that it says has a text that says the same, but if its weights may not be set.
    fn compare(&mut self, text: &[u8]) {
        let right = typed::sheet_of(text);
        self.tally.inputs += 1;
        self.by_fault[right.as_ref().map_or_else(|fault| fault.number, |_| 0) as usize] += 1;

        if let Ok(sheet) = &right {
            match typed_back::text_of(sheet) {
                Ok(back) => self.says(&back, sheet),
                Err(refused) => self.tally.judge(refused == Refused::Sheet(18), || {
                    format!("the sheet read has no text: {refused:?}; {}", shown(text))
                }),
            }
        }

        if ours::HAS_TYPED {
            self.read(text, &right);
        }
    }

    /// Judges that the reader reads this sheet from a text.
    fn says(&mut self, text: &[u8], sheet: &[u8]) {
        let read = typed::sheet_of(text);
        self.tally.judge(read.as_deref() == Ok(sheet), || {
            format!(
                "read as {read:x?}, where it says {sheet:x?}; {}",
                shown(text)
            )
        });
    }

    /// Compares a sheet's text, which is read back to the same bytes.
    fn compare_back(&mut self, sheet: &[u8]) {
        let right = typed_back::text_of(sheet);
        self.tally.inputs += 1;
        self.sheets += 1;
        self.refused += u64::from(right.is_err());

        // The sheet's checks are those of the call that works it.
        let refused = sheet::queries(sheet).err();
        let same = match right {
            Err(Refused::Sheet(number)) => refused == Some(number),
            _ => refused.is_none(),
        };
        self.tally.judge(same, || {
            format!("{right:?}, where the sheet's checks say {refused:?}; {sheet:x?}")
        });

        if let Ok(text) = &right {
            self.says(text, sheet);
        }

        if ours::HAS_TYPED {
            self.write(sheet, &right);
            self.there_and_back(sheet, &right);
        }
    }

    /// Compares the library's text of a sheet, read by the library.
    fn there_and_back(&mut self, sheet: &[u8], right: &Result<Vec<u8>, Refused>) {
        let len = right.as_ref().map_or(0, Vec::len) + 1_000;
        let (mut text, mut back) = (vec![SENTINEL; len], vec![SENTINEL; sheet.len()]);
        let mut told = [NUMBER; TOLD];

        let number = ours::text_of(sheet, &mut text, &mut told);

        if let Err(refused) = right {
            self.tally.judge(number == refused.number(), || {
                format!("ours {number}, expected {refused:?}; {sheet:x?}")
            });
            return;
        }

        let text = text.get(..told[0] as usize).unwrap_or_default();
        let read = ours::sheet_of(text, &mut back, &mut told);
        let same = number == 0 && read == 0 && told[0] == sheet.len() as u64 && back == sheet;
        self.tally.judge(same, || {
            format!(
                "text {number}, read back {read} {told:?}; {}; {sheet:x?}",
                shown(text)
            )
        });
    }

    /// Compares texts and sheets whose answers are told by hand.
    fn told_by_hand(&mut self) {
        for (text, right) in typed_told::told() {
            let read =
                typed::sheet_of(&text).map_err(|fault| (fault, typed::message(&text, &fault)));
            self.tally.judge(read == right, || {
                format!("{read:x?}, by hand {right:x?}; {}", shown(&text))
            });
            self.compare(&text);
            self.run(&text);
        }

        for (sheet, right) in typed_told::told_back() {
            let text = typed_back::text_of(&sheet);
            self.tally.judge(text == right, || {
                format!("{text:x?}, by hand {right:x?}; {sheet:x?}")
            });
            self.compare_back(&sheet);
            self.run_back(&sheet);
        }
    }

    /// The page's two claims about percentages: one division gives the nearest f64, and no whole number but the
    /// nearest can give the same bits. The standard library's reading of decimals is a third way.
    fn percentage(&mut self, digits: u64, places: u32) {
        let bits = percent::nearest(digits, places);
        let divided = digits as f64 / (100 * 10_u64.pow(places)) as f64;
        let parsed = typed_inputs::parsed(digits, places);
        self.percentages += 1;

        let same = bits == divided.to_bits() && bits == parsed.to_bits();
        self.tally.judge(same, || {
            format!("{digits} of {places} places: {bits:016x}, divided once {divided:?}, parsed {parsed:?}")
        });

        let back = percent::shortest(bits);
        let short = back.is_some_and(|(back, few)| {
            let shorter = few < places && back * 10_u64.pow(places - few) == digits;
            shorter || (back, few) == (digits, places)
        });
        let needed = back.is_some_and(|(back, few)| few == 0 || back % 10 != 0);
        self.tally.judge(short && needed, || {
            format!("{digits} of {places} places is written back as {back:?}")
        });

        self.alone(bits);
    }

    /// Of as many digits, the numbers beside the one nearest have other bits.
    fn alone(&mut self, bits: u64) {
        for places in 0..=PLACES {
            let most = 1_000 * 10_u64.pow(places);
            let around = percent::times(bits, places)
                .into_iter()
                .flat_map(|digits| [digits.wrapping_sub(1), digits + 1])
                .filter(|&digits| digits < most);

            for digits in around {
                self.tally
                    .judge(percent::nearest(digits, places) != bits, || {
                        format!(
                            "{bits:016x} is {digits} of {places} places, which is not the nearest"
                        )
                    });
            }
        }
    }

    fn percentages(&mut self, random: u64) {
        for places in 0..=PLACES {
            let most = 1_000 * 10_u64.pow(places) - 1;

            for near in 0..2_000 {
                for digits in [
                    near,
                    100 * 10_u64.pow(places) - 1_000.min(10_u64.pow(places)) + near,
                ] {
                    self.percentage(digits.min(most), places);
                }

                self.percentage(most - near.min(most), places);
            }

            for _ in 0..random / 26 {
                let digits = self.rng.next() % (most + 1);
                self.percentage(digits, places);
                self.percentage(digits / 10, places);
            }
        }

        for _ in 0..random {
            let bits = typed_inputs::any_bits(self.rng);
            self.alone(bits);
        }
    }

    /// Compares what the programs write of a text: the sheet's bytes and the table of them, or the fault's line.
    fn run(&mut self, text: &[u8]) {
        let (sheet, message) = match typed::sheet_of(text) {
            Ok(sheet) => (sheet, Vec::new()),
            Err(fault) => (Vec::new(), typed::message(text, &fault)),
        };

        if self.type_sheet.there() {
            self.type_sheet
                .compare_both(&mut self.tally, text, &sheet, &message);
        }

        if self.typed.there() && (!message.is_empty() || quick(&sheet)) {
            let table = match message.is_empty() {
                true => sheets::text(&sheet::answers(&sheet)),
                false => String::new(),
            };
            self.typed
                .compare_both(&mut self.tally, text, table.as_bytes(), &message);
        }
    }

    /// Compares what the program writes of a sheet that has a text. What it says of others the page leaves open.
    fn run_back(&mut self, sheet: &[u8]) {
        if let (Ok(text), true) = (typed_back::text_of(sheet), self.sheet_text.there()) {
            self.sheet_text
                .compare_both(&mut self.tally, sheet, &text, &[]);
        }
    }

    /// The sheets of part sheets, full ones among them, whose rows are worked; some go through the programs.
    fn worked(&mut self, random: u64, one_in: u32) {
        sheet_inputs::fixed(&mut |sheet| {
            if self.rng.one_in(one_in) {
                self.compare_back(sheet);

                if sheet.len() == FULL {
                    self.there_by_programs(sheet);
                }
            }
        });

        for turn in 0..random {
            let sheet = sheet_inputs::random(self.rng);
            self.compare_back(&sheet);

            if turn % (random / 200).max(1) == 0 {
                self.there_by_programs(&sheet);
            }
        }
    }

    /// Compares the programs on a sheet that has a text, and on that text.
    fn there_by_programs(&mut self, sheet: &[u8]) {
        if let Ok(text) = typed_back::text_of(sheet) {
            self.compare(&text);
            self.run(&text);
            self.run_back(sheet);
        }
    }

    /// A text without a fault, which says what it was made from, and then damaged in one place after another.
    fn random(&mut self, (mut text, sheet): (Vec<u8>, Vec<u8>), program: bool) {
        self.says(&text, &sheet);
        self.compare(&text);

        if program {
            self.run(&text);
        }

        // Full texts are damaged less often, as each takes longer.
        let most = if text.len() > 5_000 { 3 } else { 5 };

        for _ in 0..self.rng.upto(most) {
            typed_inputs::damage(self.rng, &mut text);
            self.compare(&text);
        }

        if program {
            self.run(&text);
        }

        let noise = typed_inputs::noise(self.rng);
        self.compare(&noise);

        let sheet = typed_inputs::sheet(self.rng);
        self.compare_back(&sheet);

        if program {
            self.run(&noise);
            self.run_back(&sheet);
        }
    }
}

/// Whether the Rust's generators work a sheet in short time.
fn quick(sheet: &[u8]) -> bool {
    let quick = |q: &Query| {
        q.status() != 0
            || q.method() != Some(Method::Closest)
            || q.missing() < 3
            || q.total_hits() <= SEARCHED
    };

    sheet::queries(sheet)
        .into_iter()
        .flatten()
        .flatten()
        .all(|q| quick(&q))
}

pub fn run(rng: &mut Rng) -> bool {
    let mut part = Part {
        tally: Tally::new("typed"),
        rng,
        type_sheet: Program::new("type_sheet"),
        typed: Program::new("typed"),
        sheet_text: Program::new("sheet_text"),
        by_fault: [0; 15],
        sheets: 0,
        refused: 0,
        percentages: 0,
    };
    let size = Size::new(200_000);

    part.told_by_hand();
    part.percentages(size.random);

    let one_in = size.one_in;
    typed_inputs::fixed(&mut |text| {
        if part.rng.one_in(one_in) {
            part.compare(text);

            if part.rng.one_in(RUN) {
                part.run(text);
            }
        }
    });

    for turn in 0..size.random {
        let text = typed_inputs::text(part.rng);
        // Some hundred texts go through the programs.
        part.random(text, turn % (size.random / 200).max(1) == 0);
    }

    for _ in 0..10 {
        let text = typed_inputs::full_text(part.rng);
        part.random(text, true);
    }

    part.worked(size.random / 20, one_in);

    if !ours::HAS_TYPED {
        println!("typed: the library has no calls for typed sheets: nothing of it was compared");
    }

    for program in [&part.type_sheet, &part.typed, &part.sheet_text] {
        println!("typed: {program}");
    }

    println!(
        "typed: texts without a fault and by their fault {:?}; {} sheets, {} of them without a text; {} percentages",
        part.by_fault, part.sheets, part.refused, part.percentages
    );
    part.tally.finish()
}
