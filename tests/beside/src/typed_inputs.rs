//! Texts of typed sheets: a fixed list at the limits and of every keyword, random ones from the grammar with the
//! sheets that they say, and damaged ones; and sheets to be written as text.

use crate::{
    inputs::{INSIDE, OUTSIDE, Rng},
    own_sheets,
    percent::PLACES,
    query::{ACC, NAMES, Query, Weights},
    sheet::{self, CHARTS, Chart, HOLDS_GIVEN, QUERIES, ROW, Row},
    typed::SHOWN,
    typed_told::PAGE_PRINTED,
};

const STARTS: [&str; 3] = ["chart", "weights", "play"];
const METHODS: [&str; 4] = ["ignore", "fast", "closest", "nearest"];
#[rustfmt::skip]
const OPTIONS: [&str; 13] = [
    "best", "worst", "classic", "n320", "n300", "n200", "n100", "n50", "misses", "passed", "holds", "acc",
    "accbits",
];

/// A text with every keyword, of which every byte is changed.
const EVERY_KEYWORD: &str = "weights 61 60 40 20 10\r
chart 1204 312 # Friday's hall
play 0 nearest n320 0 n300 0 acc 100
\tplay 1 CLOSEST classic worst misses 12 passed 800 holds 200 acc 97.53

play 65535 fast best n50 4294967295 n100 1 n200 2
play 0 ignore accbits 3fef35A858793dd9";

/// Whole numbers and what is none, at all limits.
#[rustfmt::skip]
const NUMBERS: [&str; 47] = [
    "0", "00", "1", "9", "10", "255", "256", "65534", "65535", "65536", "065535", "065536", "131071", "100000",
    "100001", "1000000", "1000001", "2147483647", "2147483648", "4294967294", "4294967295", "4294967296",
    "4294967299", "4294967300", "4295032831", "5000000000", "9999999999", "04294967295", "04294967296",
    "00000000000000000000000000000000000000000000000000000000000000000007", "10000000000", "18446744073709551615",
    "18446744073709551616", "18446744073709551617", "340282366920938463463374607431768211456",
    "99999999999999999999999999999999999999999999999999999999999", "-1", "+1", "1.0", "1,000", "1e3", "0x10",
    "4294967295x", "4294967296x", "429496729x6", "x4294967296", "1_0",
];

/// Percentages and what is none, at all limits.
#[rustfmt::skip]
const PERCENTAGES: [&str; 69] = [
    "0", "00", "0.", "0.0", "00.000000000000", "1", "10", "50", "97.53", "99", "99.9", "99.999999999999", "100",
    "100.", "100.0", "100.000000000000", "100.000000000001", "0100", "0000000000000000000000000000000100.5",
    "100.0000000000000", "100.0000000000001", "998.999999999999", "999", "999.", "999.999999999999", "0999",
    "999.9999999999999", "1000", "1000.", "1000.0", "01000", "9999", "0.1", "0.01", "0.001", "0.000000000001",
    "0.00000000001", "0.0000000000001", "0.0000000000000", "0.006103515625", "0.0030517578125", "0.01220703125",
    "33.333333333333", "66.666666666667", "33.3333333333333", "4294967295", "4294967296", "18446744073709551616",
    "18446744073709551716", "36893488147419103232.5", ".", ".5", "..", "5..", "5.5.5", "5.5.", "-0", "-5", "+5",
    "5%", "5,5", "5e1", "0x5", "nan", "inf", "5.x", "x.5", "5.123456789012x", "1000000000000000000000.5",
];

/// Bits and what is none.
#[rustfmt::skip]
const BITS: [&str; 26] = [
    "3ff0000000000000", "3FF0000000000000", "3fF0000000000000", "0000000000000000", "8000000000000000",
    "ffffffffffffffff", "FFFFFFFFFFFFFFFF", "0123456789abcdef", "0123456789ABCDEF", "7ff0000000000000",
    "7ff8000000000000", "0000000000000001", "3ff000000000000", "3ff00000000000000", "03ff0000000000000",
    "00000000000000003ff0000000000000", "0x3ff0000000000000", "0x3ff00000000000", "3ff000000000000g",
    "g3ff000000000000", "3ff0000/00000000", "3ff0000:00000000", "3ff0000@00000000", "3ff0000`00000000", "1.0", "0",
];

/// Bytes that part words, or look as if they did, and others that come up in words.
const BYTES: [u8; 30] = *b" \t\n\r#,.;:-+%019aAfFgGzZ\0\x0B\x0C\x7F\x80\xFF@";

/// The value that an option takes, if it takes one.
fn value(option: &str) -> &'static str {
    match option {
        "best" | "worst" | "classic" => "",
        "acc" => "97.53",
        "accbits" => "3fef35a858793dd9",
        _ => "12",
    }
}

/// The texts that every run takes.
pub fn fixed(visit: &mut dyn FnMut(&[u8])) {
    page(visit);
    values(visit);
    keywords(visit);
    options(visit);
    lengths(visit);
    many(visit);
    every_byte(EVERY_KEYWORD.as_bytes(), visit);
    every_byte(b"chart 1 2\nweights 5 4 3 2 1\nplay 0 fast n50 7\n", visit);

    // Every text of up to four of these bytes, and every byte alone and doubled.
    let mut texts = vec![Vec::new()];

    for _ in 0..4 {
        texts = texts
            .iter()
            .flat_map(|text: &Vec<u8>| b"\r\n# \tx".map(|byte| [text.as_slice(), &[byte]].concat()))
            .collect();
        texts.iter().for_each(|text| visit(text));
        texts
            .iter()
            .for_each(|text| visit(&[b"chart 1 2", text.as_slice()].concat()));
    }

    for byte in 0..=u8::MAX {
        visit(&[byte]);
        visit(&[byte, byte]);
        visit(&[byte, b'\n', byte, b'\n']);
    }
}

/// The page's examples, whole, printed and by line, and its message's.
fn page(visit: &mut dyn FnMut(&[u8])) {
    visit(PAGE_PRINTED.as_bytes());

    for line in PAGE_PRINTED.lines() {
        let shown = &line[..line.len().min(39)];

        for end in ["", "\n", "\r\n", "\r", "\n\n"] {
            visit(format!("{line}{end}").as_bytes());
            visit(format!("{shown}{end}").as_bytes());
        }
    }

    visit(b"\n\nplay 0 nearest n300 1 n300 2");
}

/// Every number, percentage and word of bits where each value stands.
fn values(visit: &mut dyn FnMut(&[u8])) {
    for words in [
        "chart 1 2",
        "weights 5 4 3 2 1",
        "play 0 nearest",
        "play 0 nearest n320 1 n300 1 n200 1 n100 1 n50 1 misses 1 passed 1 holds 1 acc 1",
        "play 0 nearest accbits 3fef35a858793dd9",
    ] {
        let words: Vec<_> = words.split(' ').collect();

        for place in 0..words.len() {
            for value in NUMBERS.iter().chain(&PERCENTAGES).chain(&BITS) {
                let mut words = words.clone();
                words[place] = value;
                visit(words.join(" ").as_bytes());
                words.truncate(place + 1);
                visit(words.join(" ").as_bytes());
            }
        }
    }
}

/// Every keyword in every place, whole, with a letter changed, cut, doubled or in capitals.
fn keywords(visit: &mut dyn FnMut(&[u8])) {
    for name in STARTS.iter().chain(&METHODS).chain(&OPTIONS) {
        let name = name.as_bytes();
        let mut words = vec![name.to_vec(), name.repeat(2), name.to_ascii_uppercase()];

        for at in 0..name.len() {
            let (before, behind) = (&name[..at], &name[at + 1..]);
            let letter = name[at];
            words.push(before.to_vec());
            words.push(name[at..].to_vec());
            words.push([before, behind].concat());
            words.push([before, &[letter, letter], behind].concat());
            words.push([before, &[letter.to_ascii_uppercase()], behind].concat());

            // Among these what differs from the letter in the bit of capitals.
            for other in [
                letter ^ 0x20,
                letter + 1,
                letter - 1,
                letter | 0x80,
                letter & 0x1F,
                b'?',
                b',',
                0,
            ] {
                words.push([before, &[other], behind].concat());
            }

            for more in [b',', b'\r', b'#', b'\t', b'0', b's', 0, 0xA0] {
                words.push([before, &[more], &name[at..]].concat());
            }
        }

        for more in [b",", b"\r", b"#", b"s", b"0", b":", b"=", b"\0"] {
            words.push([name, more].concat());
            words.push([more, name].concat());
        }

        for word in words {
            for (before, behind) in [
                ("", ""),
                ("", " 1 2"),
                ("", " 5 4 3 2 1"),
                ("", " 0 nearest acc 50"),
                ("chart ", " 2"),
                ("chart 1 2 ", ""),
                ("play ", " fast"),
                ("play 0 ", ""),
                ("play 0 ", " n50 1"),
                ("play 0 fast ", ""),
                ("play 0 fast ", " 12"),
                ("play 0 fast ", " 3fef35a858793dd9 n320 7"),
                ("play 0 fast n50 ", " 12"),
                ("play 0 fast acc ", ""),
            ] {
                visit(&[before.as_bytes(), &word, behind.as_bytes()].concat());
            }
        }
    }
}

/// Every two options, and three of them, with their values and without the last; all of them in their order and
/// turned round.
fn options(visit: &mut dyn FnMut(&[u8])) {
    let typed = |name: &str| format!(" {name} {}", value(name));

    for first in OPTIONS {
        for second in OPTIONS {
            let line = format!("play 0 fast{}", typed(first));
            visit(format!("{line} {second}").as_bytes());
            visit(format!("{line}{}", typed(second)).as_bytes());
            visit(format!("{line}{}", typed(&second.to_ascii_uppercase())).as_bytes());

            for third in OPTIONS {
                visit(format!("{line}{}{}", typed(second), typed(third)).as_bytes());
            }
        }
    }

    for left_out in ["best", "worst"]
        .iter()
        .flat_map(|&p| [[p, "acc"], [p, "accbits"]])
    {
        let mut all: Vec<_> = OPTIONS
            .into_iter()
            .filter(|name| !left_out.contains(name))
            .map(typed)
            .collect();
        visit(format!("play 0 fast{}", all.concat()).as_bytes());
        all.reverse();
        visit(format!("play 0 fast{}", all.concat()).as_bytes());
    }
}

/// Words of every length around what is shown, for each fault that shows one, of plain bytes and others.
fn lengths(visit: &mut dyn FnMut(&[u8])) {
    for len in (1..=SHOWN + 5).chain([100, 255, 256, 1_000, 70_000]) {
        for byte in [b'x', b'9', b'0', b'!', b'~', 0x7F, 0xE9, 1] {
            let word = vec![byte; len];

            for before in [
                "",
                "\n\n",
                "chart ",
                "chart 1 2 ",
                "play ",
                "play 0 ",
                "play 0 fast ",
                "play 0 fast n50 ",
                "play 0 fast acc ",
                "play 0 fast accbits ",
            ] {
                visit(&[before.as_bytes(), &word].concat());
            }
        }
    }
}

/// As many lines of each kind as allowed, and more; faults in the lines too many.
fn many(visit: &mut dyn FnMut(&[u8])) {
    let kinds = [
        ("chart 1 2", "chart 1", CHARTS),
        ("weights 5 4 3 2 1", "weights 5 4 3 2 1 x", 1),
        ("play 0 fast", "play 0 fast n50", QUERIES),
    ];

    for (good, bad, most) in kinds {
        for end in ["\n", "\r\n", "\n\n", " # so\n"] {
            let full = format!("{good}{end}").repeat(most);

            for last in [
                "",
                good,
                bad,
                &good.to_ascii_uppercase(),
                "x",
                "#",
                "\n",
                "\r",
                " ",
            ] {
                for behind in [
                    "",
                    "\n",
                    "\nx",
                    "\nchart 1 2\n",
                    "\nweights 1 2 3 4 5\n",
                    "\nplay 1 fast\n",
                ] {
                    visit(format!("{full}{last}{behind}").as_bytes());
                    visit(format!("\n{last}\n{full}{behind}").as_bytes());
                }
            }

            visit(format!("{good}{end}").repeat(2 * most + 3).as_bytes());
            visit(&full.as_bytes()[..full.len() - 1]);
        }
    }

    // Full in all kinds, in several orders, with one line more of each.
    let [charts, weights, plays] = kinds.map(|(good, _, most)| format!("{good}\n").repeat(most));

    for full in [
        format!("{charts}{weights}{plays}"),
        format!("{plays}{weights}{charts}"),
        format!("{weights}{plays}{charts}"),
    ] {
        visit(full.as_bytes());
        kinds.iter().for_each(|(good, bad, _)| {
            visit(format!("{full}{good}").as_bytes());
            visit(format!("{full}{bad}").as_bytes());
        });
    }

    // Lines whose number has more digits.
    for lines in [8, 9, 98, 99, 998, 999, 9_999, 99_999] {
        visit(format!("{}x", "\n".repeat(lines)).as_bytes());
        visit(format!("{}play 0", "#\r\n".repeat(lines)).as_bytes());
    }
}

/// A text with each byte left out, doubled, changed to any other and with any other put before it, and cut at
/// each byte.
fn every_byte(text: &[u8], visit: &mut dyn FnMut(&[u8])) {
    for at in 0..=text.len() {
        let (before, behind) = text.split_at(at);
        visit(before);
        visit(behind);

        for byte in 0..=u8::MAX {
            visit(&[before, &[byte], behind].concat());

            if let [_, behind @ ..] = behind {
                visit(&[before, &[byte], behind].concat());
            }
        }

        if let [first, behind @ ..] = behind {
            visit(&[before, behind].concat());
            visit(&[before, &[*first, *first], behind].concat());
        }
    }
}

/// A number up to the largest, often at a limit.
fn any_number(rng: &mut Rng) -> u32 {
    match rng.upto(7) {
        0 => rng.pick(&[
            0,
            1,
            u32::MAX,
            u32::MAX - 1,
            1 << 31,
            65_535,
            65_536,
            1_000_000,
            1_000_001,
        ]),
        1 => rng.next() as u32 >> rng.upto(31),
        2 => 10_u32.pow(rng.upto(9)) - rng.upto(1),
        3 => rng.next() as u32,
        _ => rng.upto(1_300),
    }
}

/// The digits of a percentage and how many of them stand behind the point.
fn any_percentage(rng: &mut Rng) -> (u64, u32) {
    let places = rng.upto(PLACES);
    let unit = 10_u64.pow(places);
    let before = rng.pick(&[0, 9, 99, 99, 100, 999]);
    let before = u64::from(rng.upto(before));
    let behind = match rng.upto(5) {
        0 => 0,
        1 => unit - 1,
        2 => 1 % unit,
        3 => 5 * unit / 10,
        _ => rng.next() % unit,
    };

    (before * unit + behind, places)
}

/// The f64 of a percentage as the standard library reads decimals.
pub fn parsed(digits: u64, places: u32) -> f64 {
    format!("{digits}e-{}", places + 2).parse().unwrap()
}

/// The bits of an f64: a percentage's or one beside it, at the limits, or any.
pub fn any_bits(rng: &mut Rng) -> u64 {
    let (digits, places) = any_percentage(rng);
    let bits = parsed(digits, places).to_bits();

    match rng.upto(9) {
        0 => rng.pick(&INSIDE).to_bits(),
        1 => rng.pick(&OUTSIDE).to_bits(),
        2 => rng.next(),
        3 => (rng.next() >> 11 | 1 << 52) >> rng.upto(52),
        // From 2^-16 to 16, where the percentages lie.
        4 => (1_023 - 16 + u64::from(rng.upto(19))) << 52 | rng.next() >> 12,
        5 => bits + 1,
        6 => bits.saturating_sub(1),
        _ => bits,
    }
}

/// How a text is typed, beyond what it says.
struct Typist<'a> {
    rng: &'a mut Rng,
    text: Vec<u8>,
}

impl Typist<'_> {
    /// Spaces and tabs, at least so many.
    fn blanks(&mut self, least: u32) {
        let more = if self.rng.one_in(8) {
            self.rng.upto(3)
        } else {
            0
        };

        for _ in 0..least + more {
            let blank = if self.rng.one_in(6) { b'\t' } else { b' ' };
            self.text.push(blank);
        }
    }

    /// A word, its letters small or not.
    fn word(&mut self, word: &str) {
        let start = self.text.len();
        self.text.extend(word.bytes());

        match self.rng.upto(15) {
            0 => self.text[start..].make_ascii_uppercase(),
            1 => {
                for byte in &mut self.text[start..] {
                    if self.rng.one_in(2) {
                        byte.make_ascii_uppercase();
                    }
                }
            }
            _ => {}
        }
    }

    /// A word behind others.
    fn next(&mut self, word: &str) {
        self.blanks(1);
        self.word(word);
    }

    /// Zeros in front of what follows.
    fn zeros(&mut self) -> String {
        if self.rng.one_in(16) {
            "0".repeat(self.rng.upto(45) as usize)
        } else {
            String::new()
        }
    }

    fn number(&mut self, n: impl Into<u64>) {
        let zeros = self.zeros();
        self.next(&format!("{zeros}{}", n.into()));
    }

    fn acc(&mut self, digits: u64, places: u32) {
        let unit = 10_u64.pow(places);
        let zeros = self.zeros();
        let mut word = format!("{zeros}{}", digits / unit);

        if places > 0 {
            word += &format!(".{:0width$}", digits % unit, width = places as usize);
        } else if self.rng.one_in(8) {
            word.push('.');
        }

        self.next(&word);
    }

    /// The end of a line: blanks, a remark, CR, LF.
    fn end(&mut self) {
        self.blanks(0);

        if self.rng.one_in(8) {
            self.text.push(b'#');

            for _ in 0..self.rng.upto(8) {
                let byte = self.rng.next() as u8;
                self.text.push(if byte == b'\n' { b'#' } else { byte });
            }
        }

        if self.rng.one_in(4) {
            self.text.push(b'\r');
        }

        self.text.push(b'\n');
    }

    /// The line of a row, whose options come in any order.
    fn play(&mut self, index: u16, q: &Query, percentage: Option<(u64, u32)>) {
        self.word("play");
        self.number(index);
        self.next(METHODS[usize::from(q.method)]);

        let mut options: Vec<_> = (0..11).collect();

        for i in (1..options.len()).rev() {
            options.swap(i, self.rng.upto(i as u32) as usize);
        }

        for option in options {
            match option {
                0..=4 => {
                    if let Some(n) = q.given()[option] {
                        self.next(NAMES[option]);
                        self.number(n);
                    }
                }
                5..=7 => {
                    let (name, given) = [
                        ("misses", q.given_misses()),
                        ("passed", q.given_passed()),
                        ("holds", q.holds_passed),
                    ][option - 5];

                    if let Some(n) = given {
                        self.next(name);
                        self.number(n);
                    }
                }
                8 if q.priority == 1 => self.next("worst"),
                8 if self.rng.one_in(4) => self.next("best"),
                9 if q.classic => self.next("classic"),
                10 if q.has(ACC) => match percentage {
                    Some((digits, places)) => {
                        self.next("acc");
                        self.acc(digits, places);
                    }
                    None => {
                        self.next("accbits");
                        self.next(&format!("{:016x}", q.acc.to_bits()));
                    }
                },
                _ => {}
            }
        }

        self.end();
    }
}

/// How many charts, own weights and rows.
fn sizes(rng: &mut Rng) -> [usize; 3] {
    let weights = rng.upto(1) as usize;

    match rng.upto(2_999) {
        0 => [CHARTS, weights, QUERIES],
        1 => [
            rng.upto(CHARTS as u32) as usize,
            weights,
            rng.upto(QUERIES as u32) as usize,
        ],
        _ => [rng.upto(2) as usize, weights, rng.upto(3) as usize],
    }
}

/// Any five numbers; half of them may be set as own weights.
fn any_weights(rng: &mut Rng) -> Weights {
    if rng.one_in(2) {
        own_sheets::weights(rng)
    } else {
        std::array::from_fn(|_| any_number(rng))
    }
}

/// A random query that has a text, with a percentage if its accuracy is one.
fn any_query(rng: &mut Rng) -> (Query, Option<(u64, u32)>) {
    let percentage = rng.one_in(2).then(|| any_percentage(rng));
    let bits = any_bits(rng);
    let few = if rng.one_in(2) {
        rng.next() as u8
    } else {
        u8::MAX
    };

    let q = Query {
        method: rng.upto(3) as u8,
        priority: rng.upto(1) as u8,
        classic: rng.one_in(2),
        presence: rng.next() as u8 & few,
        counts: std::array::from_fn(|_| any_number(rng)),
        misses: any_number(rng),
        passed: any_number(rng),
        acc: percentage.map_or(f64::from_bits(bits), |(digits, places)| {
            parsed(digits, places)
        }),
        holds_passed: rng.one_in(3).then(|| any_number(rng)),
        ..Query::default()
    };

    (q, percentage)
}

fn any_index(rng: &mut Rng) -> u16 {
    if rng.one_in(8) {
        rng.pick(&[255, 256, 9_999, 10_000, 32_768, 65_534, 65_535])
    } else {
        rng.upto(3) as u16
    }
}

/// A random text without a fault, and the bytes of the sheet that it says.
pub fn text(rng: &mut Rng) -> (Vec<u8>, Vec<u8>) {
    let sizes = sizes(rng);
    text_of_size(rng, sizes)
}

/// The same with as many lines as allowed.
pub fn full_text(rng: &mut Rng) -> (Vec<u8>, Vec<u8>) {
    text_of_size(rng, [CHARTS, 1, QUERIES])
}

fn text_of_size(rng: &mut Rng, sizes: [usize; 3]) -> (Vec<u8>, Vec<u8>) {
    let [n_charts, n_weights, n_rows] = sizes;
    let mut lines: Vec<_> = [(0, n_charts), (1, n_weights), (2, n_rows)]
        .into_iter()
        .flat_map(|(kind, lines)| vec![kind; lines])
        .collect();
    lines.extend(vec![3; rng.upto(2) as usize]);

    for i in (1..lines.len()).rev() {
        lines.swap(i, rng.upto(i as u32) as usize);
    }

    let mut charts: Vec<Chart> = Vec::new();
    let mut own = None;
    let mut rows = Vec::new();
    let mut typist = Typist {
        rng,
        text: Vec::new(),
    };

    for kind in lines {
        typist.blanks(0);

        match kind {
            0 => {
                let chart = (any_number(typist.rng), any_number(typist.rng));
                typist.word("chart");
                typist.number(chart.0);
                typist.number(chart.1);
                typist.end();
                charts.push(chart);
            }
            1 => {
                let weights = any_weights(typist.rng);
                typist.word("weights");
                weights.into_iter().for_each(|weight| typist.number(weight));
                typist.end();
                own = Some(weights);
            }
            2 => {
                let index = any_index(typist.rng);
                let (q, percentage) = any_query(typist.rng);
                typist.play(index, &q, percentage);
                rows.push(sheet::row(index.into(), &q));
            }
            _ => typist.end(),
        }
    }

    let mut text = typist.text;

    // The last line may end where the text does; before it is a line's end, CR or not.
    if rng.one_in(4) {
        text.pop();
    }

    (text, sheet::weighted(&charts, own, &rows))
}

/// The words and blanks of a text, in turn.
fn pieces(text: &[u8]) -> Vec<&[u8]> {
    text.chunk_by(|x, y| x.is_ascii_whitespace() == y.is_ascii_whitespace())
        .collect()
}

/// Damages a text in one place.
pub fn damage(rng: &mut Rng, text: &mut Vec<u8>) {
    let at = rng.upto(text.len() as u32) as usize;
    let byte = if rng.one_in(2) {
        rng.pick(&BYTES)
    } else {
        rng.next() as u8
    };

    match rng.upto(15) {
        0 | 1 => text.insert(at, byte),
        2 | 3 if at < text.len() => text[at] = byte,
        4 if at < text.len() => text[at] ^= 1 << rng.upto(7),
        5 | 6 if at < text.len() => drop(text.remove(at)),
        7 => text.truncate(at),
        8 => drop(text.drain(..at)),
        9 => {
            // Some bytes from elsewhere.
            let from = rng.upto(text.len() as u32) as usize;
            let to = (from + 1 + rng.upto(20) as usize).min(text.len());
            let copied = text[from..to].to_vec();
            text.splice(at..at, copied);
        }
        _ => *text = damage_words(rng, text),
    }
}

/// Damages a word: leaves it out, doubles it, swaps it with another, or puts a keyword or value in its place or
/// before it.
fn damage_words(rng: &mut Rng, text: &[u8]) -> Vec<u8> {
    let mut pieces = pieces(text);

    if pieces.is_empty() {
        return text.to_vec();
    }

    let most = pieces.len() as u32 - 1;
    let (one, other) = (rng.upto(most) as usize, rng.upto(most) as usize);
    let word = match rng.upto(5) {
        0 => rng.pick(&STARTS),
        1 => rng.pick(&METHODS),
        2 => rng.pick(&OPTIONS),
        3 => rng.pick(&NUMBERS),
        4 => rng.pick(&PERCENTAGES),
        _ => rng.pick(&BITS),
    };

    match rng.upto(5) {
        0 => drop(pieces.remove(one)),
        1 => pieces.insert(one, pieces[other]),
        2 => pieces.swap(one, other),
        3 => pieces[one] = word.as_bytes(),
        _ => {
            pieces.splice(one..one, [&b" "[..], word.as_bytes(), b" "]);
        }
    }

    pieces.concat()
}

/// Random bytes, any or of those that texts are made of, or random words.
pub fn noise(rng: &mut Rng) -> Vec<u8> {
    let len = rng.upto(40);

    match rng.upto(2) {
        0 => (0..len).map(|_| rng.next() as u8).collect(),
        1 => (0..len)
            .map(|_| rng.pick(b"chartplayweights0123456789 \t\n\r#.,n"))
            .collect(),
        _ => {
            let mut text = Vec::new();

            for _ in 0..len / 2 {
                let word = match rng.upto(9) {
                    0 => "\n",
                    1 | 2 => rng.pick(&STARTS),
                    3 => rng.pick(&METHODS),
                    4..=6 => rng.pick(&OPTIONS),
                    7 => rng.pick(&PERCENTAGES),
                    8 => rng.pick(&BITS),
                    _ => rng.pick(&NUMBERS),
                };
                text.extend(word.bytes());
                text.push(b' ');
            }

            text
        }
    }
}

/// A random sheet for a text: any numbers in its fields. One in four is damaged, in a row or as a whole.
pub fn sheet(rng: &mut Rng) -> Vec<u8> {
    let [n_charts, n_weights, n_rows] = sizes(rng);
    let charts: Vec<_> = (0..n_charts)
        .map(|_| (any_number(rng), any_number(rng)))
        .collect();
    let own = (n_weights == 1).then(|| {
        if rng.one_in(8) {
            any_weights(rng)
        } else {
            own_sheets::weights(rng)
        }
    });
    let damaged = rng.one_in(4);
    let mut rows: Vec<_> = (0..n_rows)
        .map(|_| {
            let index = any_index(rng);
            sheet::row(index.into(), &any_query(rng).0)
        })
        .collect();

    if damaged && !rows.is_empty() {
        for _ in 0..=rng.upto(2) {
            let row = rng.upto(n_rows as u32 - 1) as usize;
            damage_row(rng, &mut rows[row]);
        }
    }

    let mut bytes = sheet::weighted(&charts, own, &rows);

    if damaged && rng.one_in(3) {
        match rng.upto(2) {
            0 => bytes.truncate(rng.upto(bytes.len() as u32) as usize),
            1 => bytes.extend(vec![0; 1 + rng.upto(60) as usize]),
            _ => {
                let at = rng.upto(bytes.len() as u32 - 1) as usize;
                bytes[at] ^= 1 << rng.upto(7);
            }
        }
    }

    bytes
}

/// Breaks what the checks 8 and 9 ask of a row, or nothing: a bit anywhere.
fn damage_row(rng: &mut Rng, row: &mut Row) {
    match rng.upto(5) {
        0 => row[2 + rng.upto(2) as usize] = rng.pick(&[0, 1, 2, 3, 4, 128, 255]),
        1 => row[5] ^= 1 << rng.upto(7),
        2 => row[HOLDS_GIVEN] = rng.pick(&[0, 1, 2, 3, 128, 255]),
        3 => row[7] = rng.pick(&[1, 128, 255]),
        _ => row[rng.upto(ROW as u32 - 1) as usize] ^= 1 << rng.upto(7),
    }
}
