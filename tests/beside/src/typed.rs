//! A reader of typed sheets, written from the page "A typed sheet" alone: the bytes of the sheet that a text
//! says, or its first fault and how that is told.

use crate::{
    percent,
    sheet::{CHARTS, HOLDS_GIVEN, HOLDS_PASSED, QUERIES, ROW, Row},
};

/// The most bytes of a word that are shown.
pub const SHOWN: usize = 40;

/// A text's first fault.
#[derive(Clone, Copy, Debug, PartialEq, Eq)]
pub struct Fault {
    /// Counted from 1.
    pub line: u64,
    pub number: u32,
    /// Where the word starts in the text, counted from 0.
    pub start: usize,
    pub len: usize,
}

/// A fault's number and the place of its word among the words of its line.
type InLine = (u32, usize);

/// A word and where it starts in the text.
#[derive(Clone, Copy)]
struct Word<'a> {
    start: usize,
    typed: &'a [u8],
}

impl Word<'_> {
    /// "A to Z are read as a to z."
    fn is(&self, name: &str) -> bool {
        self.typed.eq_ignore_ascii_case(name.as_bytes())
    }

    fn place(&self, names: &[&str]) -> Option<usize> {
        names.iter().position(|name| self.is(name))
    }
}

/// What a line says.
enum Line {
    Chart([u32; 2]),
    Weights([u32; 5]),
    Play(Row),
}

/// The words of a line of which `next` is still to be read.
struct Words<'a> {
    words: Vec<Word<'a>>,
    next: usize,
}

impl<'a> Words<'a> {
    /// Of a line from its first byte to its LF, both included; `start` is where it starts in the text.
    fn of(line: &'a [u8], start: usize) -> Self {
        let line = line.strip_suffix(b"\n").unwrap_or(line);
        let line = line.strip_suffix(b"\r").unwrap_or(line);
        let remark = line.iter().position(|&byte| byte == b'#');
        let said = &line[..remark.unwrap_or(line.len())];

        let mut words = Vec::new();
        let mut at = 0;

        for typed in said.split(|byte| matches!(byte, b' ' | b'\t')) {
            if !typed.is_empty() {
                words.push(Word {
                    start: start + at,
                    typed,
                });
            }

            at += typed.len() + 1;
        }

        Self { words, next: 0 }
    }

    fn next(&mut self) -> Option<Word<'a>> {
        let word = self.words.get(self.next).copied();
        self.next += usize::from(word.is_some());
        word
    }

    /// The word that was read last has this fault.
    fn fault<T>(&self, number: u32) -> Result<T, InLine> {
        Err((number, self.next - 1))
    }

    /// The next word, where one has to stand. If none does, all words were read and the last is told.
    fn value(&mut self) -> Result<Word<'a>, InLine> {
        match self.next() {
            Some(word) => Ok(word),
            None => self.fault(5),
        }
    }

    fn whole(&mut self) -> Result<u32, InLine> {
        match whole(self.value()?.typed) {
            Ok(n) => Ok(n),
            Err(number) => self.fault(number),
        }
    }

    /// So many whole numbers, and nothing behind them.
    fn numbers<const N: usize>(&mut self) -> Result<[u32; N], InLine> {
        let mut numbers = [0; N];

        for number in &mut numbers {
            *number = self.whole()?;
        }

        match self.next() {
            Some(_) => self.fault(2),
            None => Ok(numbers),
        }
    }

    /// What the line says, if it has a word.
    fn line(&mut self) -> Result<Option<Line>, InLine> {
        let Some(first) = self.next() else {
            return Ok(None);
        };

        Ok(Some(match first.place(&["chart", "weights", "play"]) {
            Some(0) => Line::Chart(self.numbers()?),
            Some(1) => Line::Weights(self.numbers()?),
            Some(_) => Line::Play(self.play()?),
            None => return self.fault(1),
        }))
    }

    /// What stands behind `play`.
    fn play(&mut self) -> Result<Row, InLine> {
        let mut row = [0; ROW];

        match u16::try_from(self.whole()?) {
            Ok(chart) => row[..2].copy_from_slice(&chart.to_le_bytes()),
            Err(_) => return self.fault(11),
        }

        match self
            .value()?
            .place(&["ignore", "fast", "closest", "nearest"])
        {
            Some(method) => row[2] = method as u8,
            None => return self.fault(10),
        }

        let mut typed = Vec::new();

        while let Some(word) = self.next() {
            let Some(option) = OPTIONS.iter().find(|option| word.is(option.0)) else {
                return self.fault(3);
            };

            let &(name, kind, ref says) = option;

            if typed.contains(&kind) {
                return self.fault(4);
            }

            typed.push(kind);
            self.option(name, says, &mut row)?;
        }

        Ok(row)
    }

    /// What an option, whose name was read, puts into the row.
    fn option(&mut self, name: &str, says: &Says, row: &mut Row) -> Result<(), InLine> {
        match *says {
            Says::Byte(at, byte) => row[at] = byte,
            Says::Number(at, bit) => {
                row[at..at + 4].copy_from_slice(&self.whole()?.to_le_bytes());
                row[5] |= bit;
            }
            Says::Holds => {
                row[HOLDS_PASSED].copy_from_slice(&self.whole()?.to_le_bytes());
                row[HOLDS_GIVEN] = 1;
            }
            Says::Accuracy => {
                let typed = self.value()?.typed;
                let (bits, number) = match name {
                    "acc" => (percentage(typed), 8),
                    _ => (sixteen_hex_digits(typed), 9),
                };

                match bits {
                    Some(bits) => row[36..44].copy_from_slice(&bits.to_le_bytes()),
                    None => return self.fault(number),
                }

                row[5] |= 64;
            }
        }

        Ok(())
    }
}

/// What an option says in the row's bytes.
enum Says {
    /// This byte at this place, without a value.
    Byte(usize, u8),
    /// A number at this place and its presence bit.
    Number(usize, u8),
    Holds,
    Accuracy,
}

/// The options, each with what it is a kind of: of a kind there is one in a line.
const OPTIONS: [(&str, &str, Says); 13] = [
    ("best", "priority", Says::Byte(3, 0)),
    ("worst", "priority", Says::Byte(3, 1)),
    ("classic", "classic", Says::Byte(4, 1)),
    ("n320", "n320", Says::Number(8, 1)),
    ("n300", "n300", Says::Number(12, 2)),
    ("n200", "n200", Says::Number(16, 4)),
    ("n100", "n100", Says::Number(20, 8)),
    ("n50", "n50", Says::Number(24, 16)),
    ("misses", "misses", Says::Number(28, 32)),
    ("passed", "passed", Says::Number(32, 128)),
    ("holds", "holds", Says::Holds),
    ("acc", "accuracy", Says::Accuracy),
    ("accbits", "accuracy", Says::Accuracy),
];

/// A whole number, or the fault that is met first from the left, 6 or 7.
fn whole(typed: &[u8]) -> Result<u32, u32> {
    let mut n = 0;

    for byte in typed {
        if !byte.is_ascii_digit() {
            return Err(6);
        }

        n = 10 * n + u64::from(byte - b'0');

        if n > 4_294_967_295 {
            return Err(7);
        }
    }

    Ok(n as u32)
}

/// A number of these digits alone, which are few enough.
fn number(digits: &[u8]) -> Option<u64> {
    let digit = |byte: &u8| byte.is_ascii_digit().then(|| u64::from(byte - b'0'));

    digits
        .iter()
        .try_fold(0, |n, byte| Some(10 * n + digit(byte)?))
}

/// The bits of a percentage's f64.
fn percentage(typed: &[u8]) -> Option<u64> {
    let mut parts = typed.splitn(2, |&byte| byte == b'.');
    let before = parts.next()?;
    let behind = parts.next().unwrap_or_default();

    if before.is_empty() || behind.len() > percent::PLACES as usize {
        return None;
    }

    let zeros = before.iter().take_while(|&&byte| byte == b'0').count();
    let before = &before[zeros..];

    if before.len() > 3 {
        return None;
    }

    let digits = number(&[before, behind].concat())?;
    Some(percent::nearest(digits, behind.len() as u32))
}

/// The bits that these digits are.
fn sixteen_hex_digits(typed: &[u8]) -> Option<u64> {
    let digit = |&byte: &u8| char::from(byte).to_digit(16).map(u64::from);

    if typed.len() != 16 {
        return None;
    }

    typed
        .iter()
        .try_fold(0, |bits, byte| Some(bits << 4 | digit(byte)?))
}

/// The sheet's bytes, or the text's first fault.
pub fn sheet_of(text: &[u8]) -> Result<Vec<u8>, Fault> {
    let mut charts = Vec::new();
    let mut weights = Vec::new();
    let mut plays = Vec::new();
    let mut start = 0;

    for (before, bytes) in text.split_inclusive(|&byte| byte == b'\n').enumerate() {
        let mut words = Words::of(bytes, start);
        start += bytes.len();

        // A line that is itself without a fault may still be one too many; its first word is told.
        let judged = words.line().and_then(|said| match said {
            Some(Line::Chart(_)) if charts.len() == CHARTS => Err((12, 0)),
            Some(Line::Weights(_)) if weights.len() == 1 => Err((13, 0)),
            Some(Line::Play(_)) if plays.len() == QUERIES => Err((14, 0)),
            said => Ok(said),
        });

        let said = judged.map_err(|(number, place)| Fault {
            line: before as u64 + 1,
            number,
            start: words.words[place].start,
            len: words.words[place].typed.len(),
        })?;

        match said {
            Some(Line::Chart(numbers)) => charts.push(numbers),
            Some(Line::Weights(numbers)) => weights.push(numbers),
            Some(Line::Play(row)) => plays.push(row),
            None => {}
        }
    }

    let count = |len: usize| (len as u32).to_le_bytes();
    let bytes = |numbers: &[u32]| numbers.iter().flat_map(|n| n.to_le_bytes()).collect();

    let sections: [Vec<u8>; 3] = [
        bytes(charts.as_flattened()),
        bytes(weights.as_flattened()),
        plays.as_flattened().to_vec(),
    ];
    let counts = [charts.len(), weights.len(), plays.len()].map(count);

    let mut sheet = Vec::new();

    for (count, section) in counts.into_iter().zip(sections) {
        sheet.extend(count);
        sheet.extend(section);
    }

    Ok(sheet)
}

/// The word of a fault as it is shown.
fn shown(word: &[u8]) -> Vec<u8> {
    let visible = |&byte: &u8| {
        if (33..=126).contains(&byte) {
            byte
        } else {
            b'?'
        }
    };
    let mut shown: Vec<_> = word.iter().take(SHOWN).map(visible).collect();

    if word.len() > SHOWN {
        shown.extend(b"..");
    }

    shown
}

/// How a text's fault is told.
pub fn message(text: &[u8], fault: &Fault) -> Vec<u8> {
    let told = match fault.number {
        1 => "WORD begins no line",
        2 => "WORD is one too many",
        3 => "WORD is no option",
        4 => "WORD is given twice",
        5 => "a value is missing after WORD",
        6 => "WORD is no whole number",
        7 | 11 => "WORD is too large",
        8 => "WORD is no percentage",
        9 => "WORD is not sixteen hex digits",
        10 => "WORD is no method",
        12..=14 => "WORD is one line too many",
        number => unreachable!("no line has the fault {number}"),
    };

    let (before, behind) = told.split_once("WORD").unwrap();
    let line = format!("line {}: {before}", fault.line);
    let word = &text[fault.start..fault.start + fault.len];

    [line.as_bytes(), &shown(word), behind.as_bytes(), b"\n"].concat()
}
