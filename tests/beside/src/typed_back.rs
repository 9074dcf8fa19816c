//! A writer of typed sheets, from the page's section "The way back": the text of a sheet, or the number by which it
//! has none.

use crate::{
    percent,
    query::{NAMES, Weights},
    sheet::{self, CHARTS, HOLDS_GIVEN, HOLDS_PASSED, QUERIES, ROW},
    stride_table,
};

/// Why a sheet has no text.
#[derive(Clone, Copy, Debug, PartialEq, Eq)]
pub enum Refused {
    /// 1, 2, 3, 4 or 18.
    Sheet(u32),
    /// The first such row's index, and 8 or 9.
    Row(u64, u32),
}

impl Refused {
    pub fn number(self) -> u32 {
        match self {
            Self::Sheet(number) | Self::Row(_, number) => number,
        }
    }
}

/// The sections of a sheet, each with as many records as its count says.
struct Sections<'a> {
    charts: &'a [[u8; 8]],
    own: Option<Weights>,
    rows: &'a [[u8; ROW]],
}

/// Takes a count off the sheet.
fn count(sheet: &mut &[u8]) -> Result<usize, Refused> {
    let (count, rest) = sheet.split_first_chunk().ok_or(Refused::Sheet(1))?;
    *sheet = rest;
    Ok(u32::from_le_bytes(*count) as usize)
}

/// Takes so many records of `N` bytes off the sheet.
fn records<'a, const N: usize>(
    sheet: &mut &'a [u8],
    count: usize,
) -> Result<&'a [[u8; N]], Refused> {
    let (records, rest) = sheet.split_at_checked(N * count).ok_or(Refused::Sheet(1))?;
    *sheet = rest;
    Ok(records.as_chunks().0)
}

fn sections(mut sheet: &[u8]) -> Result<Sections<'_>, Refused> {
    let left = &mut sheet;

    let charts = match count(left)? {
        count if count > CHARTS => return Err(Refused::Sheet(2)),
        count => records(left, count)?,
    };
    let own: &[[u8; 20]] = match count(left)? {
        count if count > 1 => return Err(Refused::Sheet(18)),
        count => records(left, count)?,
    };
    let own = own.first().map(numbers);

    if own.is_some_and(|own| !stride_table::legal(&own)) {
        return Err(Refused::Sheet(18));
    }

    let rows = match count(left)? {
        count if count > QUERIES => return Err(Refused::Sheet(3)),
        count => records(left, count)?,
    };

    if left.is_empty() {
        Ok(Sections { charts, own, rows })
    } else {
        Err(Refused::Sheet(4))
    }
}

/// The numbers of a record, from its first byte on.
fn numbers<const N: usize>(record: &[u8; 20]) -> [u32; N] {
    std::array::from_fn(|i| number(record, 4 * i))
}

fn number(record: &[u8], at: usize) -> u32 {
    u32::from_le_bytes(record[at..at + 4].try_into().unwrap())
}

/// 8 or 9, whatever the row's chart is.
fn stopped(row: &[u8; ROW]) -> Option<u32> {
    let nonzero = |&at: &usize| row[at] != 0;
    let missing = sheet::missing(row[5]).flatten();
    let holds = HOLDS_PASSED.filter(|_| row[HOLDS_GIVEN] == 0);

    if row[2] > 3 || row[3] > 1 || row[4] > 1 {
        Some(8)
    } else if row[HOLDS_GIVEN] > 1 || row[7] != 0 || missing.chain(holds).any(|at| nonzero(&at)) {
        Some(9)
    } else {
        None
    }
}

/// The line of a row that neither 8 nor 9 stops.
fn play(row: &[u8; ROW]) -> String {
    let method = ["ignore", "fast", "closest", "nearest"][usize::from(row[2])];
    let chart = u16::from_le_bytes([row[0], row[1]]);
    let mut line = format!("play {chart} {method}");

    for (at, word) in [(3, " worst"), (4, " classic")] {
        if row[at] == 1 {
            line += word;
        }
    }

    let [n320, n300, n200, n100, n50] = NAMES;
    let given = [
        (n320, 1, 8),
        (n300, 2, 12),
        (n200, 4, 16),
        (n100, 8, 20),
        (n50, 16, 24),
        ("misses", 32, 28),
        ("passed", 128, 32),
    ];

    for (name, bit, at) in given {
        if row[5] & bit != 0 {
            line += &format!(" {name} {}", number(row, at));
        }
    }

    if row[HOLDS_GIVEN] == 1 {
        line += &format!(" holds {}", number(row, HOLDS_PASSED.start));
    }

    if row[5] & 64 != 0 {
        let bits = u64::from_le_bytes(row[36..44].try_into().unwrap());
        line += &match percent::shortest(bits) {
            Some((digits, places)) => format!(" acc {}", percent::written(digits, places)),
            None => format!(" accbits {bits:016x}"),
        };
    }

    line
}

/// The text of a sheet.
pub fn text_of(sheet: &[u8]) -> Result<Vec<u8>, Refused> {
    let Sections { charts, own, rows } = sections(sheet)?;

    for (index, row) in rows.iter().enumerate() {
        if let Some(number) = stopped(row) {
            return Err(Refused::Row(index as u64, number));
        }
    }

    let mut text = String::new();

    for chart in charts {
        text += &format!("chart {} {}\n", number(chart, 0), number(chart, 4));
    }

    if let Some(own) = own {
        text += &format!(
            "weights {}\n",
            own.map(|weight| weight.to_string()).join(" ")
        );
    }

    for row in rows {
        text += &play(row);
        text.push('\n');
    }

    Ok(text.into_bytes())
}
