//! Typed sheets and their answers, and sheets and their texts, told by hand from the page: no program had a
//! part in the numbers here.

use crate::{sheet::ROW, typed::Fault, typed_back::Refused};

/// A text, and its sheet's bytes or its fault with the line that tells it.
pub type Told = (Vec<u8>, Result<Vec<u8>, (Fault, Vec<u8>)>);

/// A sheet's bytes, and its text or why it has none.
pub type ToldBack = (Vec<u8>, Result<Vec<u8>, Refused>);

/// The bytes of a row that are not zero, each run with its place.
type Row<'a> = &'a [(usize, &'a [u8])];

/// f64s as a row has them: 1, 0.5, 0.125, 2, 2 to the -13, -14 and -15.
const ONE: &[u8] = &[0, 0, 0, 0, 0, 0, 0xF0, 0x3F];
const HALF: &[u8] = &[0, 0, 0, 0, 0, 0, 0xE0, 0x3F];
const EIGHTH: &[u8] = &[0, 0, 0, 0, 0, 0, 0xC0, 0x3F];
const TWO: &[u8] = &[0, 0, 0, 0, 0, 0, 0, 0x40];
const DOWN_13: &[u8] = &[0, 0, 0, 0, 0, 0, 0x20, 0x3F];
const DOWN_14: &[u8] = &[0, 0, 0, 0, 0, 0, 0x10, 0x3F];
const DOWN_15: &[u8] = &[0, 0, 0, 0, 0, 0, 0, 0x3F];

/// 0.9753 is 1.9506 / 2, and .9506 in hex is f35a858793dd9|7.., rounded down.
const OF_97_53: &[u8] = &[0xD9, 0x3D, 0x79, 0x58, 0xA8, 0x35, 0xEF, 0x3F];
/// 0.97 is 1.94 / 2, and .94 in hex is f0a3d70a3d70a|3.., rounded down.
const OF_97: &[u8] = &[0x0A, 0xD7, 0xA3, 0x70, 0x3D, 0x0A, 0xEF, 0x3F];
/// 9.99 is 8 times 1.24875, and .24875 in hex is 3fae147ae147a|e.., rounded up.
const OF_999: &[u8] = &[0x7B, 0x14, 0xAE, 0x47, 0xE1, 0xFA, 0x23, 0x40];
/// 0.001 is 1.024 / 1,024, and .024 in hex is 0624dd2f1a9fb|e.., rounded up.
const OF_0_1: &[u8] = &[0xFC, 0xA9, 0xF1, 0xD2, 0x4D, 0x62, 0x50, 0x3F];
/// 0.1 is 1.6 / 16, and .6 in hex is 9999999999999|9.., rounded up.
const OF_10: &[u8] = &[0x9A, 0x99, 0x99, 0x99, 0x99, 0x99, 0xB9, 0x3F];

const PAGE: &str = "# Friday's hall
chart 1204 312
weights 61 60 40 20 10
play 0 nearest n320 0 n300 0 acc 100
play 0 closest classic worst misses 12 passed 800 holds 200 acc 97.53
play 0 nearest accbits 3fef35a858793dd9
";

/// The page's example as it is printed there, what is said behind two of its lines included.
pub const PAGE_PRINTED: &str = "# Friday's hall
chart 1204 312                         objects, holds; charts are numbered from 0 in their order
weights 61 60 40 20 10                 own weights from n320 to n50, at most one such line
play 0 nearest n320 0 n300 0 acc 100
play 0 closest classic worst misses 12 passed 800 holds 200 acc 97.53
play 0 nearest accbits 3fef35a858793dd9
";

/// The text of the page's example.
const PAGE_BACK: &str = "chart 1204 312
weights 61 60 40 20 10
play 0 nearest n320 0 n300 0 acc 100
play 0 closest worst classic misses 12 passed 800 holds 200 acc 97.53
play 0 nearest acc 97.53
";

/// What the rows of the page's example hold: Nearest with n320, n300 and the accuracy, presence 1 + 2 + 64;
/// Closest with misses, passed and the accuracy, 32 + 128 + 64, and the holds passed; Nearest with the
/// accuracy.
const PAGE_ROWS: [Row; 3] = [
    &[(2, &[3]), (5, &[0x43]), (36, ONE)],
    &[
        (2, &[2]),
        (3, &[1]),
        (4, &[1]),
        (5, &[0xE0]),
        (6, &[1]),
        (28, &[12]),
        (32, &[0x20, 0x03]),
        (36, OF_97_53),
        (44, &[200]),
    ],
    &[(2, &[3]), (5, &[0x40]), (36, OF_97_53)],
];

/// A sheet's bytes.
fn sheet(charts: &[[u32; 2]], weights: &[[u32; 5]], rows: &[Row]) -> Vec<u8> {
    let mut bytes = vec![charts.len() as u8, (charts.len() >> 8) as u8, 0, 0];
    bytes.extend(charts.as_flattened().iter().flat_map(|n| n.to_le_bytes()));
    bytes.extend([weights.len() as u8, 0, 0, 0]);
    bytes.extend(weights.as_flattened().iter().flat_map(|n| n.to_le_bytes()));
    bytes.extend([rows.len() as u8, (rows.len() >> 8) as u8, 0, 0]);

    for runs in rows {
        let mut row = [0; ROW];

        for (at, run) in *runs {
            row[*at..at + run.len()].copy_from_slice(run);
        }

        bytes.extend(row);
    }

    bytes
}

/// Accepted texts and their sheets.
fn accepted() -> Vec<(Vec<u8>, Vec<u8>)> {
    let empty = || sheet(&[], &[], &[]);
    let one = || sheet(&[[1, 2]], &[], &[]);
    let row = |runs: Row| sheet(&[], &[], &[runs]);
    let nearest = |acc: &[u8]| row(&[(2, &[3]), (5, &[0x40]), (36, acc)]);

    let texts: Vec<(&[u8], Vec<u8>)> = vec![
        (
            PAGE.as_bytes(),
            sheet(&[[1204, 312]], &[[61, 60, 40, 20, 10]], &PAGE_ROWS),
        ),
        // Lines and words.
        (b"", empty()),
        (b"\n", empty()),
        (b"\r", empty()),
        (b"\r\n\r\n", empty()),
        (b"\n\n# only remarks\n \t \n#", empty()),
        (b"chart 1 2", one()),
        (b"chart 1 2\n", one()),
        (b"chart 1 2\r\n", one()),
        (b"chart 1 2\r", one()),
        (b"chart 1 2 \r\n\r\n", one()),
        (b"\tchart\t1 \t 2\t\n", one()),
        (b"chart 1 2#3", one()),
        (b"chart 1 2 # 3 # 4\r\r\n", one()),
        (b"#chart x\nCHART 001 2#\n", one()),
        (b"ChArT 1 2", one()),
        (
            b"play 1 fast\nweights 5 4 3 2 1\nchart 1 2\nplay 0 ignore\n\nchart 3 4",
            sheet(
                &[[1, 2], [3, 4]],
                &[[5, 4, 3, 2, 1]],
                &[&[(0, &[1]), (2, &[1])], &[]],
            ),
        ),
        // Whole numbers.
        (
            b"chart 4294967295 0",
            sheet(&[[4_294_967_295, 0]], &[], &[]),
        ),
        (
            b"chart 000000000000004294967295 00",
            sheet(&[[4_294_967_295, 0]], &[], &[]),
        ),
        (
            b"weights 0 4294967295 101 7 7",
            sheet(&[], &[[0, 4_294_967_295, 101, 7, 7]], &[]),
        ),
        (b"play 65535 ignore", row(&[(0, &[0xFF, 0xFF])])),
        (b"play 0000065535 ignore", row(&[(0, &[0xFF, 0xFF])])),
        // Options.
        (b"play 0 ignore", row(&[])),
        (b"play 0 ignore best", row(&[])),
        (b"play 0 fast worst", row(&[(2, &[1]), (3, &[1])])),
        (b"Play 0 Closest Classic", row(&[(2, &[2]), (4, &[1])])),
        (b"play 0 ignore holds 0", row(&[(6, &[1])])),
        (
            b"play 0 ignore holds 4294967295",
            row(&[(6, &[1]), (44, &[0xFF; 4])]),
        ),
        (
            b"play 0 ignore n320 0 n300 0 n200 0 n100 0 n50 0 misses 0 passed 0 holds 0 acc 0",
            row(&[(5, &[0xFF, 1])]),
        ),
        (
            b"play 258 nearest acc 50 holds 9 passed 8 misses 7 n50 6 n100 5 n200 4 n300 3 n320 2 worst classic",
            row(&[
                (0, &[2, 1, 3, 1, 1, 0xFF, 1]),
                (8, &[2]),
                (12, &[3]),
                (16, &[4]),
                (20, &[5]),
                (24, &[6]),
                (28, &[7]),
                (32, &[8]),
                (36, HALF),
                (44, &[9]),
            ]),
        ),
        (b"play 0 ignore n200 1", row(&[(5, &[4]), (16, &[1])])),
        (b"play 0 ignore n100 1", row(&[(5, &[8]), (20, &[1])])),
        (b"play 0 ignore n50 1", row(&[(5, &[16]), (24, &[1])])),
        // Percentages.
        (b"play 0 nearest acc 100", nearest(ONE)),
        (b"play 0 nearest acc 00100.000", nearest(ONE)),
        (b"play 0 nearest acc 50.000000000000", nearest(HALF)),
        (b"play 0 nearest acc 12.5", nearest(EIGHTH)),
        (b"play 0 nearest acc 97.", nearest(OF_97)),
        (b"play 0 nearest acc 97.53", nearest(OF_97_53)),
        (b"play 0 nearest acc 0.1", nearest(OF_0_1)),
        (b"play 0 nearest acc 10", nearest(OF_10)),
        (b"play 0 nearest acc 200", nearest(TWO)),
        (b"play 0 nearest acc 0999.", nearest(OF_999)),
        (b"play 0 nearest acc 0.01220703125", nearest(DOWN_13)),
        (b"play 0 nearest acc 0.006103515625", nearest(DOWN_14)),
        (b"play 0 nearest acc 000.000", nearest(&[0])),
        // Bits.
        (
            b"PLAY 0 NEAREST ACCBITS 3FEF35A858793DD9",
            nearest(OF_97_53),
        ),
        (b"play 0 nearest accbits 3ff0000000000000", nearest(ONE)),
        (b"play 0 nearest accbits 0000000000000000", nearest(&[0])),
        (
            b"play 0 nearest accbits 0123456789aBcDeF",
            nearest(&[0xEF, 0xCD, 0xAB, 0x89, 0x67, 0x45, 0x23, 0x01]),
        ),
        (
            b"play 0 nearest accbits fff8000000000001",
            nearest(&[1, 0, 0, 0, 0, 0, 0xF8, 0xFF]),
        ),
    ];

    let mut told: Vec<_> = texts
        .into_iter()
        .map(|(text, sheet)| (text.to_vec(), sheet))
        .collect();
    told.push((b"chart 1 2\n".repeat(256), sheet(&[[1, 2]; 256], &[], &[])));
    let fast: Row = &[(0, &[3]), (2, &[1])];
    told.push((
        b"play 3 fast\n".repeat(1_024),
        sheet(&[], &[], &[fast; 1_024]),
    ));
    told
}

/// Texts with a fault: its number, line, the word's start and length, and the line that tells it.
type Faulty = (&'static [u8], u32, u64, usize, usize, &'static str);

#[rustfmt::skip]
const FAULTY: &[Faulty] = &[
    // The page's own, in its third line.
    (b"chart 1 2\nchart 3 4\nplay 0 nearest n300 1 n300 2\n", 4, 3, 42, 4, "line 3: n300 is given twice\n"),
    (PAGE_PRINTED.as_bytes(), 2, 2, 55, 8, "line 2: objects, is one too many\n"),
    // 1.
    (b"charts 1 2\n", 1, 1, 0, 6, "line 1: charts begins no line\n"),
    (b"char 1 2", 1, 1, 0, 4, "line 1: char begins no line\n"),
    (b"\n \n\tPLAYS 0 fast", 1, 3, 4, 5, "line 3: PLAYS begins no line\n"),
    (b"nearest 0", 1, 1, 0, 7, "line 1: nearest begins no line\n"),
    (b"chart,1 2", 1, 1, 0, 7, "line 1: chart,1 begins no line\n"),
    (b"\xEF\xBB\xBFchart 1 2", 1, 1, 0, 8, "line 1: ???chart begins no line\n"),
    (b"\x0Bchart 1 2", 1, 1, 0, 6, "line 1: ?chart begins no line\n"),
    (b"!~\x7F\x80\xFF\x00", 1, 1, 0, 6, "line 1: !~???? begins no line\n"),
    // CR that is not the last byte of its line.
    (b"\r\r", 1, 1, 0, 1, "line 1: ? begins no line\n"),
    (b"\n\r\r\n", 1, 2, 1, 1, "line 2: ? begins no line\n"),
    (b"\rchart 1 2\n", 1, 1, 0, 6, "line 1: ?chart begins no line\n"),
    (b"chart\r1 2", 1, 1, 0, 7, "line 1: chart?1 begins no line\n"),
    (b"chart 1 2\r\r\n", 6, 1, 8, 2, "line 1: 2? is no whole number\n"),
    (b"chart 1 2 \r\r\n", 2, 1, 10, 1, "line 1: ? is one too many\n"),
    (b"chart 1 2\r#\n", 6, 1, 8, 2, "line 1: 2? is no whole number\n"),
    (b"chart 1 2\rplay 0 fast", 6, 1, 8, 6, "line 1: 2?play is no whole number\n"),
    // 2.
    (b"\n\n  chart 1 2 3\n", 2, 3, 14, 1, "line 3: 3 is one too many\n"),
    (b"chart 1 2 x y", 2, 1, 10, 1, "line 1: x is one too many\n"),
    (b"chart 1 2 ,", 2, 1, 10, 1, "line 1: , is one too many\n"),
    (b"weights 5 4 3 2 1 0", 2, 1, 18, 1, "line 1: 0 is one too many\n"),
    (b"chart 1 2 3\nfoo", 2, 1, 10, 1, "line 1: 3 is one too many\n"),
    // 3.
    (b"play 0 nearest 5", 3, 1, 15, 1, "line 1: 5 is no option\n"),
    (b"play 0 fast n320 1 n3000 2", 3, 1, 19, 5, "line 1: n3000 is no option\n"),
    (b"play 0 fast miss 2", 3, 1, 12, 4, "line 1: miss is no option\n"),
    (b"play 0 fast best, worst", 3, 1, 12, 5, "line 1: best, is no option\n"),
    (b"play 0 fast fast", 3, 1, 12, 4, "line 1: fast is no option\n"),
    (b"play 0 fast acc 50 %", 3, 1, 19, 1, "line 1: % is no option\n"),
    // 4: also before the value behind it is looked at.
    (b"play 0 fast acc 5 accbits", 4, 1, 18, 7, "line 1: accbits is given twice\n"),
    (b"play 0 fast accbits 3ff0000000000000 ACC x", 4, 1, 37, 3, "line 1: ACC is given twice\n"),
    (b"play 0 fast acc 5 acc 5", 4, 1, 18, 3, "line 1: acc is given twice\n"),
    (b"play 0 fast best worst", 4, 1, 17, 5, "line 1: worst is given twice\n"),
    (b"play 0 fast worst n50 1 best", 4, 1, 24, 4, "line 1: best is given twice\n"),
    (b"play 0 fast best best", 4, 1, 17, 4, "line 1: best is given twice\n"),
    (b"play 0 fast classic n50 1 classic", 4, 1, 26, 7, "line 1: classic is given twice\n"),
    (b"play 0 fast holds 1 holds", 4, 1, 20, 5, "line 1: holds is given twice\n"),
    // 5.
    (b"chart", 5, 1, 0, 5, "line 1: a value is missing after chart\n"),
    (b"chart#1 2", 5, 1, 0, 5, "line 1: a value is missing after chart\n"),
    (b"chart 12# 2", 5, 1, 6, 2, "line 1: a value is missing after 12\n"),
    (b"weights 5 4 3 2\r\n", 5, 1, 14, 1, "line 1: a value is missing after 2\n"),
    (b"play", 5, 1, 0, 4, "line 1: a value is missing after play\n"),
    (b"play 7 \n", 5, 1, 5, 1, "line 1: a value is missing after 7\n"),
    (b"play 0 fast n50", 5, 1, 12, 3, "line 1: a value is missing after n50\n"),
    (b"play 0 nearest acc#50", 5, 1, 15, 3, "line 1: a value is missing after acc\n"),
    (b"play 0 fast AccBits\t\r", 5, 1, 12, 7, "line 1: a value is missing after AccBits\n"),
    // 6.
    (b"chart x", 6, 1, 6, 1, "line 1: x is no whole number\n"),
    (b"chart 1,000 2", 6, 1, 6, 5, "line 1: 1,000 is no whole number\n"),
    (b"chart 429496729x60 0", 6, 1, 6, 12, "line 1: 429496729x60 is no whole number\n"),
    (b"chart 1 2\x00", 6, 1, 8, 2, "line 1: 2? is no whole number\n"),
    (b"weights 5 4 3 2.0 1 0", 6, 1, 14, 3, "line 1: 2.0 is no whole number\n"),
    (b"play -1 slow", 6, 1, 5, 2, "line 1: -1 is no whole number\n"),
    (b"play nearest 0", 6, 1, 5, 7, "line 1: nearest is no whole number\n"),
    (b"play 65536x fast", 6, 1, 5, 6, "line 1: 65536x is no whole number\n"),
    (b"play 0 fast n50 n100 3", 6, 1, 16, 4, "line 1: n100 is no whole number\n"),
    (b"play 0 fast holds +1", 6, 1, 18, 2, "line 1: +1 is no whole number\n"),
    // 7.
    (b"chart 4294967296 0", 7, 1, 6, 10, "line 1: 4294967296 is too large\n"),
    (b"chart 4294967296x 0", 7, 1, 6, 11, "line 1: 4294967296x is too large\n"),
    (b"chart 1 00099999999999", 7, 1, 8, 14, "line 1: 00099999999999 is too large\n"),
    (b"play 4294967296 slow", 7, 1, 5, 10, "line 1: 4294967296 is too large\n"),
    (b"play 0 fast passed 18446744073709551616", 7, 1, 19, 20, "line 1: 18446744073709551616 is too large\n"),
    // 8.
    (b"play 0 nearest acc 0.0061035156250", 8, 1, 19, 15, "line 1: 0.0061035156250 is no percentage\n"),
    (b"play 0 nearest acc .5", 8, 1, 19, 2, "line 1: .5 is no percentage\n"),
    (b"play 0 nearest acc .", 8, 1, 19, 1, "line 1: . is no percentage\n"),
    (b"play 0 nearest acc 1000", 8, 1, 19, 4, "line 1: 1000 is no percentage\n"),
    (b"play 0 nearest acc 97,5", 8, 1, 19, 4, "line 1: 97,5 is no percentage\n"),
    (b"play 0 nearest acc 97.5%", 8, 1, 19, 5, "line 1: 97.5% is no percentage\n"),
    (b"play 0 nearest acc 97.5.5", 8, 1, 19, 6, "line 1: 97.5.5 is no percentage\n"),
    (b"play 0 nearest acc -1", 8, 1, 19, 2, "line 1: -1 is no percentage\n"),
    (b"play 0 nearest acc 1e2", 8, 1, 19, 3, "line 1: 1e2 is no percentage\n"),
    (b"play 0 nearest acc 4294967296", 8, 1, 19, 10, "line 1: 4294967296 is no percentage\n"),
    // 9.
    (b"play 0 nearest accbits 3ff000000000000", 9, 1, 23, 15, "line 1: 3ff000000000000 is not sixteen hex digits\n"),
    (b"play 0 nearest accbits 03ff0000000000000", 9, 1, 23, 17, "line 1: 03ff0000000000000 is not sixteen hex digits\n"),
    (b"play 0 nearest accbits 3FF000000000000G", 9, 1, 23, 16, "line 1: 3FF000000000000G is not sixteen hex digits\n"),
    (b"play 0 nearest accbits 0x3ff00000000000", 9, 1, 23, 16, "line 1: 0x3ff00000000000 is not sixteen hex digits\n"),
    // 10.
    (b"play 0 slow", 10, 1, 7, 4, "line 1: slow is no method\n"),
    (b"play 0 fast, acc 5", 10, 1, 7, 5, "line 1: fast, is no method\n"),
    (b"play 0 3", 10, 1, 7, 1, "line 1: 3 is no method\n"),
    (b"play 0 best nearest", 10, 1, 7, 4, "line 1: best is no method\n"),
    // 11.
    (b"play 65536 ignore", 11, 1, 5, 5, "line 1: 65536 is too large\n"),
    (b"play 65536", 11, 1, 5, 5, "line 1: 65536 is too large\n"),
    (b"play 004294967295 slow", 11, 1, 5, 12, "line 1: 004294967295 is too large\n"),
    // 13, and faults in a second line of weights.
    (b"weights 1 2 3 4 5\nWeights 5 4 3 2 1", 13, 2, 18, 7, "line 2: Weights is one line too many\n"),
    (b"weights 1 2 3 4 5\nweights 1 2 3 4\n", 5, 2, 32, 1, "line 2: a value is missing after 4\n"),
    // 40 bytes of a word are shown.
    (b"a23456789b123456789c123456789d123456789e 1", 1, 1, 0, 40, "line 1: a23456789b123456789c123456789d123456789e begins no line\n"),
    (b"a23456789b123456789c123456789d123456789ef 1", 1, 1, 0, 41, "line 1: a23456789b123456789c123456789d123456789e.. begins no line\n"),
    (b"chart \t a23456789b123456789c123456789d123456789\xE9\xE9f", 6, 1, 8, 42, "line 1: a23456789b123456789c123456789d123456789?.. is no whole number\n"),
];

pub fn told() -> Vec<Told> {
    let accepted = accepted()
        .into_iter()
        .map(|(text, sheet)| (text, Ok(sheet)));
    let faulty = FAULTY
        .iter()
        .map(|&(text, number, line, start, len, message)| {
            let fault = Fault {
                line,
                number,
                start,
                len,
            };
            (text.to_vec(), fault, message)
        });

    // 12 and 14, and faults in lines too many.
    let charts = |last: &[u8]| [&b"chart 1 2\n".repeat(256), last].concat();
    let plays = |last: &[u8]| [&b"play 0 fast\n".repeat(1_024), last].concat();
    let fault = |number, line, start, len| Fault {
        line,
        number,
        start,
        len,
    };
    let many = [
        (
            charts(b"chart 1 2"),
            fault(12, 257, 2_560, 5),
            "line 257: chart is one line too many\n",
        ),
        (
            charts(b"chart 1\n"),
            fault(5, 257, 2_566, 1),
            "line 257: a value is missing after 1\n",
        ),
        (
            charts(b"#\n CHART 1 2 3\n"),
            fault(2, 258, 2_573, 1),
            "line 258: 3 is one too many\n",
        ),
        (
            plays(b"\nPlay 0 fast\nfoo"),
            fault(14, 1_026, 12_289, 4),
            "line 1026: Play is one line too many\n",
        ),
        (
            plays(b"play 0 fast fast"),
            fault(3, 1_025, 12_300, 4),
            "line 1025: fast is no option\n",
        ),
        (
            plays(&charts(b"weights 1 1 1 1 1\n\nchart 0 0")),
            fault(12, 1_283, 14_867, 5),
            "line 1283: chart is one line too many\n",
        ),
    ];

    let faulty = faulty
        .chain(many)
        .map(|(text, fault, message)| (text, Err((fault, message.as_bytes().to_vec()))));

    accepted.chain(faulty).collect()
}

/// A sheet with these bytes at these places changed.
fn with(mut sheet: Vec<u8>, changes: &[(usize, u8)]) -> Vec<u8> {
    for &(at, byte) in changes {
        sheet[at] = byte;
    }

    sheet
}

pub fn told_back() -> Vec<ToldBack> {
    let page = || sheet(&[[1204, 312]], &[[61, 60, 40, 20, 10]], &PAGE_ROWS);
    let row = |runs: Row| sheet(&[], &[], &[runs]);
    let nearest = |acc: &[u8]| row(&[(2, &[3]), (5, &[0x40]), (36, acc)]);
    let text = |text: &str| Ok(text.as_bytes().to_vec());
    // The first row of the page's sheet starts at 4 + 8 + 4 + 20 + 4 = 40.
    let (first, second) = (40, 88);

    vec![
        (sheet(&[], &[], &[]), text("")),
        (page(), text(PAGE_BACK)),
        (
            sheet(&[[0, 4_294_967_295], [7, 0]], &[], &[]),
            text("chart 0 4294967295\nchart 7 0\n"),
        ),
        (
            sheet(&[], &[[100, 100, 3, 2, 1]], &[&[]]),
            text("weights 100 100 3 2 1\nplay 0 ignore\n"),
        ),
        (
            row(&[
                (0, &[2, 1, 1, 1, 1, 0xFF, 1]),
                (8, &[2]),
                (12, &[3]),
                (16, &[4]),
                (20, &[5]),
                (24, &[6]),
                (28, &[7]),
                (32, &[8]),
                (36, HALF),
                (44, &[9]),
            ]),
            text(
                "play 258 fast worst classic n320 2 n300 3 n200 4 n100 5 n50 6 misses 7 passed 8 holds 9 acc 50\n",
            ),
        ),
        (
            row(&[(0, &[0xFF, 0xFF, 2, 0, 1, 0, 1])]),
            text("play 65535 closest classic holds 0\n"),
        ),
        // Accuracies.
        (nearest(&[0]), text("play 0 nearest acc 0\n")),
        (nearest(ONE), text("play 0 nearest acc 100\n")),
        (nearest(EIGHTH), text("play 0 nearest acc 12.5\n")),
        (nearest(OF_97), text("play 0 nearest acc 97\n")),
        (nearest(OF_97_53), text("play 0 nearest acc 97.53\n")),
        (nearest(OF_0_1), text("play 0 nearest acc 0.1\n")),
        (nearest(OF_999), text("play 0 nearest acc 999\n")),
        (nearest(TWO), text("play 0 nearest acc 200\n")),
        (nearest(DOWN_13), text("play 0 nearest acc 0.01220703125\n")),
        (
            nearest(DOWN_14),
            text("play 0 nearest acc 0.006103515625\n"),
        ),
        // Of 13 digits.
        (
            nearest(DOWN_15),
            text("play 0 nearest accbits 3f00000000000000\n"),
        ),
        // The f64s beside 1: percentages of 12 digits lie 10 to the -14 apart, these 2 to the -53 and -52.
        (
            nearest(&[0xFF, 0xFF, 0xFF, 0xFF, 0xFF, 0xFF, 0xEF, 0x3F]),
            text("play 0 nearest accbits 3fefffffffffffff\n"),
        ),
        (
            nearest(&[1, 0, 0, 0, 0, 0, 0xF0, 0x3F]),
            text("play 0 nearest accbits 3ff0000000000001\n"),
        ),
        // 10, infinity, NaN, -0, -1 and the smallest above 0.
        (
            nearest(&[0, 0, 0, 0, 0, 0, 0x24, 0x40]),
            text("play 0 nearest accbits 4024000000000000\n"),
        ),
        (
            nearest(&[0, 0, 0, 0, 0, 0, 0xF0, 0x7F]),
            text("play 0 nearest accbits 7ff0000000000000\n"),
        ),
        (
            nearest(&[0xEF, 0xBE, 0, 0, 0, 0, 0xF8, 0xFF]),
            text("play 0 nearest accbits fff800000000beef\n"),
        ),
        (
            nearest(&[0, 0, 0, 0, 0, 0, 0, 0x80]),
            text("play 0 nearest accbits 8000000000000000\n"),
        ),
        (
            nearest(&[0, 0, 0, 0, 0, 0, 0xF0, 0xBF]),
            text("play 0 nearest accbits bff0000000000000\n"),
        ),
        (
            nearest(&[1]),
            text("play 0 nearest accbits 0000000000000001\n"),
        ),
        // Sheets that are refused.
        (Vec::new(), Err(Refused::Sheet(1))),
        (page()[..183].to_vec(), Err(Refused::Sheet(1))),
        (with(page(), &[(0, 1), (1, 1)]), Err(Refused::Sheet(2))),
        (with(page(), &[(12, 2)]), Err(Refused::Sheet(18))),
        (with(page(), &[(16, 101)]), Err(Refused::Sheet(18))),
        (with(page(), &[(36, 1), (37, 4)]), Err(Refused::Sheet(3))),
        ([page(), vec![0]].concat(), Err(Refused::Sheet(4))),
        // Rows that are stopped: by 8 before 9, the first such row, and whatever its chart.
        (with(page(), &[(first + 2, 4)]), Err(Refused::Row(0, 8))),
        (with(page(), &[(second + 3, 2)]), Err(Refused::Row(1, 8))),
        (with(page(), &[(second + 4, 2)]), Err(Refused::Row(1, 8))),
        (with(page(), &[(second + 6, 2)]), Err(Refused::Row(1, 9))),
        (with(page(), &[(second + 6, 0)]), Err(Refused::Row(1, 9))),
        (with(page(), &[(first + 7, 1)]), Err(Refused::Row(0, 9))),
        (with(page(), &[(first + 47, 1)]), Err(Refused::Row(0, 9))),
        (with(page(), &[(first + 5, 3)]), Err(Refused::Row(0, 9))),
        (
            with(page(), &[(first + 7, 1), (first + 2, 9)]),
            Err(Refused::Row(0, 8)),
        ),
        (
            with(page(), &[(first + 7, 1), (second + 2, 9)]),
            Err(Refused::Row(0, 9)),
        ),
        (
            with(page(), &[(first, 1), (second + 1, 1), (second + 2, 9)]),
            Err(Refused::Row(1, 8)),
        ),
    ]
}
