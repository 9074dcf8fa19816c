//! Percentages of a typed sheet and the f64s nearest to them, in whole numbers alone: no f64 is divided or
//! multiplied here.

/// The most digits behind the point.
pub const PLACES: u32 = 12;

/// The most before the point.
const MOST: u64 = 999;

/// The bits of the f64 nearest to `digits` / (100 times 10 to `places`), a half to even. The number is
/// below 1,000 before its point, so that the shift below is neither negative nor too long.
pub fn nearest(digits: u64, places: u32) -> u64 {
    assert!(places <= PLACES && digits < (MOST + 1) * 10_u64.pow(places));

    if digits == 0 {
        return 0;
    }

    let under = 10_u128.pow(places + 2);
    let over = u128::from(digits);
    // The one power of two that takes the fraction to 53 bits before its point.
    let shift = (0..128)
        .find(|&shift| (over << shift) >= under << 52)
        .unwrap();
    let (whole, rest) = ((over << shift) / under, (over << shift) % under);
    assert!((1 << 52..1 << 53).contains(&whole));

    let up = 2 * rest > under || 2 * rest == under && whole % 2 == 1;
    let whole = whole as u64 + u64::from(up);

    // 2^53, if that is what came about, carries into the exponent and leaves a mantissa of zeros.
    ((1_023 + 52 - shift as u64) << 52) + (whole - (1 << 52))
}

/// The whole number nearest to the f64 of these bits times 100 times 10 to `places`, a half to even, if
/// the f64 is +0 or more and the number below 1,000 before its point.
pub fn times(bits: u64, places: u32) -> Option<u64> {
    let (exponent, fraction) = (bits >> 52, bits & ((1 << 52) - 1));

    // The f64 is mantissa times 2 to -down. From 2^52 on, and for what is negative, infinite or no
    // number, there is none.
    let (mantissa, down) = match exponent {
        0 => (fraction, 1_074),
        1..1_075 => (fraction + (1 << 52), 1_075 - exponent),
        _ => return None,
    };

    let product = u128::from(mantissa) * 10_u128.pow(places + 2);
    let whole = if down > 127 {
        // The product is below 2^100.
        0
    } else {
        let (whole, rest) = (product >> down, product & ((1 << down) - 1));
        let half = 1 << (down - 1);
        whole + u128::from(rest > half || rest == half && whole % 2 == 1)
    };

    u64::try_from(whole)
        .ok()
        .filter(|whole| whole / 10_u64.pow(places) <= MOST)
}

/// The digits and places of the percentage with the fewest places that has these bits.
pub fn shortest(bits: u64) -> Option<(u64, u32)> {
    (0..=PLACES)
        .filter_map(|places| Some((times(bits, places)?, places)))
        .find(|&(digits, places)| nearest(digits, places) == bits)
}

/// The percentage as it is written.
pub fn written(digits: u64, places: u32) -> String {
    let unit = 10_u64.pow(places);
    let before = digits / unit;

    match places as usize {
        0 => before.to_string(),
        width => format!("{before}.{:0width$}", digits % unit),
    }
}
