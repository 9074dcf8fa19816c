//! Part accuracy: the library's beside `ManiaHitResults::accuracy`, bit for bit.

use crate::{
    inputs::{Rng, Size},
    ours,
    query::CAP,
    repo,
    tally::Tally,
};

/// The value before a call, to see that a refused call leaves it.
const BEFORE: f64 = f64::from_bits(0x7FF8_5E17_1CED_0001);

/// The accuracy's bits, or 10 for a count over the cap.
pub fn answer(counts: &[u32; 6], classic: bool) -> Result<u64, u32> {
    if counts.iter().any(|&n| n > CAP) {
        return Err(10);
    }

    let results = repo::results(counts);

    Ok(results.accuracy(classic).to_bits())
}

/// Numbers at the limits; all six counts are taken from these in every way.
const LIMITS: [u32; 6] = [0, 1, CAP - 1, CAP, CAP + 1, u32::MAX];

/// Visits every way to take six counts from the limits.
pub fn limits(mut visit: impl FnMut(&[u32; 6])) {
    let base = LIMITS.len() as u32;

    for code in 0..base.pow(6) {
        let digit = |i| (code / base.pow(i) % base) as usize;
        visit(&std::array::from_fn(|i| LIMITS[digit(i as u32)]));
    }
}

/// Random counts: small, of any size up to the cap, or both mixed; now and then one over the cap.
pub fn random(rng: &mut Rng) -> [u32; 6] {
    let kind = rng.upto(3);

    let mut counts = std::array::from_fn(|_| match kind {
        0 => rng.upto(6),
        1 => rng.upto(CAP),
        2 => rng.upto(CAP) >> rng.upto(19),
        _ => rng.pick(&[0, 1, 2, CAP, CAP - 1]),
    });

    if rng.one_in(32) {
        counts[rng.upto(5) as usize] = rng.pick(&[CAP + 1, CAP + 2, 2 * CAP, u32::MAX]);
    }

    counts
}

pub fn run(rng: &mut Rng) -> bool {
    let mut tally = Tally::new("accuracy");
    let size = Size::new(2_000_000);

    let mut compare = |counts: &[u32; 6]| {
        for classic in [false, true] {
            let expected = answer(counts, classic);
            let mut value = BEFORE;
            let status = ours::accuracy(counts, classic, &mut value);
            let ours = (status, value.to_bits());
            let right = match expected {
                Ok(bits) => (0, bits),
                Err(status) => (status, BEFORE.to_bits()),
            };

            tally.inputs += 1;
            tally.judge(ours == right, || {
                format!("{counts:?} classic {classic}: ours {ours:x?}, expected {right:x?}")
            });
        }
    };

    limits(|counts| {
        if rng.one_in(size.one_in) {
            compare(counts);
        }
    });

    for _ in 0..size.random.div_ceil(2) {
        compare(&random(rng));
    }

    tally.finish()
}
