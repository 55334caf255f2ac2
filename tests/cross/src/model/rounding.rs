//! Document 01, "From reading to result".

use std::num::NonZeroU64;

/// "The result X is at most 20,000."
pub(super) const MAX_RESULT: u32 = 20_000;

/// "each 0 to 20,000,000"
pub(super) const MAX_READING: u32 = 20_000_000;

/// Readings and factors are in thousandths.
const THOUSAND: NonZeroU64 = NonZeroU64::new(1_000).unwrap();

/// `amount / unit` to the nearest whole number, "halves to the even neighbour".
pub(super) fn half_even(amount: u64, unit: NonZeroU64) -> u64 {
    let whole = amount / unit;
    let below = amount % unit;
    let above = unit.get() - below;
    if below > above || (below == above && whole % 2 == 1) {
        whole + 1
    } else {
        whole
    }
}

/// The result of one pollutant of an engine, before its own limit is checked.
///
/// Kind 0 adds the factor, any other kind multiplies by it. With no reading
/// the answer is 0; the engine call refuses that count.
pub fn work_result(readings: &[u32], kind: u8, factor: u16) -> u32 {
    let Some(count) = NonZeroU64::new(readings.len() as u64) else {
        return 0;
    };
    // "Round each to result units. Add them, divide by their count, round."
    let sum = readings
        .iter()
        .map(|&reading| half_even(reading.into(), THOUSAND))
        .sum();
    let mean = half_even(sum, count);
    // "Apply the factor, round." Whatever u32 the readings are, the mean is
    // below 4.3e6, the amount below 2.9e11 and the result below 2.9e8.
    let amount = match kind {
        0 => mean * THOUSAND.get() + u64::from(factor),
        _ => mean * u64::from(factor),
    };
    half_even(amount, THOUSAND) as u32
}
