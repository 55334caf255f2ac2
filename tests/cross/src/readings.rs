//! Readings that give a wanted result.

use crate::model::work_result;
use crate::random::Random;

pub const MAX_READING: u32 = 20_000_000;
pub const MAX_RESULT: u32 = 20_000;

/// Readings that give the wanted result or one near it: on both sides of their
/// mean, one of them some units off, and each some thousandths off.
pub fn toward(random: &mut Random, wish: u32, kind: u32, factor: u32, count: usize) -> Vec<u32> {
    let mean = before_factor(wish, kind, factor);
    let reach = random.pick(&[0, 0, 1, 2, 30, 500]);
    let reach = reach.min(mean).min(MAX_RESULT - mean);
    let mut units = match count {
        1 => vec![mean],
        2 => vec![mean - reach, mean + reach],
        _ => vec![mean + reach, mean - reach, mean],
    };
    if count > 1 && random.one_in(2) {
        units[1] = shaken(random, units[1], 2);
    }
    let jitter = random.pick(&[0, 0, 499, 500]);
    let reading = |unit: u32| shaken(random, unit * 1_000, jitter).min(MAX_READING);
    units.into_iter().map(reading).collect()
}

/// Readings that give exactly the wanted result, if some are found.
pub fn exact(
    random: &mut Random,
    wish: u32,
    kind: u32,
    factor: u32,
    count: usize,
) -> Option<Vec<u32>> {
    let reaches = |readings: &Vec<u32>| work_result(readings, kind as u8, factor as u16) == wish;
    for _ in 0..4 {
        let found = Some(toward(random, wish, kind, factor, count)).filter(reaches);
        if found.is_some() {
            return found;
        }
    }
    let mean = before_factor(wish, kind, factor) * 1_000;
    Some(vec![mean; count]).filter(reaches)
}

/// The mean of readings, in result units, that a factor brings near the wanted
/// result.
fn before_factor(wish: u32, kind: u32, factor: u32) -> u32 {
    let mean = if kind == 0 {
        wish.saturating_sub((factor + 500) / 1_000)
    } else {
        (wish * 1_000 + factor / 2) / factor.max(1)
    };
    mean.min(MAX_RESULT)
}

/// Moved up or down by at most this much.
fn shaken(random: &mut Random, value: u32, most: u32) -> u32 {
    (value + random.between(0, 2 * most)).saturating_sub(most)
}
