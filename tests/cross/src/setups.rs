//! Random setups that are accepted.

use crate::journal::Setup;
use crate::random::Random;

/// Volumes next to a limit: of the periods, or of one percent.
const VOLUMES: [u32; 16] = [
    1, 49, 50, 51, 149, 150, 151, 249, 250, 251, 350, 1_550, 1_599, 1_600, 1_601, 99_999_999,
];

/// Days next to a limit.
const DAYS: [u32; 12] = [1, 119, 120, 121, 209, 210, 211, 299, 300, 301, 365, 366];

/// Factors of both kinds next to a half or to a limit.
const ADDED: [u32; 9] = [0, 1, 499, 500, 501, 1_000, 1_500, 59_999, 60_000];
const MULTIPLIED: [u32; 8] = [1_000, 1_001, 1_050, 1_500, 2_000, 2_500, 59_999, 60_000];

/// A setup of any kind of year.
pub fn any(random: &mut Random) -> Setup {
    let (hcnox_kind, hcnox_factor) = factor(random);
    let (co_kind, co_factor) = factor(random);
    Setup {
        volume: volume(random),
        days: days(random),
        standards: [standard(random), standard(random)],
        kinds: [hcnox_kind, co_kind],
        factors: [hcnox_factor, co_factor],
    }
}

/// A setup under which almost every result can be reached.
pub fn plain(random: &mut Random) -> Setup {
    let mut setup = any(random);
    for place in 0..2 {
        let (kind, factor) = match random.below(6) {
            0 => (1, random.pick(&[1_000, 1_001, 1_050])),
            1 => (0, random.pick(&ADDED)),
            _ => (0, 0),
        };
        setup.kinds[place] = kind;
        setup.factors[place] = factor;
    }
    setup
}

/// A volume whose one percent is this many engines, or one more or fewer: next to
/// a half, or at it.
pub fn one_percent_near(random: &mut Random, engines: u32) -> u32 {
    let away = random.pick(&[0, 49, 50, 51]);
    let volume = if random.one_in(2) {
        100 * engines + away
    } else {
        (100 * engines).saturating_sub(away)
    };
    volume.max(1)
}

pub fn volume(random: &mut Random) -> u32 {
    match random.below(9) {
        0 | 1 => random.pick(&VOLUMES),
        2 => random.between(1, 450),
        3 => random.between(451, 1_599),
        4 => random.between(1_600, 4_500),
        5 => random.between(1, 99_999_999),
        6 => {
            let engines = random.between(0, 41);
            one_percent_near(random, engines)
        }
        _ => random.between(1_600, 100_000),
    }
}

pub fn days(random: &mut Random) -> u32 {
    match random.below(3) {
        0 => random.pick(&DAYS),
        1 => random.between(1, 366),
        _ => random.between(301, 366),
    }
}

pub fn standard(random: &mut Random) -> u32 {
    match random.below(10) {
        0 => random.pick(&[10, 20, 19_990, 20_000]),
        1 => 10 * random.between(1, 30),
        _ => 10 * random.between(1, 2_000),
    }
}

/// A kind and a factor of it.
pub fn factor(random: &mut Random) -> (u32, u32) {
    match random.below(8) {
        0 => (0, random.pick(&ADDED)),
        1 => (0, random.between(0, 60_000)),
        2 => (1, random.pick(&MULTIPLIED)),
        3 => (1, random.between(1_000, 3_000)),
        4 => (1, random.between(1_000, 60_000)),
        _ => (0, 0),
    }
}
