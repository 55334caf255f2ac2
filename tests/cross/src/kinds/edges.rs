//! Years that meet a limit exactly.

use std::sync::OnceLock;

use super::years::end;
use crate::drive::Drive;
use crate::plan::Move;
use crate::random::Random;
use crate::setups;
use crate::twin::Twin;

/// t95 in hundredths from n = 2 on; 165 beyond.
const T95: [u32; 29] = [
    631, 292, 235, 213, 202, 194, 190, 186, 183, 181, 180, 178, 177, 176, 175, 175, 174, 173, 173,
    172, 172, 172, 171, 171, 171, 171, 170, 170, 170,
];

/// Of n results, `high` are `step` above the others, which are `gap` below
/// the standard: then N is exactly n.
#[derive(Clone, Copy, Debug)]
struct Exact {
    n: u32,
    high: u32,
    step: u32,
    gap: u32,
}

/// All such years that fit below the largest result.
fn exact_sizes() -> &'static [Exact] {
    static SIZES: OnceLock<Vec<Exact>> = OnceLock::new();
    SIZES.get_or_init(|| {
        let pairs = (2..=40).flat_map(|n| (1..n).map(move |high| (n, high)));
        pairs.filter_map(|(n, high)| exact_size(n, high)).collect()
    })
}

/// V is high × (n − high) × step², so N = n if
/// t95 × √(n × high × (n − high)) × step = 100 × (n − 1) × |G|,
/// and |G| = n × gap − high × step.
fn exact_size(n: u32, high: u32) -> Option<Exact> {
    let square = n * high * (n - high);
    let root = square.isqrt();
    if root * root != square {
        return None;
    }
    let t95 = *T95.get(n as usize - 2).unwrap_or(&165);
    let (mut step, mut below) = (100 * (n - 1), t95 * root);
    let common = gcd(step, below);
    step /= common;
    below /= common;
    let total = high * step + below;
    let times = n / gcd(n, total);
    let exact = Exact {
        n,
        high,
        step: step * times,
        gap: total * times / n,
    };
    (exact.gap <= 10_000 && exact.step <= 10_000).then_some(exact)
}

fn gcd(a: u32, b: u32) -> u32 {
    if b == 0 { a } else { gcd(b, a % b) }
}

/// A year in which n comes to be exactly N, or nearly so.
pub fn sample_size(twin: &mut Twin, random: &mut Random) {
    let exact = random.pick(exact_sizes());
    let times = random.between(1, 10_000 / exact.gap.max(exact.step));
    let low = exact.gap * times;
    let place = random.below(2);
    let mut setup = setups::plain(random);
    setup.standards[place] = 10 * random.between(low.div_ceil(10), 1_000);
    let base = setup.standards[place] - low;
    let tall = base + exact.step * times;
    let mut results: Vec<u32> = (0..exact.n)
        .map(|i| if i < exact.high { tall } else { base })
        .collect();
    shuffle(random, &mut results);
    if random.one_in(3) {
        let changed = random.below(results.len());
        results[changed] += 1;
    }
    let quiet = random.between(0, setup.standards[1 - place] - 1);
    let mut drive = Drive::start(twin, random, setup);
    for result in results {
        let mut both = [quiet; 2];
        both[place] = result;
        if drive.random.one_in(12) {
            drive.detour(both);
        }
        drive.enter(Move::Engine(both));
        drive.twin.status();
    }
    // A deletion leads to the limit again.
    if drive.random.one_in(4) {
        drive.detour([0, 0]);
    }
    drive.enter(Move::Engine([quiet, quiet]));
    end(&mut drive);
}

fn shuffle(random: &mut Random, list: &mut [u32]) {
    for last in (1..list.len()).rev() {
        list.swap(last, random.below(last + 1));
    }
}

/// A year in which C comes to be exactly H: with an odd count of results and
/// the spread 4 × part, C is H if the newest result is 21 × part above the
/// standard and C was 0 before.
pub fn level_with_limit(twin: &mut Twin, random: &mut Random) {
    let pairs = random.pick(&[1, 1, 2, 3, 8]);
    let part = random.between(1, 300);
    let standard = 10 * random.between(1, 600);
    let last = standard + 21 * part;
    let place = random.below(2);
    let mut setup = setups::plain(random);
    setup.standards[place] = 20_000;
    let quiet = random.between(0, setup.standards[1 - place]);
    let mut middle = last - 4 * part;
    if random.one_in(3) {
        middle += 1;
    }
    let mut drive = Drive::start(twin, random, setup);
    for i in 0..=2 * pairs {
        let mut both = [quiet; 2];
        both[place] = match i {
            0 => middle,
            _ if i == 2 * pairs => last,
            _ if i % 2 == 0 => middle + 4 * part,
            _ => middle - 4 * part,
        };
        if i == 2 * pairs {
            let mut standards = drive.year.standards;
            standards[place] = standard;
            drive.enter(Move::Amendment(standards));
        }
        if drive.random.one_in(6) {
            drive.detour([0, 0]);
        }
        drive.enter(Move::Engine(both));
        drive.twin.status();
    }
    if drive.random.one_in(4) {
        drive.detour([0, 0]);
    }
    end(&mut drive);
}
