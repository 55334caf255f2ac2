//! Calls whose arguments are faulty now and then.

use crate::journal::{self, Setup};
use crate::library::{LINE, REPORT};
use crate::random::Random;
use crate::readings::{self, MAX_READING};
use crate::setups;
use crate::twin::Twin;

/// The largest number that a key line can hold.
const LARGEST: u32 = 99_999_999;

const BAD_STANDARDS: [u32; 10] = [0, 1, 9, 11, 15, 19_999, 20_001, 20_010, 65_546, LARGEST];
const BAD_DAYS: [u32; 5] = [0, 367, 65_536, 65_736, LARGEST];
const BAD_KINDS: [u32; 5] = [2, 3, 255, 256, 257];
const BAD_FACTORS: [u32; 5] = [60_001, 65_536, 66_536, 100_000, LARGEST];
const BAD_NUMBERS: [u32; 5] = [0, 65_536, 65_537, 131_071, LARGEST];
const BAD_READINGS: [u32; 4] = [MAX_READING + 1, 20_000_499, 30_000_000, LARGEST];

/// Lengths of a journal that is refused, some of them equal to the right one
/// in their lowest bits.
const BAD_LENGTHS: [usize; 12] = [0, 1, 24, 25, 32, 543, 545, 552, 800, 1_000, 1_088, 66_080];

/// Reading counts, mostly refused.
const COUNTS: [usize; 12] = [0, 0, 1, 2, 3, 4, 5, 6, 7, 8, 257, 258];

/// Makes a random call; of its arguments, one in `rate` is faulty.
pub fn call(twin: &mut Twin, random: &mut Random, rate: usize) -> u8 {
    match random.weighted(&[3, 8, 8, 8, 4, 4, 1, 5, 2, 3, 3, 3, 1]) {
        0 => twin.command(&setup(random, rate).line()),
        1 => twin.command(&engine_line(b'E', twin.journal(), random, rate)),
        2 => engine(twin, random, rate),
        3 => ask(twin, random, rate),
        4 => twin.command(&journal::line(b'A', &standards(random, rate))),
        5 => twin.command(b"P"),
        6 => twin.command(b"X"),
        7 => twin.command(b"Z"),
        8 => twin.command(b"L"),
        9 => marks(twin, random),
        10 => report(twin, random),
        11 => twin.status(),
        _ => short(twin, random, rate),
    }
}

/// Makes a random call on a journal of a wrong length, made from this one.
pub fn call_on_wrong_length(twin: &mut Twin, random: &mut Random, rate: usize) {
    let kept = twin.journal().to_vec();
    let mut other = kept.clone();
    let length = random.pick(&BAD_LENGTHS);
    other.truncate(length);
    other.extend(random.bytes(length - other.len()));
    twin.lend(&other);
    call(twin, random, rate);
    twin.lend(&kept);
}

pub fn setup(random: &mut Random, rate: usize) -> Setup {
    let mut setup = setups::any(random);
    setup.standards = standards(random, rate);
    if random.one_in(rate) {
        setup.volume = 0;
    }
    if random.one_in(rate) {
        setup.days = random.pick(&BAD_DAYS);
    }
    for place in 0..2 {
        if random.one_in(rate) {
            setup.kinds[place] = random.pick(&BAD_KINDS);
        }
        if random.one_in(rate) {
            setup.factors[place] = bad_factor(random, setup.kinds[place]);
        }
    }
    setup
}

fn bad_factor(random: &mut Random, kind: u32) -> u32 {
    if kind == 1 && random.one_in(2) {
        return random.pick(&[0, 1, 500, 999]);
    }
    random.pick(&BAD_FACTORS)
}

pub fn standards(random: &mut Random, rate: usize) -> [u32; 2] {
    [(); 2].map(|()| {
        if random.one_in(rate) {
            random.pick(&BAD_STANDARDS)
        } else {
            setups::standard(random)
        }
    })
}

/// A line of an engine's numbers. With a wrong count, the number of readings may
/// be odd.
pub fn engine_line(letter: u8, journal: &[u8], random: &mut Random, rate: usize) -> Vec<u8> {
    let mut numbers = vec![number(journal, random, rate)];
    let count = count(random, rate).min(8);
    if count > 3 {
        // Short ones, to stay within the line.
        numbers.extend((0..2 * count).map(|_| random.between(0, 99)));
    } else {
        numbers.extend(readings(journal, random, 0, count, rate));
        numbers.extend(readings(journal, random, 1, count, rate));
    }
    if random.one_in(4 * rate) {
        numbers.pop();
    }
    journal::line(letter, &numbers)
}

fn engine(twin: &mut Twin, random: &mut Random, rate: usize) -> u8 {
    let (number, hcnox, co) = engine_arguments(twin.journal(), random, rate);
    twin.engine(number, &hcnox, &co)
}

/// Asks for an engine, by a line or by the call.
pub fn ask(twin: &mut Twin, random: &mut Random, rate: usize) -> u8 {
    if random.one_in(2) {
        return twin.command(&engine_line(b'T', twin.journal(), random, rate));
    }
    let (number, hcnox, co) = engine_arguments(twin.journal(), random, rate);
    twin.ask(number, &hcnox, &co)
}

fn engine_arguments(journal: &[u8], random: &mut Random, rate: usize) -> (u32, Vec<u32>, Vec<u32>) {
    let mut number = number(journal, random, rate);
    if number == LARGEST {
        number = u32::MAX;
    }
    let first = count(random, rate);
    let second = if random.one_in(rate) {
        random.pick(&COUNTS)
    } else {
        first
    };
    let mut hcnox = readings(journal, random, 0, first, rate);
    let mut co = readings(journal, random, 1, second, rate);
    for reading in hcnox.iter_mut().chain(&mut co) {
        if *reading == LARGEST {
            *reading = u32::MAX;
        }
    }
    (number, hcnox, co)
}

fn number(journal: &[u8], random: &mut Random, rate: usize) -> u32 {
    if !random.one_in(rate) {
        return random.between(1, 65_535);
    }
    let entered = journal::numbers(journal);
    if entered.is_empty() || random.one_in(2) {
        return random.pick(&BAD_NUMBERS);
    }
    random.pick(&entered)
}

fn count(random: &mut Random, rate: usize) -> usize {
    if random.one_in(rate) {
        random.pick(&COUNTS)
    } else {
        random.pick(&[1, 1, 2, 3])
    }
}

/// Readings of one pollutant: near the standard, too high, or just too high
/// once the factor is applied.
fn readings(
    journal: &[u8],
    random: &mut Random,
    place: usize,
    count: usize,
    rate: usize,
) -> Vec<u32> {
    let factors = journal::factors(journal).unwrap_or([(0, 0); 2]);
    let (kind, factor) = factors[place];
    let wish = match random.below(rate) {
        0 | 1 => random.pick(&[19_999, 20_000, 20_001, 20_002, 20_060]),
        _ => (standard(journal, place) + random.between(0, 30)).saturating_sub(20),
    };
    let good = readings::toward(random, wish, kind.into(), factor.into(), count.clamp(1, 3));
    let mut readings: Vec<u32> = good.into_iter().cycle().take(count).collect();
    if count > 0 && random.one_in(rate) {
        readings[random.below(count)] = random.pick(&BAD_READINGS);
    }
    readings
}

/// The first standard of a journal, or some other level.
fn standard(journal: &[u8], place: usize) -> u32 {
    let at = 14 + 2 * place;
    let bytes = journal.get(at..at + 2).unwrap_or(&[0, 10]);
    u32::from(u16::from_le_bytes([bytes[0], bytes[1]])) % 20_001
}

pub fn marks(twin: &mut Twin, random: &mut Random) -> u8 {
    let needed = 2 * journal::engines(twin.journal());
    let length = random.pick(&[
        0,
        1,
        needed.saturating_sub(2),
        needed.saturating_sub(1),
        needed,
        needed + 1,
        80,
        200,
        256,
    ]);
    twin.marks(length)
}

/// Writes the wall page into a buffer that is about as long as it has to be, or of
/// some other length that is refused or is longer by some lines.
pub fn report(twin: &mut Twin, random: &mut Random) -> u8 {
    let engines = journal::engines(twin.journal());
    let needed = LINE * (engines + 1);
    let length = random.pick(&[
        0,
        1,
        LINE - 1,
        LINE,
        LINE * engines,
        (LINE - 1) * (engines + 1),
        needed - 1,
        needed,
        needed,
        needed + 1,
        needed + 5 * LINE,
        REPORT,
    ]);
    let more = random.pick(&[0, 0, 0, LINE, 300]);
    twin.report(length + random.below(more + 1))
}

fn any_line(journal: &[u8], random: &mut Random, rate: usize) -> Vec<u8> {
    match random.below(7) {
        0 => setup(random, rate).line(),
        1 | 2 => engine_line(random.pick(b"ET"), journal, random, rate),
        3 => journal::line(b'A', &standards(random, rate)),
        _ => vec![random.pick(b"PXLZ")],
    }
}

/// A call with a buffer too small for any answer.
fn short(twin: &mut Twin, random: &mut Random, rate: usize) -> u8 {
    match random.below(4) {
        0 => {
            let line = any_line(twin.journal(), random, rate);
            twin.command_short(&line, random.pick(&[0, 1, 95, 50]));
        }
        1 => {
            let (number, hcnox, co) = engine_arguments(twin.journal(), random, rate);
            twin.engine_short(number, &hcnox, &co, random.pick(&[0, 1, 19, 10]));
        }
        2 => {
            let (number, hcnox, co) = engine_arguments(twin.journal(), random, rate);
            twin.ask_short(number, &hcnox, &co, random.pick(&[0, 1, 19, 10]));
        }
        _ => twin.status_short(random.pick(&[0, 1, 19, 10])),
    }
    0
}
