//! Damaged journals, and ones written directly with faults among the events.

use crate::faults;
use crate::journal::{self, COUNT_AT, DELETION, HEADER, LENGTH, SLOTS, Slot, VERSION_AT};
use crate::random::Random;
use crate::setups;
use crate::twin::Twin;
use crate::written;

/// Bytes with a meaning at one place or another.
const TELLING: [u8; 12] = [0, 1, 2, 3, 4, 5, 10, 40, 64, 65, 127, 255];

pub fn run(twin: &mut Twin, random: &mut Random) {
    let whole = written::any_journal(random);
    for _ in 0..4 {
        let mut journal = whole.clone();
        for _ in 0..random.pick(&[0, 1, 1, 1, 1, 2, 3]) {
            damage(random, &mut journal);
        }
        probe(twin, random, &journal);
    }
}

/// Reads a journal, asks on it and tries some entries.
fn probe(twin: &mut Twin, random: &mut Random, journal: &[u8]) {
    twin.lend(journal);
    twin.status();
    faults::marks(twin, random);
    faults::report(twin, random);
    faults::ask(twin, random, 20);
    for _ in 0..random.below(4) {
        faults::call(twin, random, 20);
    }
}

/// Damages a journal in one way.
pub fn damage(random: &mut Random, journal: &mut Vec<u8>) {
    if journal.is_empty() {
        return;
    }
    match random.weighted(&[3, 3, 1, 3, 3, 3, 2, 14]) {
        0 => flip(random, journal),
        1 => overwrite(random, journal),
        2 => resize(random, journal),
        3 => splice(random, journal),
        4 => stain(random, journal),
        5 => new_header(random, journal),
        6 => new_version(random, journal),
        _ => change_events(random, journal),
    }
}

/// A byte of the header or of the used slots, or now and then of any place.
fn place(random: &mut Random, journal: &[u8]) -> usize {
    let used = HEADER + 8 * journal::slots(journal).len();
    let end = match random.below(4) {
        0 => HEADER,
        1 => journal.len(),
        _ => used + 8,
    };
    random.below(end.min(journal.len()))
}

fn flip(random: &mut Random, journal: &mut [u8]) {
    for _ in 0..random.pick(&[1, 1, 1, 2, 8]) {
        let at = place(random, journal);
        journal[at] ^= 1 << random.below(8);
    }
}

fn overwrite(random: &mut Random, journal: &mut [u8]) {
    for _ in 0..random.pick(&[1, 1, 1, 2, 8]) {
        let at = place(random, journal);
        journal[at] = if random.one_in(2) {
            random.pick(&TELLING)
        } else {
            random.byte()
        };
    }
}

/// Cut short or made longer.
fn resize(random: &mut Random, journal: &mut Vec<u8>) {
    let length = match random.below(3) {
        0 => random.below(LENGTH),
        1 => LENGTH - 1 + 2 * random.below(2),
        _ => LENGTH + random.below(600),
    };
    journal.resize(length, 0);
}

/// Writes one of the bytes that have to be zero.
fn stain(random: &mut Random, journal: &mut [u8]) {
    if journal.len() < LENGTH {
        return;
    }
    let slots = journal::slots(journal);
    let at = match random.below(3) {
        0 => random.pick(&[4, 5, 6, 7, 25, 26, 27, 28, 29, 30, 31]),
        1 if !slots.is_empty() => unnamed(random, &slots),
        _ => random.below(LENGTH - HEADER) + HEADER,
    };
    journal[at] = random.pick(&[1, 2, 128, 255]);
}

/// A byte without a name in a used slot, often the last one.
fn unnamed(random: &mut Random, slots: &[Slot]) -> usize {
    let any = random.below(slots.len());
    let place = random.pick(&[any, slots.len() - 1]);
    let bytes: &[usize] = match slots[place][0] {
        2 => &[1, 6, 7],
        _ => &[1, 2, 3, 4, 5, 6, 7],
    };
    journal::slot_at(place) + random.pick(bytes)
}

/// Another setup, often with a field just out of range, before the events.
fn new_header(random: &mut Random, journal: &mut [u8]) {
    let mut setup = faults::setup(random, 6);
    if random.one_in(6) {
        setup.volume = random.pick(&[100_000_000, u32::MAX]);
    }
    let header = journal::write(&setup, &[]);
    let length = COUNT_AT.min(journal.len());
    journal[..length].copy_from_slice(&header[..length]);
    fit_version(random, journal);
}

/// Another version, in its low byte or its high one.
fn new_version(random: &mut Random, journal: &mut [u8]) {
    let at = random.pick(&[VERSION_AT, VERSION_AT, VERSION_AT, VERSION_AT + 1]);
    if let Some(byte) = journal.get_mut(at) {
        *byte = random.pick(&[0, 1, 1, 2, 2, 3, 255]);
    }
}

/// Mostly the version that fits the events, so that it hides no other fault.
fn fit_version(random: &mut Random, journal: &mut [u8]) {
    let version = journal::version_of(&journal::slots(journal));
    if !random.one_in(8)
        && let Some(byte) = journal.get_mut(VERSION_AT)
    {
        *byte = version;
    }
}

/// Mixed with another journal: all from some byte on, a slot, or every
/// second slot. The number of events is from either.
fn splice(random: &mut Random, journal: &mut [u8]) {
    let other = written::year(random).journal();
    let slot = journal::slot_at(random.below(SLOTS));
    let from_other: Vec<usize> = match random.below(5) {
        0 => (HEADER..LENGTH).collect(),
        1 => (slot..LENGTH).collect(),
        2 => (slot..slot + 8).collect(),
        3 => (HEADER..LENGTH).filter(|at| at / 8 % 2 == 1).collect(),
        _ => (random.below(LENGTH)..LENGTH).collect(),
    };
    for at in from_other {
        if at < journal.len() {
            journal[at] = other[at];
        }
    }
    if random.one_in(2) && journal.len() > COUNT_AT {
        journal[COUNT_AT] = other[COUNT_AT];
    }
    fit_version(random, journal);
}

/// Takes the events out, changes the list and writes it back.
fn change_events(random: &mut Random, journal: &mut [u8]) {
    if journal.len() < LENGTH {
        return;
    }
    let mut slots = journal::slots(journal);
    for _ in 0..random.pick(&[1, 1, 2]) {
        change_list(random, &mut slots);
    }
    let version = journal[VERSION_AT];
    journal::put_slots(journal, &slots);
    if random.one_in(12) {
        journal[COUNT_AT] = random.pick(&TELLING);
    }
    if random.one_in(8) {
        journal[VERSION_AT] = version;
    }
}

fn change_list(random: &mut Random, slots: &mut Vec<Slot>) {
    let at = random.below(slots.len() + 1);
    if at == slots.len() {
        slots.push(random_slot(random));
        return;
    }
    let other = random.below(slots.len());
    match random.below(8) {
        0 => slots.insert(at, random_slot(random)),
        1 => slots.insert(at, slots[other]),
        2 => {
            slots.remove(at);
        }
        3 => slots.swap(at, other),
        4 => slots[at] = random_slot(random),
        5 => slots.insert(misplaced(random, slots), deletion(random)),
        _ => touch(random, &mut slots[at]),
    }
}

/// A place where mostly no deletion can be entered: before any engine, right
/// after a next period, or at the end, maybe after a declaration or a failure.
fn misplaced(random: &mut Random, slots: &[Slot]) -> usize {
    let after = (1..=slots.len()).filter(|at| slots[at - 1] == journal::NEXT_PERIOD);
    let places: Vec<usize> = after.chain([0, slots.len()]).collect();
    random.pick(&places)
}

/// A deletion, now and then with a byte that is not zero.
fn deletion(random: &mut Random) -> Slot {
    let mut slot = DELETION;
    if random.one_in(4) {
        slot[random.between(1, 7) as usize] = random.pick(&[1, 2, 128, 255]);
    }
    slot
}

/// An event of any kind, mostly one that could be entered.
fn random_slot(random: &mut Random) -> Slot {
    match random.below(12) {
        0 => random.word().to_le_bytes(),
        1 => journal::DECLARATION,
        2 | 3 => journal::NEXT_PERIOD,
        4 | 5 => deletion(random),
        6 | 7 => journal::amendment_slot(faults::standards(random, 10)),
        _ => {
            let results = [(); 2].map(|()| random.pick(&[0, 800, 19_999, 20_000, 20_001]));
            let readings = random.pick(&[1, 2, 3, 3, 3, 0, 4]);
            journal::engine_slot(readings, results, random.between(0, 65_535))
        }
    }
}

/// Changes one field of an event to a value at a limit or beyond.
fn touch(random: &mut Random, slot: &mut Slot) {
    let value = match random.below(4) {
        0 => random.pick(&[0, 10, 20_000, 20_001, 20_010, 65_535]),
        1 => random.between(0, 20_000),
        _ => setups::standard(random),
    };
    let word = (value as u16).to_le_bytes();
    match random.below(6) {
        0 => slot[0] = random.pick(&[0, 1, 2, 3, 4, 5, 5, 6]),
        1 => slot[1] = random.pick(&[0, 1, 2, 3, 4, 255]),
        2 => slot[6..8].copy_from_slice(&word),
        3 => slot[2..4].copy_from_slice(&word),
        4 => slot[4..6].copy_from_slice(&word),
        _ => slot[random.below(8)] ^= 1 << random.below(8),
    }
}
