//! Journals written directly, event by event.

use crate::aim::aim;
use crate::journal;
use crate::plan::{Move, Plan};
use crate::random::Random;
use crate::setups;
use crate::year::Year;

/// How a year ends.
#[derive(Clone, Copy)]
enum End {
    Open,
    Failed,
    Declared,
    Deleted,
}

/// A journal of any sort, accepted or not.
pub fn any_journal(random: &mut Random) -> Vec<u8> {
    match random.below(16) {
        0 => vec![0; journal::LENGTH],
        1 => random.bytes(journal::LENGTH),
        _ => year(random).journal(),
    }
}

/// A year of any sort: often one that refuses the next entry.
pub fn year(random: &mut Random) -> Year {
    let setup = setups::any(random);
    let mut year = Year::new(setup);
    let (engines, events) = random.pick(&[
        (0, 0),
        (0, 64),
        (1, 0),
        (2, 0),
        (3, 5),
        (6, 8),
        (12, 0),
        (30, 0),
        (39, 0),
        (40, 0),
        (40, 63),
        (40, 64),
        (20, 63),
        (20, 64),
        (5, 64),
    ]);
    grow(random, &mut year, engines);
    let end = random.pick(&[
        End::Open,
        End::Open,
        End::Open,
        End::Failed,
        End::Declared,
        End::Deleted,
    ]);
    let room = match end {
        End::Open => 0,
        End::Failed => random.below(5),
        End::Declared | End::Deleted => 1,
    };
    pad(random, &mut year, events.max(room) - room);
    close(random, &mut year, end);
    year
}

/// Adds events until there are this many engines.
fn grow(random: &mut Random, year: &mut Year, engines: usize) {
    let mut plan = match random.below(7) {
        0 => Plan::hunting(random, &year.setup),
        1 => Plan::any(random, &year.setup),
        2 => Plan::failing(random, &year.setup),
        3 => Plan::climbing(random, &year.setup),
        _ => Plan::passing(random, &year.setup),
    };
    while year.engines() < engines && year.events() < journal::SLOTS && year.open() {
        let step = plan.next(random, year);
        enter(random, year, step);
    }
}

/// Adds amendments until there are this many events, or now and then deletions,
/// each with another engine after it.
fn pad(random: &mut Random, year: &mut Year, events: usize) {
    let replaces = random.one_in(8);
    while year.events() < events && year.open() {
        if replaces && year.deletable() && year.events() + 1 < events {
            replace(random, year);
        } else {
            amend(random, year);
        }
    }
}

fn replace(random: &mut Random, year: &mut Year) {
    year.deletion();
    let results = year.standards.map(|t| random.between(0, t));
    enter(random, year, Move::Engine(results));
}

fn amend(random: &mut Random, year: &mut Year) {
    let same = random.one_in(2);
    let standards = year.standards;
    year.amendment(standards.map(|t| if same { t } else { setups::standard(random) }));
}

fn close(random: &mut Random, year: &mut Year, end: End) {
    let room = year.open() && year.events() < journal::SLOTS;
    match end {
        End::Failed => fail(random, year),
        End::Declared if room => year.declaration(),
        End::Deleted if room && year.deletable() => year.deletion(),
        End::Open | End::Declared | End::Deleted => {}
    }
}

/// Adds engines marked 'O' as long as there is room and the year has not failed.
fn fail(random: &mut Random, year: &mut Year) {
    while year.open() && year.engines() < 40 && year.events() < journal::SLOTS {
        let place = random.below(2);
        let wish = aim(random, &year.workers[place], b'O');
        let mut standards = year.standards;
        standards[place] = wish.standard.min(standards[place]);
        if standards != year.standards && year.events() + 1 < journal::SLOTS {
            year.amendment(standards);
        }
        let mut results = year.standards;
        results[place] = wish.result;
        enter(random, year, Move::Engine(results));
    }
}

/// Adds one event without checking it, but no deletion without an engine.
pub fn enter(random: &mut Random, year: &mut Year, step: Move) {
    match step {
        Move::Engine(results) => {
            let number = year.free_number(random);
            year.engine(random.between(1, 3) as u8, results, number);
        }
        Move::Amendment(standards) => year.amendment(standards),
        Move::NextPeriod => year.next_period(),
        Move::Declaration => year.declaration(),
        Move::Deletion if year.deletable() => year.deletion(),
        Move::Deletion => {}
    }
}
