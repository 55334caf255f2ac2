//! Years with so many deletions that the slots run out before the engines.

use super::years::end;
use crate::drive::Drive;
use crate::journal::SLOTS;
use crate::plan::{Move, Plan};
use crate::random::Random;
use crate::setups;
use crate::twin::Twin;

/// A year that fills every slot, often with deletions, and then refuses each
/// sort of entry.
pub fn all_slots(twin: &mut Twin, random: &mut Random) {
    let engines = random.pick(&[0, 2, 3, 8, 20, 38]);
    let mut drive = grown(twin, random, engines);
    while drive.year.open() && drive.year.events() < SLOTS {
        let step = match drive.random.below(8) {
            0..4 => Move::Deletion,
            4 => Move::Amendment(drive.year.standards),
            _ => low_engine(&mut drive),
        };
        if !drive.enter(step) && drive.year.events() + 1 < SLOTS {
            let step = low_engine(&mut drive);
            drive.enter(step);
        }
    }
    let standards = drive.year.standards;
    for step in [
        Move::Deletion,
        Move::Engine([0, 0]),
        Move::Amendment(standards),
        Move::NextPeriod,
        Move::Declaration,
    ] {
        drive.enter(step);
    }
    end(&mut drive);
}

/// A year of forty engines, in which others take the places of the newest ones.
pub fn forty_first(twin: &mut Twin, random: &mut Random) {
    let mut drive = grown(twin, random, 40);
    for _ in 0..drive.random.between(1, 4) {
        let step = low_engine(&mut drive);
        drive.enter(step);
        let deleted = drive.random.pick(&[1, 1, 2, 5]);
        for _ in 0..deleted {
            drive.enter(Move::Deletion);
        }
        for _ in 0..deleted {
            let step = low_engine(&mut drive);
            drive.enter(step);
        }
    }
    end(&mut drive);
}

/// A year of this many engines, unless it fails before.
fn grown<'a>(twin: &'a mut Twin, random: &'a mut Random, engines: usize) -> Drive<'a> {
    let setup = setups::plain(random);
    let mut plan = Plan::passing(random, &setup).without_deletions();
    let mut drive = Drive::start(twin, random, setup);
    while drive.year.engines() < engines && drive.year.open() && drive.year.events() < SLOTS {
        let step = plan.next(drive.random, &drive.year);
        drive.enter(step);
    }
    drive
}

/// An engine that hardly ever fails.
fn low_engine(drive: &mut Drive) -> Move {
    let random = &mut *drive.random;
    Move::Engine(drive.year.standards.map(|t| random.between(t / 2, t)))
}
