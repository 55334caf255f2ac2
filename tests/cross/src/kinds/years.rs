//! Whole years, entered call by call.

use super::{deletions, edges};
use crate::drive::Drive;
use crate::faults;
use crate::plan::{Move, Plan};
use crate::random::Random;
use crate::readings::MAX_RESULT;
use crate::setups;
use crate::twin::Twin;

pub fn run(twin: &mut Twin, random: &mut Random) {
    match random.weighted(&[60, 20, 4, 8, 8, 1, 1]) {
        0 => plain(twin, random),
        1 => failing(twin, random),
        2 => climbing(twin, random),
        3 => edges::sample_size(twin, random),
        4 => edges::level_with_limit(twin, random),
        5 => deletions::all_slots(twin, random),
        _ => deletions::forty_first(twin, random),
    }
}

/// A year of some length, with amendments, periods and deletions among its
/// engines.
fn plain(twin: &mut Twin, random: &mut Random) {
    let length = match random.weighted(&[10, 4, 2, 1, 1]) {
        0 => random.between(1, 6),
        1 => random.between(7, 15),
        2 => random.between(16, 29),
        3 => random.between(30, 32),
        _ => random.between(40, 42),
    } as usize;
    let setup = setups::any(random);
    let mut plan = if length > 6 || random.one_in(3) {
        Plan::passing(random, &setup)
    } else {
        Plan::any(random, &setup)
    };
    let mut drive = Drive::start(twin, random, setup);
    grow(&mut drive, &mut plan, length, |_, results| results);
    end(&mut drive);
}

/// A year in which engines fail, so that fewer count for the one percent than
/// there are. That is 0, or near a number of engines to which the year comes.
fn failing(twin: &mut Twin, random: &mut Random) {
    let length = match random.weighted(&[4, 3, 2, 1]) {
        0 => random.between(2, 6),
        1 => random.between(7, 29),
        2 => random.between(30, 33),
        _ => random.between(40, 42),
    };
    let between = random.between(0, length);
    let engines = random.pick(&[0, 1, between, between, between, length]);
    let mut setup = setups::plain(random);
    setup.volume = setups::one_percent_near(random, engines);
    let mut plan = Plan::failing(random, &setup);
    let mut drive = Drive::start(twin, random, setup);
    // An engine that is deleted at once passes or fails, whatever the next does.
    grow(&mut drive, &mut plan, length as usize, |drive, results| {
        let passing = drive.year.standards;
        let failing = passing.map(|t| (t + 1).min(MAX_RESULT));
        drive.random.pick(&[results, passing, failing])
    });
    end(&mut drive);
}

/// A year whose C becomes as large as it can. In half of them it fails at last.
fn climbing(twin: &mut Twin, random: &mut Random) {
    let length = random.pick(&[3, 6, 9, 14, 40]);
    let mut setup = setups::plain(random);
    if random.one_in(2) {
        setup.standards = [10; 2];
    }
    let mut plan = Plan::climbing(random, &setup);
    let mut drive = Drive::start(twin, random, setup);
    grow(&mut drive, &mut plan, length, |_, results| results);
    if drive.random.one_in(2) {
        drive.enter(Move::Amendment([10; 2]));
        while drive.enter(Move::Engine([MAX_RESULT; 2])) {}
    }
    end(&mut drive);
}

/// Makes the moves of a plan until there are this many engines. In one of four
/// years some engines are preceded by one that is deleted at once, with results
/// made from theirs.
fn grow(
    drive: &mut Drive,
    plan: &mut Plan,
    length: usize,
    deleted: impl Fn(&mut Drive, [u32; 2]) -> [u32; 2],
) {
    let detours = drive.random.one_in(4);
    let mut refused = 0;
    while drive.year.engines() < length && refused < 4 {
        let step = plan.next(drive.random, &drive.year);
        if let Move::Engine(results) = step
            && detours
            && drive.random.one_in(3)
        {
            let results = deleted(drive, results);
            drive.detour(results);
        }
        if !drive.enter(step) {
            refused += 1;
        }
    }
}

/// Some last calls: reading, sometimes deletions, the next period twice, or a
/// declaration and a call that is refused after it, in a year with asks a last
/// one, and the wall page again.
pub fn end(drive: &mut Drive) {
    drive.twin.command(b"L");
    drive.twin.status();
    faults::report(drive.twin, drive.random);
    if drive.random.one_in(4) {
        for _ in 0..drive.random.pick(&[1, 1, 2, 3, 6]) {
            drive.enter(Move::Deletion);
        }
    }
    drive.twin.expect_never_entered();
    if drive.random.one_in(6) {
        drive.enter(Move::NextPeriod);
        drive.enter(Move::NextPeriod);
    }
    if drive.random.one_in(3) {
        drive.enter(Move::Declaration);
        let standards = drive.year.standards;
        let step = drive.random.pick(&[
            Move::Engine([0, 0]),
            Move::Amendment(standards),
            Move::NextPeriod,
            Move::Declaration,
            Move::Deletion,
        ]);
        drive.enter(step);
    }
    drive.last_ask();
    faults::report(drive.twin, drive.random);
}
