//! Years built so that C and H come close enough for a mark '?'.

use super::years::end;
use crate::aim::{Aim, aim};
use crate::drive::Drive;
use crate::model::Pollutant;
use crate::plan::{Move, Plan};
use crate::random::Random;
use crate::setups;
use crate::twin::Twin;

pub fn run(twin: &mut Twin, random: &mut Random) {
    let first = [(); 2].map(|()| random.between(300, 15_000));
    let mut setup = setups::plain(random);
    // Two in three: the first standards already fit the second engine.
    let second = first.map(|result| second_engine(random, result));
    let fitted = !random.one_in(3);
    if fitted {
        setup.standards = second.map(|aim| aim.standard);
    }
    let mut plan = Plan::hunting(random, &setup);
    let longest = random.pick(&[4, 6, 9, 9, 9, 40]);
    let length = random.between(2, longest) as usize;
    let mut drive = Drive::start(twin, random, setup);
    drive.enter(Move::Engine(first));
    if fitted {
        drive.enter(Move::Engine(second.map(|aim| aim.result)));
    }
    let mut refused = 0;
    while drive.year.engines() < length && refused < 3 {
        let step = plan.next(drive.random, &drive.year);
        if let Move::Engine(results) = step
            && drive.random.one_in(16)
        {
            drive.detour(results);
        }
        if !drive.enter(step) {
            refused += 1;
        }
    }
    end(&mut drive);
}

/// An aim for engine 2 after this result of engine 1.
fn second_engine(random: &mut Random, first: u32) -> Aim {
    let mut worker = Pollutant::new();
    worker.add(first, 10);
    aim(random, &worker, b'?')
}
