//! Lists of calls in which many are refused, often for several reasons.

use crate::faults;
use crate::random::Random;
use crate::setups;
use crate::twin::Twin;
use crate::written;

pub fn run(twin: &mut Twin, random: &mut Random) {
    let rate = random.pick(&[3, 6, 12, 40]);
    if random.one_in(3) {
        from_zero(twin, random, rate);
    } else {
        from_year(twin, random, rate);
    }
}

/// A list of calls on the zeroed journal, which nobody else writes.
fn from_zero(twin: &mut Twin, random: &mut Random, rate: usize) {
    for _ in 0..random.below(4) {
        faults::call(twin, random, rate);
    }
    twin.command(&setups::any(random).line());
    for _ in 0..random.between(6, 40) {
        one_call(twin, random, rate);
    }
}

/// Calls on a journal that refuses some of them.
fn from_year(twin: &mut Twin, random: &mut Random, rate: usize) {
    let start = written::any_journal(random);
    twin.lend(&start);
    for _ in 0..random.between(6, 24) {
        one_call(twin, random, rate);
        // Back to the start after some of the entries, to meet its refusals.
        if twin.journal() != start && random.one_in(2) {
            twin.lend(&start);
        }
    }
}

fn one_call(twin: &mut Twin, random: &mut Random, rate: usize) {
    if random.one_in(8) {
        faults::call_on_wrong_length(twin, random, rate);
    } else {
        faults::call(twin, random, rate);
    }
}
