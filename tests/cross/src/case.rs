//! One case: the calls that a kind of input makes from a seed, on both sides.

use std::panic;

use crate::counts::Counts;
use crate::kinds::KINDS;
use crate::outcome::Difference;
use crate::random::Random;
use crate::twin::Twin;

#[derive(Clone, Copy, Debug)]
pub struct Case {
    /// The index of its kind.
    pub kind: usize,
    pub seed: u64,
}

impl Case {
    /// The arguments that run the case again.
    pub fn name(self) -> String {
        format!("--case {} {}", KINDS[self.kind].name, self.seed)
    }

    /// What its calls have met, or the first difference. With `trace` each call
    /// is printed.
    pub fn run(self, trace: bool) -> Result<Counts, Difference> {
        // a twin that finds a difference leaves the case by unwinding, from
        // any depth; so does a side that panics
        panic::catch_unwind(|| self.calls(trace)).map_err(|cause| {
            let found = cause.downcast::<Difference>().map(|found| *found);
            found.unwrap_or_else(|_| Difference::panicked())
        })
    }

    fn calls(self, trace: bool) -> Counts {
        let mut twin = Twin::new(trace, self.seed);
        (KINDS[self.kind].run)(&mut twin, &mut Random::new(self.seed));
        twin.counts.case(self.kind);
        twin.counts
    }
}
