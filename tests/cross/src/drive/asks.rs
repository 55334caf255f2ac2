//! The asks of a year, before an entry or without one.

use super::{Drive, Engine};
use crate::faults;
use crate::readings::MAX_RESULT;

impl Drive<'_> {
    /// Asks once more, if this is a year with asks. Its journal has to be that
    /// of the same year without them.
    pub fn last_ask(&mut self) {
        if self.asks.is_some() {
            self.ask();
            self.twin.expect_unasked(&self.unasked);
        }
    }

    /// Asks for an engine that is not entered then.
    pub(super) fn ask(&mut self) {
        let number = self.year.free_number(self.random);
        let results = self.other_results(self.year.standards);
        let engine = self.measured(number, results);
        self.ask_for(&engine, results);
    }

    /// Asks for this engine, now and then with other readings before.
    pub(super) fn ask_for(&mut self, engine: &Engine, results: [u32; 2]) {
        for _ in 0..self.random.pick(&[0, 0, 0, 0, 1, 2, 5]) {
            let others = self.other_results(results);
            let other = self.measured(engine.number, others);
            self.ask_once(&other);
        }
        self.ask_once(engine);
    }

    /// Asks; sometimes the wall page is written after it.
    fn ask_once(&mut self, engine: &Engine) {
        if self.random.one_in(2) {
            let [hcnox, co] = &engine.readings;
            self.twin.ask(engine.number, hcnox, co);
        } else {
            self.twin.command(&engine.line(b'T'));
        }
        if self.random.one_in(8) {
            faults::report(self.twin, self.random);
        }
    }

    /// Results near these, or any.
    fn other_results(&mut self, results: [u32; 2]) -> [u32; 2] {
        let random = &mut *self.random;
        results.map(|result| match random.below(3) {
            0 => random.between(0, MAX_RESULT),
            _ => (result + random.between(0, 60))
                .saturating_sub(30)
                .min(MAX_RESULT),
        })
    }
}
