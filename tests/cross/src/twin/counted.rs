//! The one percent, compared without the model: the library's verdict with the
//! engines that the journal's bytes say to count.

use super::Twin;
use crate::counts::Compared;
use crate::outcome::{Call, Outcome};
use crate::tally::Tally;

impl Twin {
    /// Checks the verdict in an accepted answer of the library, if it is one that
    /// depends on the count: 1, 3 or 4. The journal is the one that the answer is
    /// about.
    pub(super) fn expect_counted(&mut self, call: Call, answer: &Outcome, journal: &[u8]) {
        let Some(verdict @ (1 | 3 | 4)) = answer.verdict() else {
            return;
        };
        let tally = Tally::of(journal);
        if !tally.allows(verdict) {
            let found = [format!("verdict {verdict}, but {}", tally.summary())];
            self.leave("the one percent is counted wrongly", call, &found);
        }
        self.counts.tally(verdict, &tally);
        self.counts.compared(Compared::OnePercent);
    }

    /// The same for the journal that a call has left.
    pub(super) fn expect_counted_here(&mut self, call: Call, answer: &Outcome) {
        let journal = self.library.part().to_vec();
        self.expect_counted(call, answer, &journal);
    }
}
