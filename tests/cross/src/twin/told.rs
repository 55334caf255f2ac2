//! What the library alone tells of journals, compared without the model.

use std::fmt;

use super::Twin;
use crate::counts::Compared;
use crate::journal::{self, VERSION_AT};
use crate::library::{self, FIGURES, MARKS, REPORT};
use crate::outcome::Call;

/// A status, as the reply of an entry and as figures, the marks and the wall page.
#[derive(Clone, PartialEq, Eq, Debug)]
pub struct Told {
    reply: String,
    figures: [u64; FIGURES],
    marks: Vec<u8>,
    page: Vec<u8>,
}

impl Told {
    fn of(journal: &[u8]) -> Self {
        let mut figures = [0; FIGURES];
        library::status(journal, &mut figures);
        Told {
            reply: reply_of(&figures),
            figures,
            marks: marks_of(journal),
            page: page_of(journal, REPORT),
        }
    }
}

/// The marks that the library writes.
pub(super) fn marks_of(journal: &[u8]) -> Vec<u8> {
    let mut marks = vec![0; MARKS];
    let mut written = 0;
    library::marks(journal, &mut marks, &mut written);
    marks.truncate(written);
    marks
}

/// The wall page that the library writes into a buffer of this length.
pub(super) fn page_of(journal: &[u8], length: usize) -> Vec<u8> {
    let mut page = vec![0; length];
    let mut written = 0;
    library::report(journal, &mut page, &mut written);
    page.truncate(written);
    page
}

impl fmt::Display for Told {
    fn fmt(&self, f: &mut fmt::Formatter<'_>) -> fmt::Result {
        let reply = self.reply.escape_debug();
        let marks = self.marks.escape_ascii();
        let page = self.page.escape_ascii();
        let figures = self.figures;
        write!(f, "\"{reply}\", figures {figures:?}, marks \"{marks}\", ")?;
        write!(f, "page \"{page}\"")
    }
}

impl Twin {
    /// What the library tells of its journal now.
    pub fn told(&self) -> Told {
        Told::of(self.library.part())
    }

    /// Checks that after the deletion just keyed, its reply included, all is as
    /// it was before the engine.
    pub fn expect_told(&mut self, before: &Told) {
        let mut now = self.told();
        now.reply = String::from_utf8_lossy(&self.reply).into_owned();
        self.expect_same(before, &now);
        self.counts.compared(Compared::Deletion);
    }

    /// Checks that a journal with deletions tells the same as one into which
    /// the deleted engines were never entered.
    pub fn expect_never_entered(&mut self) {
        let journal = self.library.part();
        if journal[VERSION_AT] == 2 {
            let without = Told::of(&journal::without_deleted(journal));
            self.expect_same(&without, &self.told());
            self.counts.compared(Compared::YearOfDeletions);
        }
    }

    fn expect_same(&self, without: &Told, with: &Told) {
        if without != with {
            let found = [
                format!("without the engine: {without}"),
                format!("after its deletion: {with}"),
            ];
            self.leave("a deleted engine counts", Call::Line(b"Z"), &found);
        }
    }
}

/// The reply of an entry that leaves these figures.
fn reply_of(figures: &[u64; FIGURES]) -> String {
    let [hcnox_mark, co_mark] = [10, 19].map(|at| char::from(figures[at] as u8));
    let [hcnox_size, co_size] = [9, 18].map(|at| match figures[at] {
        0 => "-".to_string(),
        tenths => tenths.to_string(),
    });
    let [n, verdict] = [figures[0], figures[1]];
    format!("OK {n} {verdict} {hcnox_mark}{co_mark} {hcnox_size} {co_size}")
}
