//! The wall page on both sides. Without the model: the library's page, with the
//! journal's bytes and with what its other calls and pages say.

use super::Twin;
use super::told::{marks_of, page_of};
use crate::counts::{Column, Compared};
use crate::journal;
use crate::library::{self, FIGURES, LINE, REPORT};
use crate::model;
use crate::outcome::{Call, Outcome};
use crate::page::Page;

/// Where the figures have the verdict, and C low and C high of both pollutants.
const VERDICT_AT: usize = 1;
const CUMSUMS_AT: [usize; 4] = [5, 6, 14, 15];

impl Twin {
    /// Writes the wall page into a buffer of this length; returns 0 or the refusal.
    pub fn report(&mut self, length: usize) -> u8 {
        self.before(Call::Report);
        let noise = self.byte_noise(length);
        let (mut lent, mut expected) = (noise.clone(), noise.clone());
        let mut written = self.noise.below(5_000);
        let returned = library::report(self.library.part(), lent.part_mut(), &mut written);
        let answer = model::wall_page(self.model.part(), expected.part_mut());
        let refusal = answer.err().unwrap_or(0);
        let found = Outcome::bytes(returned.into(), written, lent.clone());
        let wanted = Outcome::bytes(refusal.into(), answer.unwrap_or(0), expected);
        self.compare(Call::Report, &found, &wanted);
        self.expect_kept(Call::Report, &wanted);
        let page = lent.part().get(..written).unwrap_or_default();
        if lent.part().get(written..) != noise.part().get(written..) {
            self.leave_page("more than the page is written", page, &[]);
        }
        if returned == 0 {
            self.expect_page(page);
            self.expect_page_elsewhere(page, length);
            self.expect_page_of_start(page);
        }
        if matches!(refusal, 0 | 18) {
            self.expect_room(refusal, length);
        }
        self.count_version(answer.is_ok());
        self.counts.call(Column::Report, refusal);
        refusal
    }

    /// Checks that a buffer is refused exactly if it is shorter than a head line and
    /// a line for each engine of the journal's bytes.
    fn expect_room(&mut self, refusal: u8, length: usize) {
        let needed = LINE * (journal::engines(&self.kept) + 1);
        if (refusal == 18) != (length < needed) {
            let found = format!("{length} bytes, but {needed} are needed");
            self.leave("a page's room is wrong", Call::Report, &[found]);
        }
        self.counts.pages.buffer(length, &self.kept);
    }

    /// Checks that the library's page, read by position, has the engines of the
    /// journal's bytes, the marks that the library writes without a page and the
    /// C of its status.
    fn expect_page(&mut self, bytes: &[u8]) {
        let journal = self.library.part();
        let mut figures = [0; FIGURES];
        library::status(journal, &mut figures);
        let Some(page) = Page::read(bytes) else {
            self.leave_page("a page is not of the form", bytes, &[]);
        };
        if !page.holds(journal) {
            self.leave_page("a page has not the figures of the journal", bytes, &[]);
        }
        let marks = marks_of(journal);
        if page.marks() != marks {
            let marks = format!("marks: {}", marks.escape_ascii());
            self.leave_page("a page has other marks", bytes, &[marks]);
        }
        if page.last_cumsums() != CUMSUMS_AT.map(|at| figures[at]) {
            let figures = format!("figures: {figures:?}");
            self.leave_page("a page ends with another C", bytes, &[figures]);
        }
        self.counts.page(&page, &self.kept, figures[VERDICT_AT]);
        self.counts.compared(Compared::Page);
    }

    /// Checks that the library writes the same page into a buffer of another
    /// length.
    fn expect_page_elsewhere(&mut self, bytes: &[u8], length: usize) {
        let other = if length == bytes.len() {
            length + 1 + self.noise.below(4 * LINE)
        } else {
            bytes.len()
        };
        let page = page_of(self.library.part(), other);
        if page != bytes {
            let found = format!("in a buffer of {other} bytes:\n{}", lines(&page));
            self.leave_page("a page depends on the buffer", bytes, &[found]);
        }
        self.counts.compared(Compared::PageElsewhere);
    }

    /// Checks that the library's page begins like that of the same year up to one
    /// of its engines, without the deleted ones.
    fn expect_page_of_start(&mut self, bytes: &[u8]) {
        let engine = self.noise.below(bytes.len() / LINE);
        let page = page_of(&journal::cut_after(self.library.part(), engine), REPORT);
        if bytes.get(..LINE * (engine + 1)) != Some(&page[..]) {
            let found = format!("up to engine {engine}:\n{}", lines(&page));
            self.leave_page("a page has other lines than before", bytes, &[found]);
        }
        self.counts.compared(Compared::PageOfStart);
    }

    /// Leaves the case, with the library's page and what it is not equal to.
    fn leave_page(&self, what: &'static str, bytes: &[u8], other: &[String]) -> ! {
        let page = format!("page:\n{}", lines(bytes));
        self.leave(what, Call::Report, &[&[page], other].concat())
    }
}

/// A page for printing.
fn lines(bytes: &[u8]) -> String {
    let lines = bytes.chunks(LINE).map(|line| line.escape_ascii());
    lines.map(|line| format!("  \"{line}\"\n")).collect()
}
