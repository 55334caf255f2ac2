//! Asks on both sides. Without the model: what the library answers to an ask
//! and to the entry of the same engine, and the year that asks leave.

use super::Twin;
use super::calls::figures;
use crate::buffer::Buffer;
use crate::counts::{Column, Compared};
use crate::library;
use crate::model;
use crate::outcome::{Call, Outcome, hex};

impl Twin {
    /// Asks for an engine; returns 0 or the refusal.
    pub fn ask(&mut self, number: u32, hcnox: &[u32], co: &[u32]) -> u8 {
        let call = Call::Ask(number, hcnox, co);
        self.before(call);
        let noise = self.figures_noise();
        let mut lent = noise.clone();
        let copy = (hcnox.to_vec(), co.to_vec());
        let given = copy.clone();
        let journal = self.library.part();
        let returned = library::ask(journal, number, &copy.0, &copy.1, lent.part_mut());
        let answer = model::ask(self.model.part(), number, hcnox, co);
        let found = Outcome::words(returned, lent);
        let wanted = figures(&answer, noise.clone());
        self.compare(call, &found, &wanted);
        self.expect_read(call, &wanted, &copy, &given);
        self.expect_kept(call, &wanted);
        self.expect_same_figures(number, &given, noise, &found);
        self.count(Column::Ask, &answer)
    }

    /// Checks that the entry of the engine just asked for is answered the same.
    fn expect_same_figures(
        &mut self,
        number: u32,
        (hcnox, co): &(Vec<u32>, Vec<u32>),
        mut lent: Buffer<u64>,
        asked: &Outcome,
    ) {
        let mut journal = self.kept.clone();
        let returned = library::engine(&mut journal, number, hcnox, co, lent.part_mut());
        let entered = Outcome::words(returned, lent);
        let call = Call::Engine(number, hcnox, co);
        self.expect_same_answer(call, asked, &entered);
        self.expect_counted(call, asked, &journal);
    }

    /// Checks that the line of key T just made, made with key E, is answered the
    /// same.
    pub(super) fn expect_same_reply(&mut self, line: &[u8], mut lent: Buffer<u8>, asked: &Outcome) {
        let mut journal = self.kept.clone();
        let mut entry = line.to_vec();
        entry[0] = b'E';
        let length = library::command(&mut journal, &entry, lent.part_mut());
        let entered = Outcome::bytes(length, length, lent);
        let call = Call::Line(&entry);
        self.expect_same_answer(call, asked, &entered);
        self.expect_counted(call, asked, &journal);
    }

    fn expect_same_answer(&mut self, call: Call, asked: &Outcome, entered: &Outcome) {
        if asked != entered {
            let found = [format!("asked: {asked}"), format!("entered: {entered}")];
            self.leave("an ask differs from the entry", call, &found);
        }
        self.counts.compared(Compared::Ask);
    }

    /// Checks that a year with asks has left the library the same journal as
    /// the same year without them.
    pub fn expect_unasked(&mut self, unasked: &[u8]) {
        if self.library.part() != unasked {
            let found = [
                format!("with asks: {}", hex(self.library.part())),
                format!("without:   {}", hex(unasked)),
            ];
            self.leave("asks have changed the year", Call::Line(b"T"), &found);
        }
        self.counts.compared(Compared::YearOfAsks);
    }
}
