//! Calls of the library with a buffer too small for any answer: they return a
//! fixed number and do nothing at all.

use super::Twin;
use crate::buffer::Buffer;
use crate::library::{self, FIGURES, REPLY, TOO_FEW};
use crate::outcome::{Call, Outcome};

impl Twin {
    /// A line, with a reply buffer of at most this length.
    pub fn command_short(&mut self, line: &[u8], length: usize) {
        let call = Call::LineShort(line);
        self.before(call);
        let mut lent = self.byte_noise(length.min(REPLY - 1));
        let wanted = Outcome::bytes(0, 0, lent.clone());
        let returned = library::command(self.library.part_mut(), line, lent.part_mut());
        let found = Outcome::bytes(returned, 0, lent);
        self.compare(call, &found, &wanted);
        self.counts.short();
    }

    /// An engine, with room for at most this many figures.
    pub fn engine_short(&mut self, number: u32, hcnox: &[u32], co: &[u32], length: usize) {
        let call = Call::EngineShort(number, hcnox, co);
        self.before(call);
        let mut lent = self.few_figures(length);
        let wanted = Outcome::words(TOO_FEW, lent.clone());
        let journal = self.library.part_mut();
        let returned = library::engine(journal, number, hcnox, co, lent.part_mut());
        let found = Outcome::words(returned, lent);
        self.compare(call, &found, &wanted);
        self.counts.short();
    }

    /// An ask, with room for at most this many figures.
    pub fn ask_short(&mut self, number: u32, hcnox: &[u32], co: &[u32], length: usize) {
        let call = Call::AskShort(number, hcnox, co);
        self.before(call);
        let mut lent = self.few_figures(length);
        let wanted = Outcome::words(TOO_FEW, lent.clone());
        let journal = self.library.part();
        let returned = library::ask(journal, number, hcnox, co, lent.part_mut());
        let found = Outcome::words(returned, lent);
        self.compare(call, &found, &wanted);
        self.counts.short();
    }

    /// A status, with room for at most this many figures.
    pub fn status_short(&mut self, length: usize) {
        self.before(Call::StatusShort);
        let mut lent = self.few_figures(length);
        let wanted = Outcome::words(TOO_FEW, lent.clone());
        let returned = library::status(self.library.part(), lent.part_mut());
        let found = Outcome::words(returned, lent);
        self.compare(Call::StatusShort, &found, &wanted);
        self.counts.short();
    }

    fn few_figures(&mut self, length: usize) -> Buffer<u64> {
        self.word_noise(length.min(FIGURES - 1))
    }
}
