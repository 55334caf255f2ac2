//! The calls, each made on both sides.

use super::Twin;
use crate::buffer::Buffer;
use crate::counts::Column;
use crate::journal::{self, VERSION_AT};
use crate::library::{self, FIGURES, LINE, REPLY};
use crate::model::{self, Status};
use crate::outcome::{Call, Outcome};
use crate::words::words_of;

impl Twin {
    /// Carries out one key line; returns 0 or the refusal.
    pub fn command(&mut self, line: &[u8]) -> u8 {
        let call = Call::Line(line);
        self.before(call);
        let noise = self.reply_noise();
        let (mut lent, mut expected) = (noise.clone(), noise.clone());
        let copy = self.line_copy(line);
        let given = copy.clone();
        let length = library::command(self.library.part_mut(), copy.part(), lent.part_mut());
        let front = expected.part_mut().first_chunk_mut();
        let front = front.expect("a whole reply");
        let expected_length = model::key_line(self.model.part_mut(), line, front);
        let reply = expected.part()[..expected_length].to_vec();
        let refusal = refusal_of(&reply);
        let letter = line.first().copied().unwrap_or(0);
        if letter != b'T' {
            self.reply = lent.part()[..length.min(REPLY)].to_vec();
        }
        let found = Outcome::bytes(length, length, lent);
        let wanted = Outcome::bytes(expected_length, expected_length, expected);
        self.compare(call, &found, &wanted);
        self.expect_read(call, &wanted, &copy, &given);
        if refusal != 0 || b"LT".contains(&letter) {
            self.expect_kept(call, &wanted);
        }
        if letter == b'T' {
            self.expect_same_reply(line, noise, &found);
        } else {
            self.expect_counted_here(call, &found);
        }
        self.counts.call(Column::of_letter(letter), refusal);
        self.counts.reply(letter, &reply);
        if b"SEAPXZ".contains(&letter) {
            self.look();
        }
        refusal
    }

    /// Enters an engine; returns 0 or the refusal.
    pub fn engine(&mut self, number: u32, hcnox: &[u32], co: &[u32]) -> u8 {
        let call = Call::Engine(number, hcnox, co);
        self.before(call);
        let mut lent = self.figures_noise();
        let expected = lent.clone();
        let copy = (hcnox.to_vec(), co.to_vec());
        let given = copy.clone();
        let journal = self.library.part_mut();
        let returned = library::engine(journal, number, &copy.0, &copy.1, lent.part_mut());
        let answer = model::engine(self.model.part_mut(), number, hcnox, co);
        let found = Outcome::words(returned, lent);
        let wanted = figures(&answer, expected);
        self.compare(call, &found, &wanted);
        self.expect_read(call, &wanted, &copy, &given);
        if answer.is_err() {
            self.expect_kept(call, &wanted);
        }
        self.expect_counted_here(call, &found);
        let refusal = self.count(Column::Engine, &answer);
        self.look();
        refusal
    }

    /// Reads the status; returns 0 or the refusal.
    pub fn status(&mut self) -> u8 {
        self.before(Call::Status);
        let mut lent = self.figures_noise();
        let expected = lent.clone();
        let returned = library::status(self.library.part(), lent.part_mut());
        let answer = model::status(self.model.part());
        let found = Outcome::words(returned, lent);
        let wanted = figures(&answer, expected);
        self.compare(Call::Status, &found, &wanted);
        self.expect_kept(Call::Status, &wanted);
        self.expect_counted_here(Call::Status, &found);
        self.count_version(answer.is_ok());
        self.count(Column::Status, &answer)
    }

    /// Writes the marks into a buffer of this length; returns 0 or the refusal.
    pub fn marks(&mut self, length: usize) -> u8 {
        self.before(Call::Marks);
        let mut lent = self.byte_noise(length);
        let mut expected = lent.clone();
        let mut written = self.noise.below(1_000);
        let returned = library::marks(self.library.part(), lent.part_mut(), &mut written);
        let answer = model::strip(self.model.part(), expected.part_mut());
        let refusal = answer.err().unwrap_or(0);
        let expected_written = answer.unwrap_or(0);
        let marks = expected.part()[..expected_written].to_vec();
        let found = Outcome::bytes(returned.into(), written, lent);
        let wanted = Outcome::bytes(refusal.into(), expected_written, expected);
        self.compare(Call::Marks, &found, &wanted);
        self.expect_kept(Call::Marks, &wanted);
        self.count_version(answer.is_ok());
        self.counts.call(Column::Marks, refusal);
        self.counts.written(&marks);
        refusal
    }

    /// Reads back, often but not always, what an entry left.
    fn look(&mut self) {
        if self.noise.one_in(3) {
            self.status();
        }
        let engines = journal::engines(self.model.part());
        if self.noise.one_in(5) {
            let needed = 2 * engines;
            let more = self.noise.below(4);
            self.marks((needed + more).saturating_sub(1));
        }
        if self.noise.one_in(8) {
            let needed = LINE * (engines + 1);
            let more = self.noise.pick(&[0, 1, 1, 2, LINE, 200]);
            self.report(needed + more - 1);
        }
    }

    /// Counts a journal that was read, if it was accepted.
    pub(super) fn count_version(&mut self, accepted: bool) {
        if accepted {
            self.counts.version(self.kept[VERSION_AT]);
        }
    }

    pub(super) fn count(&mut self, column: Column, answer: &Result<Status, u8>) -> u8 {
        let refusal = answer.err().unwrap_or(0);
        self.counts.call(column, refusal);
        if let Ok(status) = answer {
            self.counts.status(status);
        }
        refusal
    }
}

/// What an answer in figures should leave in a buffer of words.
pub(super) fn figures(answer: &Result<Status, u8>, mut lent: Buffer<u64>) -> Outcome {
    lent.part_mut()[..FIGURES].copy_from_slice(&words_of(answer));
    Outcome::words(answer.err().unwrap_or(0), lent)
}

/// The number of a reply that refuses, else 0.
fn refusal_of(reply: &[u8]) -> u8 {
    let Some(digits) = reply.strip_prefix(b"NO ") else {
        return 0;
    };
    let add = |number: u8, digit: &u8| 10 * number + (digit - b'0');
    digits.iter().fold(0, add)
}
