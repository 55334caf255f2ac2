//! The two sides: both are lent equal buffers, which are then compared whole.

mod asks;
mod calls;
mod counted;
mod pages;
mod short;
mod told;

use std::panic;

use crate::buffer::{AFTER, BEFORE, Buffer};
use crate::counts::Counts;
use crate::journal;
use crate::library::{FIGURES, REPLY};
use crate::outcome::{Call, Difference, Outcome, hex};
use crate::random::Random;

pub struct Twin {
    pub counts: Counts,
    trace: bool,
    /// Fills the lent buffers before a call.
    noise: Random,
    /// The journal before the call, and on each side.
    kept: Vec<u8>,
    library: Buffer<u8>,
    model: Buffer<u8>,
    /// The library's last reply to a line that was no ask.
    reply: Vec<u8>,
}

impl Twin {
    /// Starts a case, with a zeroed journal. With `trace` each call is printed.
    pub fn new(trace: bool, seed: u64) -> Self {
        let mut twin = Twin {
            counts: Counts::default(),
            trace,
            noise: Random::new(!seed),
            kept: Vec::new(),
            library: Buffer::new(vec![0; AFTER], 0),
            model: Buffer::new(vec![0; AFTER], 0),
            reply: Vec::new(),
        };
        twin.lend(&[0; journal::LENGTH]);
        twin
    }

    /// Puts the same journal on both sides.
    pub fn lend(&mut self, journal: &[u8]) {
        if self.trace {
            println!("journal, {} bytes: {}", journal.len(), hex(journal));
        }
        self.library = self.byte_noise(journal.len());
        self.library.part_mut().copy_from_slice(journal);
        self.model = self.library.clone();
    }

    /// The journal as it is now on both sides.
    pub fn journal(&self) -> &[u8] {
        self.model.part()
    }

    /// Keeps a copy of the journal before a call.
    fn before(&mut self, call: Call) {
        if self.trace {
            println!("{call}");
        }
        self.kept.clear();
        self.kept.extend_from_slice(self.model.part());
    }

    /// A buffer of this many random bytes, at any address.
    fn byte_noise(&mut self, length: usize) -> Buffer<u8> {
        let start = self.noise.below(BEFORE + 1);
        Buffer::new(self.noise.bytes(start + length + AFTER), start)
    }

    /// A buffer of this many random words.
    fn word_noise(&mut self, length: usize) -> Buffer<u64> {
        let start = self.noise.below(3);
        let words = (0..start + length + AFTER).map(|_| self.noise.word());
        Buffer::new(words.collect(), start)
    }

    /// Random bytes for a reply, now and then more than needed.
    fn reply_noise(&mut self) -> Buffer<u8> {
        let more = self.surplus(40);
        self.byte_noise(REPLY + more)
    }

    /// Random words for the figures, now and then more than needed.
    fn figures_noise(&mut self) -> Buffer<u64> {
        let more = self.surplus(6);
        self.word_noise(FIGURES + more)
    }

    /// A line to be lent to the library, at any address.
    fn line_copy(&mut self, line: &[u8]) -> Buffer<u8> {
        let mut copy = self.byte_noise(line.len());
        copy.part_mut().copy_from_slice(line);
        copy
    }

    fn surplus(&mut self, bound: usize) -> usize {
        match self.noise.below(8) {
            0 => self.noise.below(bound),
            _ => 0,
        }
    }

    /// Checks that both sides answer the same and leave the same journal.
    fn compare(&self, call: Call, library: &Outcome, model: &Outcome) {
        if self.trace {
            println!("  {model}");
        }
        if library != model || self.library != self.model {
            self.differ("the two sides differ", call, library, model);
        }
    }

    /// Checks that a refused call, or one that only reads, left the journal
    /// unchanged.
    fn expect_kept(&self, call: Call, outcome: &Outcome) {
        if self.model.part() != self.kept {
            self.differ("the journal was changed", call, outcome, outcome);
        }
    }

    /// Checks that what the library was lent only to read is unchanged.
    fn expect_read<T: PartialEq>(&self, call: Call, outcome: &Outcome, copy: &T, given: &T) {
        if copy != given {
            self.differ("an argument was changed", call, outcome, outcome);
        }
    }

    /// Leaves the case, reporting the difference of the two sides.
    fn differ(&self, what: &'static str, call: Call, library: &Outcome, model: &Outcome) -> ! {
        let mut lines = Vec::new();
        for (side, outcome, journal) in [
            ("library", library, &self.library),
            ("model", model, &self.model),
        ] {
            let [before, after] = journal.around().map(hex);
            lines.push(format!("{side}: {outcome}"));
            lines.push(format!("  journal {}", hex(journal.part())));
            lines.push(format!("  around it {before} and {after}"));
        }
        self.leave(what, call, &lines)
    }

    /// Leaves the case.
    fn leave(&self, what: &'static str, call: Call, found: &[String]) -> ! {
        let mut lines = vec![
            format!("call: {call}"),
            format!("journal before, {} bytes:", self.kept.len()),
            format!("  {}", hex(&self.kept)),
        ];
        lines.extend_from_slice(found);
        panic::resume_unwind(Box::new(Difference {
            what,
            agreed: self.counts.calls,
            details: lines.join("\n"),
        }))
    }
}
