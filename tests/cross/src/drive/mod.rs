//! A year entered call by call on both sides, some years with asks in between.

mod asks;

use crate::journal::{self, Setup};
use crate::library::{self, FIGURES, REPLY};
use crate::plan::Move;
use crate::random::Random;
use crate::readings;
use crate::twin::Twin;
use crate::year::Year;

pub struct Drive<'a> {
    pub twin: &'a mut Twin,
    pub random: &'a mut Random,
    pub year: Year,
    /// Asks come with one in this many moves, if with any.
    asks: Option<usize>,
    /// The library's journal of the same year without the asks.
    unasked: Vec<u8>,
}

/// An engine's number, and its readings for each pollutant.
struct Engine {
    number: u32,
    readings: [Vec<u32>; 2],
}

impl Engine {
    fn line(&self, letter: u8) -> Vec<u8> {
        let [hcnox, co] = &self.readings;
        journal::line(letter, &[&[self.number], &hcnox[..], &co[..]].concat())
    }
}

impl<'a> Drive<'a> {
    /// Makes the setup.
    pub fn start(twin: &'a mut Twin, random: &'a mut Random, setup: Setup) -> Self {
        let asks = random.pick(&[None, None, None, Some(2), Some(6)]);
        let mut drive = Drive {
            twin,
            random,
            year: Year::new(setup),
            asks,
            unasked: vec![0; journal::LENGTH],
        };
        drive.key(&setup.line());
        drive
    }

    /// Makes one entry and keeps it if it is accepted. Asks come before it, and
    /// after it too unless it is an engine.
    pub fn enter(&mut self, step: Move) -> bool {
        let asks = self.asks.is_some_and(|moves| self.random.one_in(moves));
        if let Move::Engine(results) = step {
            return self.engine(results, asks);
        }
        if asks {
            self.ask();
        }
        let accepted = self.event(step);
        if asks {
            self.ask();
        }
        accepted
    }

    /// Enters an engine and deletes it, now and then with an amendment between
    /// the two. If all are accepted, the library has to tell what it told before.
    pub fn detour(&mut self, results: [u32; 2]) {
        let before = self.twin.told();
        if !self.enter(Move::Engine(results)) {
            return;
        }
        if self.random.one_in(4) {
            let standards = self.year.standards;
            self.enter(Move::Amendment(standards.map(|t| (t + 10).min(20_000))));
        }
        if self.enter(Move::Deletion) {
            self.twin.expect_told(&before);
        }
    }

    /// Enters anything but an engine.
    fn event(&mut self, step: Move) -> bool {
        let line = match step {
            Move::Engine(_) => return false,
            Move::Amendment(standards) => journal::line(b'A', &standards),
            Move::NextPeriod => b"P".to_vec(),
            Move::Declaration => b"X".to_vec(),
            Move::Deletion => b"Z".to_vec(),
        };
        if self.key(&line) != 0 {
            return false;
        }
        match step {
            Move::Engine(_) => {}
            Move::Amendment(standards) => self.year.amendment(standards),
            Move::NextPeriod => self.year.next_period(),
            Move::Declaration => self.year.declaration(),
            Move::Deletion => self.year.deletion(),
        }
        true
    }

    /// Enters an engine with readings that aim at these results.
    fn engine(&mut self, results: [u32; 2], asks: bool) -> bool {
        let number = self.year.free_number(self.random);
        let engine = self.measured(number, results);
        if asks {
            self.ask_for(&engine, results);
        }
        let refusal = if self.random.one_in(4) {
            self.call(&engine)
        } else {
            self.key(&engine.line(b'E'))
        };
        if refusal == 0 {
            let worked = self.stored_results();
            let count = engine.readings[0].len();
            self.year.engine(count as u8, worked, number);
        }
        refusal == 0
    }

    /// Keys the line of an entry, also into the year without asks.
    fn key(&mut self, line: &[u8]) -> u8 {
        if self.asks.is_some() {
            library::command(&mut self.unasked, line, &mut [0; REPLY]);
        }
        self.twin.command(line)
    }

    /// Enters an engine without a line, also into the year without asks.
    fn call(&mut self, engine: &Engine) -> u8 {
        let number = engine.number;
        let [hcnox, co] = &engine.readings;
        if self.asks.is_some() {
            library::engine(&mut self.unasked, number, hcnox, co, &mut [0; FIGURES]);
        }
        self.twin.engine(number, hcnox, co)
    }

    /// An engine with readings that aim at these results.
    fn measured(&mut self, number: u32, results: [u32; 2]) -> Engine {
        let count = self.random.pick(&[1, 1, 2, 3]);
        let readings = [0, 1].map(|place| self.readings(results[place], place, count));
        Engine { number, readings }
    }

    fn readings(&mut self, wish: u32, place: usize, count: usize) -> Vec<u32> {
        let kind = self.year.setup.kinds[place];
        let factor = self.year.setup.factors[place];
        readings::exact(self.random, wish, kind, factor, count)
            .unwrap_or_else(|| readings::toward(self.random, wish, kind, factor, count))
    }

    /// The results in the slot that was just written.
    fn stored_results(&self) -> [u32; 2] {
        let at = journal::slot_at(self.year.events());
        let slot = &self.twin.journal()[at..at + 8];
        [2, 4].map(|at| u32::from(u16::from_le_bytes([slot[at], slot[at + 1]])))
    }
}
