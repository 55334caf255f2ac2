//! Document 01, "Periods" and "Verdict", with document 02, W-201, W-204 and W-205:
//! the year a book holds, event by event, and the refusals that depend on it (8,
//! 9, 10, 14, 15 and 17).

use std::num::NonZeroU64;

use super::Status;
use super::book::{Event, MAX_EVENTS};
use super::refusal;
use super::rounding::half_even;
use super::setup::Setup;
use super::work::{MAX_ENGINES, Pollutant};

const HUNDRED: NonZeroU64 = NonZeroU64::new(100).unwrap();

/// An engine of the book.
#[derive(Clone, Copy)]
struct Engine {
    number: u16,
    results: [u16; 2],
    /// The standards in force when it was entered.
    standards: [u16; 2],
}

impl Engine {
    /// "both results at or below the standards in force when entered"
    fn passes(&self) -> bool {
        let mut pairs = self.results.iter().zip(&self.standards);
        pairs.all(|(result, standard)| result <= standard)
    }
}

const NO_ENGINE: Engine = Engine {
    number: 0,
    results: [0; 2],
    standards: [0; 2],
};

/// C low and C high of HC+NOx, then of CO, at each engine. All are below 3.4e9.
pub(super) type Cumsums = [[u32; 4]; MAX_ENGINES];

/// What the wall page says of an engine.
pub(super) struct Line {
    pub(super) number: u16,
    pub(super) results: [u16; 2],
    pub(super) cumsums: [u32; 4],
    pub(super) marks: [u8; 2],
}

/// A setup and the events entered so far. Its engines are those that remain.
pub(super) struct Year {
    pub(super) setup: Setup,
    /// The standards in force for the next engine.
    standards: [u16; 2],
    events: usize,
    /// The current period, from 1, and the engines entered in it.
    period: u8,
    in_period: u8,
    declared: bool,
    deletion: bool,
    pollutants: [Pollutant; 2],
    /// The engines and their marks, in order; only the first n are in the book.
    engines: [Engine; MAX_ENGINES],
    marks: [[u8; 2]; MAX_ENGINES],
}

impl Year {
    /// The year right after its setup.
    pub(super) fn new(setup: Setup) -> Self {
        Self {
            setup,
            standards: setup.standards,
            events: 0,
            period: 1,
            in_period: 0,
            declared: false,
            deletion: false,
            pollutants: [Pollutant::new(); 2],
            engines: [NO_ENGINE; MAX_ENGINES],
            marks: [[0; 2]; MAX_ENGINES],
        }
    }

    /// How many events are stored.
    pub(super) fn events(&self) -> usize {
        self.events
    }

    /// Whether an engine has been deleted.
    pub(super) fn has_deletion(&self) -> bool {
        self.deletion
    }

    /// n; at most 40.
    pub(super) fn n(&self) -> usize {
        self.pollutants[0].n as usize
    }

    fn engines(&self) -> &[Engine] {
        self.engines.get(..self.n()).unwrap_or_default()
    }

    /// How many engines verdict 4 counts: those in the book that pass. An
    /// amendment after an engine does not change whether it passes, so this is
    /// not asked of the standards that are now in force.
    fn passing(&self) -> u64 {
        let passing = self.engines().iter().filter(|engine| engine.passes());
        passing.count() as u64
    }

    /// "one percent of P, rounded, halves to even"
    fn one_percent(&self) -> u64 {
        half_even(self.setup.volume.into(), HUNDRED)
    }

    /// The marks of the strip, HC+NOx then CO for each engine.
    pub(super) fn strip(&self) -> &[u8] {
        self.marks
            .get(..self.n())
            .unwrap_or_default()
            .as_flattened()
    }

    /// Notes C at the newest engine; after a deletion that is one noted before.
    pub(super) fn note_cumsums(&self, cumsums: &mut Cumsums) {
        let [hcnox, co] = &self.pollutants;
        let newest = self.n().checked_sub(1);
        if let Some(place) = newest.and_then(|newest| cumsums.get_mut(newest)) {
            *place = [hcnox.c_low, hcnox.c_high, co.c_low, co.c_high].map(|c| c as u32);
        }
    }

    /// The engines' lines of the wall page, if C was noted after each event.
    pub(super) fn lines(&self, cumsums: &Cumsums) -> impl Iterator<Item = Line> {
        let worked = cumsums.iter().zip(&self.marks);
        let lines = self.engines().iter().zip(worked);
        lines.map(|(engine, (&cumsums, &marks))| Line {
            number: engine.number,
            results: engine.results,
            cumsums,
            marks,
        })
    }

    fn failed(&self) -> bool {
        self.pollutants.iter().any(|pollutant| pollutant.failed)
    }

    /// "The first period needs two engines, a later one needs one."
    fn short(&self) -> bool {
        self.in_period < if self.period == 1 { 2 } else { 1 }
    }

    /// "The first that applies". Verdict 3 "still counts every engine". If every
    /// engine fails, verdict 4 needs a one percent of 0.
    fn verdict(&self) -> u8 {
        if self.declared {
            7
        } else if self.failed() {
            6
        } else if self.pollutants.iter().any(|pollutant| pollutant.unsettled) {
            5
        } else if self.short() {
            0
        } else if self.pollutants.iter().all(Pollutant::may_stop) {
            2
        } else if self.n() >= 30 {
            3
        } else if self.passing() >= self.one_percent() {
            4
        } else {
            1
        }
    }

    pub(super) fn status(&self) -> Status {
        Status {
            n: self.pollutants[0].n,
            verdict: self.verdict(),
            pollutants: self.pollutants.each_ref().map(Pollutant::figures),
        }
    }

    /// Refusals 8 and 9, which are checked for every event.
    pub(super) fn check_open(&self) -> Result<(), u8> {
        if self.declared || self.failed() {
            return Err(refusal::CLOSED);
        }
        if self.events >= MAX_EVENTS {
            return Err(refusal::EVENTS_FULL);
        }
        Ok(())
    }

    /// Refusal 10.
    pub(super) fn check_number(&self, number: u32) -> Result<u16, u8> {
        let in_book = |number| self.engines().iter().any(|engine| engine.number == number);
        match u16::try_from(number) {
            Ok(number) if number != 0 && !in_book(number) => Ok(number),
            _ => Err(refusal::ENGINE_NUMBER),
        }
    }

    /// Refusal 14.
    pub(super) fn check_room(&self) -> Result<(), u8> {
        if self.n() >= MAX_ENGINES {
            return Err(refusal::ENGINES_FULL);
        }
        Ok(())
    }

    /// Refusal 15. A period is short by its engines, whatever the verdict.
    pub(super) fn check_next_period(&self) -> Result<(), u8> {
        if self.period >= self.setup.periods() || self.short() {
            return Err(refusal::NEXT_PERIOD);
        }
        Ok(())
    }

    /// Refusal 17. The newest engine is of the current period if any is.
    pub(super) fn check_deletion(&self) -> Result<(), u8> {
        if self.in_period == 0 {
            return Err(refusal::NO_DELETION);
        }
        Ok(())
    }

    /// Whether this event, in range by itself, could be entered next.
    pub(super) fn check(&self, event: &Event) -> Result<(), u8> {
        self.check_open()?;
        match *event {
            Event::Engine { number, .. } => {
                self.check_number(number.into())?;
                self.check_room()
            }
            Event::NextPeriod => self.check_next_period(),
            Event::Deletion => self.check_deletion(),
            Event::Amendment { .. } | Event::Declaration => Ok(()),
        }
    }

    /// Adds an event that has passed its checks.
    pub(super) fn enter(&mut self, event: &Event) {
        self.events += 1;
        match *event {
            Event::Engine {
                results, number, ..
            } => self.enter_engine(results, number),
            // "it sets T for later engines"
            Event::Amendment { standards } => self.standards = standards,
            Event::NextPeriod => {
                self.period += 1;
                self.in_period = 0;
            }
            Event::Declaration => self.declared = true,
            Event::Deletion => self.enter_deletion(),
        }
    }

    fn enter_engine(&mut self, results: [u16; 2], number: u16) {
        self.work(Engine {
            number,
            results,
            standards: self.standards,
        });
        self.in_period += 1;
    }

    /// "All figures become those the book had without that engine": the others
    /// are worked again, each under the standards of its entry.
    fn enter_deletion(&mut self) {
        let engines = self.engines;
        let remaining = self.n() - 1;
        self.pollutants = [Pollutant::new(); 2];
        for engine in engines.into_iter().take(remaining) {
            self.work(engine);
        }
        self.in_period -= 1;
        self.deletion = true;
    }

    /// Works the next engine and keeps it with its marks.
    fn work(&mut self, engine: Engine) {
        let place = self.n();
        let [hcnox, co] = &mut self.pollutants;
        hcnox.add(engine.results[0].into(), engine.standards[0].into());
        co.add(engine.results[1].into(), engine.standards[1].into());
        if let (Some(kept_engine), Some(kept_marks)) =
            (self.engines.get_mut(place), self.marks.get_mut(place))
        {
            *kept_engine = engine;
            *kept_marks = [hcnox.mark, co.mark];
        }
    }
}
