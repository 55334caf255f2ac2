//! A year as far as it has been entered, kept to choose the next inputs.

use crate::journal::{self, Setup, Slot};
use crate::model::Pollutant;
use crate::random::Random;

#[derive(Clone, Debug)]
pub struct Year {
    pub setup: Setup,
    /// The standards in force.
    pub standards: [u32; 2],
    pub workers: [Pollutant; 2],
    pub slots: Vec<Slot>,
    /// The workers before each engine that remains.
    before: Vec<[Pollutant; 2]>,
    /// The numbers of the engines that remain, and of those deleted.
    numbers: Vec<u32>,
    deleted: Vec<u32>,
    period: u32,
    in_period: u32,
    declared: bool,
}

impl Year {
    pub fn new(setup: Setup) -> Self {
        Year {
            setup,
            standards: setup.standards,
            workers: [Pollutant::new(), Pollutant::new()],
            slots: Vec::new(),
            before: Vec::new(),
            numbers: Vec::new(),
            deleted: Vec::new(),
            period: 1,
            in_period: 0,
            declared: false,
        }
    }

    pub fn engines(&self) -> usize {
        self.numbers.len()
    }

    pub fn events(&self) -> usize {
        self.slots.len()
    }

    pub fn journal(&self) -> Vec<u8> {
        journal::write(&self.setup, &self.slots)
    }

    /// Neither failed nor declared.
    pub fn open(&self) -> bool {
        !self.declared && !self.workers.iter().any(|worker| worker.failed)
    }

    /// The current period lacks engines.
    pub fn short(&self) -> bool {
        self.in_period < if self.period == 1 { 2 } else { 1 }
    }

    pub fn last_period(&self) -> bool {
        self.period >= self.setup.periods()
    }

    /// The newest engine was entered in the current period.
    pub fn deletable(&self) -> bool {
        self.in_period > 0
    }

    pub fn engine(&mut self, readings: u8, results: [u32; 2], number: u32) {
        self.before.push(self.workers);
        for (place, worker) in self.workers.iter_mut().enumerate() {
            worker.add(results[place], self.standards[place]);
        }
        self.slots
            .push(journal::engine_slot(readings, results, number));
        self.numbers.push(number);
        self.in_period += 1;
    }

    pub fn amendment(&mut self, standards: [u32; 2]) {
        self.standards = standards;
        self.slots.push(journal::amendment_slot(standards));
    }

    pub fn next_period(&mut self) {
        self.period += 1;
        self.in_period = 0;
        self.slots.push(journal::NEXT_PERIOD);
    }

    pub fn declaration(&mut self) {
        self.declared = true;
        self.slots.push(journal::DECLARATION);
    }

    /// Deletes the newest engine, which is of the current period.
    pub fn deletion(&mut self) {
        self.workers = self.before.pop().expect("an engine to delete");
        self.deleted.extend(self.numbers.pop());
        self.in_period -= 1;
        self.slots.push(journal::DELETION);
    }

    /// An engine number that is not in use, sometimes a deleted engine's.
    pub fn free_number(&self, random: &mut Random) -> u32 {
        loop {
            let number = match random.below(4) {
                0 => self.engines() as u32 + 1,
                1 => random.pick(&[1, 255, 256, 65_534, 65_535]),
                2 if !self.deleted.is_empty() => random.pick(&self.deleted),
                _ => random.between(1, 65_535),
            };
            if !self.numbers.contains(&number) {
                return number;
            }
        }
    }
}
