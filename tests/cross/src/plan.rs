//! What to enter next in a year.

use crate::aim::{Aim, aim, climb};
use crate::journal::Setup;
use crate::random::Random;
use crate::results::{Fails, Pattern};
use crate::setups;
use crate::year::Year;

#[derive(Clone, Copy, Debug)]
pub enum Move {
    Engine([u32; 2]),
    Amendment([u32; 2]),
    NextPeriod,
    Declaration,
    Deletion,
}

/// How the results of a year are chosen.
#[derive(Clone, Debug)]
pub struct Plan {
    patterns: [Pattern; 2],
    /// Pollutants whose marks are aimed at, and those whose C is to become large.
    hunted: [bool; 2],
    climbing: [bool; 2],
    /// One in this many moves is an amendment.
    amendments: usize,
    /// Whether an amendment may set any standard.
    free: bool,
    /// Results to enter after an amendment made for them.
    pending: Option<[u32; 2]>,
    /// One in this many moves is a deletion, or the first of several.
    deletions: Option<usize>,
    /// How many more are to follow the last one.
    more: usize,
}

impl Plan {
    /// A year that can grow long.
    pub fn passing(random: &mut Random, setup: &Setup) -> Self {
        Plan {
            patterns: setup.standards.map(|t| Pattern::passing(random, t)),
            hunted: [false; 2],
            climbing: [false; 2],
            amendments: 12,
            free: false,
            pending: None,
            deletions: random.pick(&[None, None, None, Some(4), Some(12), Some(30)]),
            more: 0,
        }
    }

    /// A year of any sort.
    pub fn any(random: &mut Random, setup: &Setup) -> Self {
        let mut plan = Self::passing(random, setup);
        plan.patterns = setup.standards.map(|t| Pattern::any(random, t));
        plan.free = random.one_in(2);
        plan
    }

    /// A year whose marks are aimed at for one pollutant or both.
    pub fn hunting(random: &mut Random, setup: &Setup) -> Self {
        let mut plan = Self::passing(random, setup);
        plan.hunted = random.pick(&[[true, false], [false, true], [true, true]]);
        plan
    }

    /// A year whose C becomes as large as it can, for one pollutant or both.
    pub fn climbing(random: &mut Random, setup: &Setup) -> Self {
        let mut plan = Self::passing(random, setup);
        plan.climbing = random.pick(&[[true, false], [false, true], [true, true]]);
        plan.amendments = 100;
        plan
    }

    /// A year that can grow long although engines fail: one standard or both,
    /// some engines, nearly all or all of them.
    pub fn failing(random: &mut Random, setup: &Setup) -> Self {
        let others = [Fails::Never, Fails::Always, Fails::OneIn(2)];
        let other = random.pick(&others);
        let place = random.below(40);
        let mut fails = random.pick(&[
            [Fails::Always, other],
            [Fails::Even, Fails::Odd],
            [Fails::AllBut(place), Fails::AllBut(place)],
            [Fails::AllBut(place), Fails::Never],
            [Fails::OneIn(2), Fails::Never],
            [Fails::OneIn(3), Fails::OneIn(3)],
            [Fails::OneIn(12), Fails::OneIn(12)],
            [Fails::Never, Fails::Never],
        ]);
        if random.one_in(2) {
            fails.reverse();
        }
        let mut plan = Self::passing(random, setup);
        plan.patterns = fails.map(Pattern::verge);
        plan.amendments = random.pick(&[3, 6, 12, 100]);
        plan.free = random.one_in(4);
        plan
    }

    /// The same without deletions.
    pub fn without_deletions(self) -> Self {
        Plan {
            deletions: None,
            ..self
        }
    }

    pub fn next(&mut self, random: &mut Random, year: &Year) -> Move {
        if let Some(results) = self.pending.take() {
            return Move::Engine(results);
        }
        if self.deletes(random, year) {
            return Move::Deletion;
        }
        if !year.short() && !year.last_period() && random.one_in(4) {
            return Move::NextPeriod;
        }
        if random.one_in(self.amendments) {
            return Move::Amendment(year.standards.map(|t| self.amended(random, t)));
        }
        self.engine(random, year)
    }

    /// Whether a deletion comes next; now and then where it is refused.
    fn deletes(&mut self, random: &mut Random, year: &Year) -> bool {
        if self.more == 0 && self.deletions.is_some_and(|moves| random.one_in(moves)) {
            self.more = random.pick(&[1, 1, 1, 2, 3, 8]);
        }
        if self.more == 0 {
            return false;
        }
        self.more -= 1;
        year.deletable() || random.one_in(4)
    }

    fn amended(&self, random: &mut Random, standard: u32) -> u32 {
        match random.below(5) {
            0 => standard,
            1 => (standard + 10 * random.between(0, 30)).min(20_000),
            2 => (standard - 10).max(10),
            3 => (standard + 10).min(20_000),
            _ if self.free => setups::standard(random),
            _ => standard,
        }
    }

    /// An engine, or the amendment that has to come before it.
    fn engine(&mut self, random: &mut Random, year: &Year) -> Move {
        let aims = [0, 1].map(|place| self.aimed(random, year, place));
        let results = aims.map(|aim| aim.result);
        let standards = aims.map(|aim| aim.standard);
        if standards == year.standards {
            return Move::Engine(results);
        }
        self.pending = Some(results);
        Move::Amendment(standards)
    }

    fn aimed(&self, random: &mut Random, year: &Year, place: usize) -> Aim {
        if self.climbing[place] {
            return climb(random, &year.workers[place], year.standards[place]);
        }
        if self.hunted[place] && year.engines() > 0 {
            let wish = random.pick(b"??????OOUUU");
            return aim(random, &year.workers[place], wish);
        }
        let standard = year.standards[place];
        let result = self.patterns[place].result(random, standard, year.engines());
        Aim { result, standard }
    }
}
