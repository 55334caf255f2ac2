//! The engines that the one percent counts, read from a journal's bytes without
//! the model, and what a run has to meet of them.

use crate::journal;

/// Verdicts that a run has to meet in years with failing engines.
pub const MET: [&str; 7] = [
    "verdict 4, some engines failing",
    "verdict 4, some engines failing, exactly one percent passing",
    "verdict 4, every engine failing, one percent 0",
    "verdict 1, n at least one percent, every engine failing",
    "verdict 1, n at least one percent, one too few passing",
    "verdict 3, n at least one percent, fewer passing",
    "verdict 3, every engine failing",
];

/// Wrong counts for verdict 4: which engines are counted, and whether these can be
/// too many, so that a verdict 1 would change, and too few, so that a verdict 4
/// would. A run has to meet such verdicts, to find the count if it is the library's.
pub const SLIPS: [(&str, [bool; 2]); 11] = [
    ("every engine", [true, false]),
    ("no engine once one fails", [false, true]),
    ("those below both standards", [false, true]),
    ("those at most one above the standards", [true, false]),
    ("those that pass in HC+NOx", [true, false]),
    ("those that pass in CO", [true, false]),
    ("those that do not fail both", [true, false]),
    ("those that pass under the first standards", [true, true]),
    ("those that pass under the newest standards", [true, true]),
    ("those that pass, deleted ones too", [true, false]),
    ("n less those that fail, deleted ones too", [false, true]),
];

/// An engine's results, and the standards in force when it was entered.
#[derive(Clone, Copy, Debug)]
struct Engine {
    results: [u16; 2],
    standards: [u16; 2],
}

impl Engine {
    fn passes(&self) -> bool {
        self.passes_under(self.standards)
    }

    fn passes_under(&self, standards: [u16; 2]) -> bool {
        self.results[0] <= standards[0] && self.results[1] <= standards[1]
    }

    /// For one pollutant.
    fn passes_in(&self, place: usize) -> bool {
        self.results[place] <= self.standards[place]
    }
}

/// The engines of an accepted journal, and the one percent that they are to reach.
#[derive(Clone, Debug)]
pub struct Tally {
    one_percent: usize,
    /// The standards of the setup, and those now in force.
    first: [u16; 2],
    newest: [u16; 2],
    remaining: Vec<Engine>,
    deleted: Vec<Engine>,
}

impl Tally {
    pub fn of(journal: &[u8]) -> Self {
        let volume = u32::from_le_bytes([journal[8], journal[9], journal[10], journal[11]]);
        let first = [journal[14], journal[15], journal[16], journal[17]];
        let mut tally = Tally {
            one_percent: one_percent(volume),
            first: words(first),
            newest: words(first),
            remaining: Vec::new(),
            deleted: Vec::new(),
        };
        for slot in journal::slots(journal) {
            let [kind, _, a, b, c, d, ..] = slot;
            match kind {
                1 => tally.remaining.push(Engine {
                    results: words([a, b, c, d]),
                    standards: tally.newest,
                }),
                2 => tally.newest = words([a, b, c, d]),
                _ if slot == journal::DELETION => tally.deleted.extend(tally.remaining.pop()),
                _ => {}
            }
        }
        tally
    }

    /// Engines that remain.
    fn engines(&self) -> usize {
        self.remaining.len()
    }

    /// Those of them that pass, which alone count.
    fn passing(&self) -> usize {
        self.count(Engine::passes)
    }

    fn count(&self, counts: impl Fn(&Engine) -> bool) -> usize {
        self.remaining
            .iter()
            .filter(|engine| counts(engine))
            .count()
    }

    /// Whether an answer can have this verdict, as far as it depends on the
    /// engines: thirty are enough for verdict 3, failing ones too, and below that
    /// one percent passing are enough for verdict 4.
    pub fn allows(&self, verdict: u8) -> bool {
        let enough = self.passing() >= self.one_percent;
        match verdict {
            1 => !enough && self.engines() < 30,
            3 => self.engines() >= 30,
            4 => enough && self.engines() < 30,
            _ => true,
        }
    }

    /// Which of `MET` this verdict meets.
    pub fn meets(&self, verdict: u8) -> [bool; MET.len()] {
        let (n, passing) = (self.engines(), self.passing());
        let too_few = (passing + 1..=n).contains(&self.one_percent);
        [
            verdict == 4 && (1..n).contains(&passing),
            verdict == 4 && (1..n).contains(&passing) && passing == self.one_percent,
            verdict == 4 && passing == 0,
            verdict == 1 && too_few && passing == 0,
            verdict == 1 && too_few && passing + 1 == self.one_percent,
            verdict == 3 && too_few,
            verdict == 3 && passing == 0,
        ]
    }

    /// Which of `SLIPS` would change this verdict: a verdict 1, a verdict 4.
    pub fn changes(&self, verdict: u8) -> [[bool; 2]; SLIPS.len()] {
        self.slips().map(|count| {
            let enough = count >= self.one_percent;
            [verdict == 1 && enough, verdict == 4 && !enough]
        })
    }

    /// What each of `SLIPS` counts.
    fn slips(&self) -> [usize; SLIPS.len()] {
        let (n, passing) = (self.engines(), self.passing());
        let deleted = self.deleted.iter();
        let deleted_passing = deleted.filter(|engine| engine.passes()).count();
        let deleted_failing = self.deleted.len() - deleted_passing;
        [
            n,
            if passing < n { 0 } else { n },
            self.count(|engine| engine.passes_under(engine.standards.map(|t| t - 1))),
            self.count(|engine| engine.passes_under(engine.standards.map(|t| t + 1))),
            self.count(|engine| engine.passes_in(0)),
            self.count(|engine| engine.passes_in(1)),
            self.count(|engine| engine.passes_in(0) || engine.passes_in(1)),
            self.count(|engine| engine.passes_under(self.first)),
            self.count(|engine| engine.passes_under(self.newest)),
            passing + deleted_passing,
            passing.saturating_sub(deleted_failing),
        ]
    }

    /// The counts, for printing.
    pub fn summary(&self) -> String {
        format!(
            "{} of {} engines pass, one percent is {}",
            self.passing(),
            self.engines(),
            self.one_percent
        )
    }
}

/// One percent of a volume: halves up, but to the even neighbour if that is below.
fn one_percent(volume: u32) -> usize {
    let up = (volume as usize + 50) / 100;
    up - usize::from(volume % 200 == 50)
}

/// Two little-endian words, HC+NOx then CO.
fn words([a, b, c, d]: [u8; 4]) -> [u16; 2] {
    [u16::from_le_bytes([a, b]), u16::from_le_bytes([c, d])]
}
