//! Counts of what a run has met.

use crate::kinds::KINDS;
use crate::model::Status;
use crate::page::Page;
use crate::page_counts::PageCounts;
use crate::tally::{MET, SLIPS, Tally};

/// A sort of call.
#[derive(Clone, Copy, PartialEq, Eq, Debug)]
pub enum Column {
    Letter(usize),
    Other,
    Engine,
    Ask,
    Status,
    Marks,
    Report,
}

const LETTERS: &[u8; 8] = b"SETAPXLZ";
const COLUMNS: usize = LETTERS.len() + 6;
const NAMES: [&str; COLUMNS] = [
    "S", "E", "T", "A", "P", "X", "L", "Z", "other", "engine", "ask", "status", "marks", "report",
];
const REFUSALS: usize = 19;

/// What each sort of call can answer, 0 for accepted; a run has to meet it all.
const POSSIBLE: [&[usize]; COLUMNS] = [
    &[0, 1, 2, 3, 4, 5, 6],
    &[0, 1, 2, 3, 7, 8, 9, 10, 11, 12, 13, 14],
    &[0, 1, 2, 3, 7, 8, 9, 10, 11, 12, 13, 14],
    &[0, 1, 2, 3, 5, 7, 8, 9],
    &[0, 1, 2, 3, 7, 8, 9, 15],
    &[0, 1, 2, 3, 7, 8, 9],
    &[0, 1, 2, 3, 7],
    &[0, 1, 2, 3, 7, 8, 9, 17],
    &[1, 2],
    &[0, 3, 7, 8, 9, 10, 11, 12, 13, 14],
    &[0, 3, 7, 8, 9, 10, 11, 12, 13, 14],
    &[0, 3, 7],
    &[0, 3, 7, 16],
    &[0, 3, 7, 18],
];

/// What is compared without the model.
#[derive(Clone, Copy, PartialEq, Eq, Debug)]
pub enum Compared {
    Deletion,
    YearOfDeletions,
    Ask,
    YearOfAsks,
    OnePercent,
    Page,
    PageElsewhere,
    PageOfStart,
}

const COMPARED: [&str; 8] = [
    "deletions compared with the status before the engine",
    "years compared with the same without deleted engines",
    "asks compared with the entry of the same engine",
    "years compared with the same without asks",
    "verdicts 1, 3 and 4 compared with a count of the engines",
    "wall pages compared with the journal's bytes, the marks and the status",
    "wall pages compared with the same in another buffer",
    "wall pages compared with that of the year up to an engine",
];

const VERSIONS: usize = 2;
const VERDICTS: usize = 8;
const MARKS: &[u8; 4] = b"-U?O";

impl Column {
    pub fn of_letter(letter: u8) -> Self {
        let place = LETTERS.iter().position(|known| *known == letter);
        place.map_or(Column::Other, Column::Letter)
    }

    fn place(self) -> usize {
        match self {
            Column::Letter(place) => place,
            Column::Other => LETTERS.len(),
            Column::Engine => LETTERS.len() + 1,
            Column::Ask => LETTERS.len() + 2,
            Column::Status => LETTERS.len() + 3,
            Column::Marks => LETTERS.len() + 4,
            Column::Report => LETTERS.len() + 5,
        }
    }
}

#[derive(Clone, Default, Debug)]
pub struct Counts {
    pub calls: u64,
    short: u64,
    /// Cases and calls by kind of input.
    kinds: [(u64, u64); KINDS.len()],
    /// Calls by refusal, 0 for accepted, and by sort of call.
    refusals: [[u64; COLUMNS]; REFUSALS],
    /// Accepted journals read, by version, from 1.
    versions: [u64; VERSIONS],
    /// What was compared without the model, in the order of `Compared`.
    compared: [u64; COMPARED.len()],
    verdicts: [u64; VERDICTS],
    /// Verdicts in years with failing engines, in the order of `MET`, and those
    /// that a slip would change, in the order of `SLIPS`: verdicts 1 and 4.
    met: [u64; MET.len()],
    slips: [[u64; 2]; SLIPS.len()],
    /// By pollutant: the newest marks reported, the marks written, and those on
    /// wall pages.
    newest: [[u64; MARKS.len()]; 2],
    written: [[u64; MARKS.len()]; 2],
    on_pages: [[u64; MARKS.len()]; 2],
    pub pages: PageCounts,
}

impl Counts {
    pub fn cases(&self) -> u64 {
        self.kinds.iter().map(|(cases, _)| cases).sum()
    }

    /// Counts all this as one case of this kind.
    pub fn case(&mut self, kind: usize) {
        self.kinds[kind] = (1, self.calls);
    }

    /// Adds what a further case has met.
    pub fn add(&mut self, case: &Counts) {
        self.calls += case.calls;
        self.short += case.short;
        for (all, (cases, calls)) in self.kinds.iter_mut().zip(&case.kinds) {
            all.0 += cases;
            all.1 += calls;
        }
        add_each(&mut self.refusals, &case.refusals);
        add_row(&mut self.versions, &case.versions);
        add_row(&mut self.compared, &case.compared);
        add_row(&mut self.verdicts, &case.verdicts);
        add_row(&mut self.met, &case.met);
        add_each(&mut self.slips, &case.slips);
        add_each(&mut self.newest, &case.newest);
        add_each(&mut self.written, &case.written);
        add_each(&mut self.on_pages, &case.on_pages);
        self.pages.add(&case.pages);
    }

    pub fn call(&mut self, column: Column, refusal: u8) {
        self.calls += 1;
        self.refusals[usize::from(refusal)][column.place()] += 1;
    }

    /// A call with a buffer too small for any answer.
    pub fn short(&mut self) {
        self.calls += 1;
        self.short += 1;
    }

    /// An accepted journal that was read.
    pub fn version(&mut self, version: u8) {
        self.versions[usize::from(version) - 1] += 1;
    }

    /// A comparison without the model.
    pub fn compared(&mut self, what: Compared) {
        self.compared[what as usize] += 1;
    }

    /// A verdict on a year with these engines.
    pub fn tally(&mut self, verdict: u8, tally: &Tally) {
        add_row(&mut self.met, &tally.meets(verdict).map(u64::from));
        let changes = tally.changes(verdict).map(|row| row.map(u64::from));
        add_each(&mut self.slips, &changes);
    }

    pub fn status(&mut self, status: &Status) {
        self.told(
            status.verdict,
            status.pollutants.map(|figures| figures.mark),
        );
    }

    /// The reply to a line.
    pub fn reply(&mut self, letter: u8, reply: &[u8]) {
        let Some(rest) = reply.strip_prefix(b"OK") else {
            return;
        };
        let rest = rest.strip_prefix(b" ").unwrap_or(rest);
        if letter == b'L' {
            return self.written(rest);
        }
        let mut fields = rest.split(|byte| *byte == b' ').skip(1);
        if let (Some([verdict]), Some([hcnox, co])) = (fields.next(), fields.next()) {
            self.told(verdict - b'0', [*hcnox, *co]);
        }
    }

    /// Marks that were written, HC+NOx and CO by turns.
    pub fn written(&mut self, marks: &[u8]) {
        for (place, mark) in marks.iter().enumerate() {
            self.written[place % 2][mark_place(*mark)] += 1;
        }
    }

    /// A right wall page of this journal, and the verdict on its year.
    pub fn page(&mut self, page: &Page, journal: &[u8], verdict: u64) {
        for line in &page.engines {
            count_marks(&mut self.on_pages, line.marks);
        }
        self.pages.page(page, journal, verdict);
    }

    fn told(&mut self, verdict: u8, marks: [u8; 2]) {
        self.verdicts[usize::from(verdict)] += 1;
        count_marks(&mut self.newest, marks);
    }

    /// What was never met and should have been.
    pub fn missing(&self) -> Vec<String> {
        let mut missing = Vec::new();
        for (column, possible) in POSSIBLE.iter().enumerate() {
            let unmet = |refusal: &&usize| self.refusals[**refusal][column] == 0;
            for refusal in possible.iter().filter(unmet) {
                missing.push(format!("refusal {refusal} of {}", NAMES[column]));
            }
        }
        if self.short == 0 {
            missing.push("a buffer too small for any answer".to_string());
        }
        for (place, count) in self.versions.iter().enumerate() {
            if *count == 0 {
                missing.push(format!("a journal of version {}", place + 1));
            }
        }
        for (name, count) in COMPARED.iter().zip(&self.compared) {
            if *count == 0 {
                missing.push(name.to_string());
            }
        }
        for (verdict, count) in self.verdicts.iter().enumerate() {
            if *count == 0 {
                missing.push(format!("verdict {verdict}"));
            }
        }
        for (name, row) in self.mark_rows() {
            for (mark, count) in MARKS.iter().zip(row) {
                if *count == 0 {
                    missing.push(format!("mark '{}' {name}", char::from(*mark)));
                }
            }
        }
        missing.extend(self.missing_of_failing());
        missing.extend(self.pages.missing());
        missing
    }

    /// What was never met of years with failing engines.
    fn missing_of_failing(&self) -> Vec<String> {
        let mut missing = Vec::new();
        for (name, count) in MET.iter().zip(&self.met) {
            if *count == 0 {
                missing.push(name.to_string());
            }
        }
        for ((name, possible), row) in SLIPS.iter().zip(&self.slips) {
            for (place, verdict) in [1, 4].into_iter().enumerate() {
                if possible[place] && row[place] == 0 {
                    missing.push(format!("verdict {verdict}, another if one counted {name}"));
                }
            }
        }
        missing
    }

    fn mark_rows(&self) -> [(&'static str, &[u64; MARKS.len()]); 6] {
        [
            ("newest, HC+NOx", &self.newest[0]),
            ("newest, CO", &self.newest[1]),
            ("written, HC+NOx", &self.written[0]),
            ("written, CO", &self.written[1]),
            ("on pages, HC+NOx", &self.on_pages[0]),
            ("on pages, CO", &self.on_pages[1]),
        ]
    }

    pub fn print(&self) {
        println!("\ninput kind        cases       calls");
        for (kind, (cases, calls)) in KINDS.iter().zip(&self.kinds) {
            println!("{:<12} {cases:>10} {calls:>11}", kind.name);
        }
        self.print_refusals();
        println!("\nbuffers too small for any answer: {}", self.short);
        println!("\nversion        read");
        for (place, count) in self.versions.iter().enumerate() {
            println!("{:>7} {count:>11}", place + 1);
        }
        println!();
        for (name, count) in COMPARED.iter().zip(&self.compared) {
            println!("{name}: {count}");
        }
        println!("\nverdict        told");
        for (verdict, count) in self.verdicts.iter().enumerate() {
            println!("{verdict:>7} {count:>11}");
        }
        self.print_failing();
        println!("\nmarks                    '-'        'U'        '?'        'O'");
        for (name, row) in self.mark_rows() {
            let cells = row.map(|count| format!("{count:>11}")).concat();
            println!("{name:<17}{cells}");
        }
        self.pages.print();
    }

    fn print_failing(&self) {
        println!();
        for (name, count) in MET.iter().zip(&self.met) {
            println!("{name}: {count}");
        }
        println!("\nverdicts that change if one counts                 1          4");
        for ((name, _), [ones, fours]) in SLIPS.iter().zip(&self.slips) {
            println!("{name:<42}{ones:>10} {fours:>10}");
        }
    }

    fn print_refusals(&self) {
        let heads = NAMES.map(|name| format!("{name:>9}")).concat();
        println!("\ncalls by refusal (0: accepted) and by sort\n  {heads}    total");
        for (refusal, row) in self.refusals.iter().enumerate() {
            let cells = row.map(|count| format!("{count:>9}")).concat();
            println!("{refusal:>2}{cells}{:>9}", row.iter().sum::<u64>());
        }
    }
}

pub fn add_each<const N: usize>(all: &mut [[u64; N]], case: &[[u64; N]]) {
    add_row(all.as_flattened_mut(), case.as_flattened());
}

pub fn add_row(all: &mut [u64], case: &[u64]) {
    for (sum, count) in all.iter_mut().zip(case) {
        *sum += count;
    }
}

/// Counts the marks of both pollutants.
fn count_marks(rows: &mut [[u64; MARKS.len()]; 2], marks: [u8; 2]) {
    for (row, mark) in rows.iter_mut().zip(marks) {
        row[mark_place(mark)] += 1;
    }
}

fn mark_place(mark: u8) -> usize {
    let place = MARKS.iter().position(|known| *known == mark);
    place.expect("a mark is one of the four")
}
