//! Counts of the wall pages that a run has met.

use std::array;

use crate::counts::{add_each, add_row};
use crate::journal;
use crate::library::LINE;
use crate::page::{Line, Page};

/// A page has no engine or up to forty, its year one to four periods and a
/// verdict from 0 to 7.
const ENGINES: usize = 41;
const PERIODS: usize = 4;
const VERDICTS: usize = 8;

/// The columns of numbers, and the most digits that their figures have. C has a
/// column of ten, but no accepted journal brings it to 460,000,000: of any three
/// engines in a row one is not marked 'O', so that C is at most H there, five
/// spreads, at most 70,711 result units, and each engine adds less than 20,000.
const COLUMNS: [(&str, usize); 9] = [
    ("P", 8),
    ("D", 3),
    ("engine number", 5),
    ("HC+NOx result", 5),
    ("CO result", 5),
    ("HC+NOx C low", 9),
    ("HC+NOx C high", 9),
    ("CO C low", 9),
    ("CO C high", 9),
];
const DIGITS: usize = 10;

/// Lengths of a buffer that a run has to meet.
const BUFFERS: [&str; 8] = [
    "refused, no byte",
    "refused, less than a line",
    "refused, but room for n lines",
    "refused, but 60 bytes for each line",
    "refused, one byte too few",
    "written, just enough",
    "written, less than a line more",
    "written, a line more or longer",
];

/// What a run has to meet on its pages.
const MET: [&str; 7] = [
    "pages of a year with deleted engines",
    "pages of a year that is not in its last period",
    "pages on which the newest C is not on every line",
    "lines with other results for CO",
    "lines with other marks for CO",
    "lines with C low below C high for HC+NOx",
    "lines with C low below C high for CO",
];

#[derive(Clone, Debug)]
pub struct PageCounts {
    engines: [u64; ENGINES],
    /// By the periods of the year, from 1.
    periods: [u64; PERIODS],
    verdicts: [u64; VERDICTS],
    /// The figures of each column by their digits, from 1.
    digits: [[u64; DIGITS]; COLUMNS.len()],
    buffers: [u64; BUFFERS.len()],
    met: [u64; MET.len()],
    largest_cumsum: u64,
}

impl Default for PageCounts {
    fn default() -> Self {
        PageCounts {
            engines: [0; ENGINES],
            periods: [0; PERIODS],
            verdicts: [0; VERDICTS],
            digits: [[0; DIGITS]; COLUMNS.len()],
            buffers: [0; BUFFERS.len()],
            met: [0; MET.len()],
            largest_cumsum: 0,
        }
    }
}

impl PageCounts {
    /// Adds what a further case has met.
    pub fn add(&mut self, case: &PageCounts) {
        add_row(&mut self.engines, &case.engines);
        add_row(&mut self.periods, &case.periods);
        add_row(&mut self.verdicts, &case.verdicts);
        add_each(&mut self.digits, &case.digits);
        add_row(&mut self.buffers, &case.buffers);
        add_row(&mut self.met, &case.met);
        self.largest_cumsum = self.largest_cumsum.max(case.largest_cumsum);
    }

    /// A buffer of this length, lent for the page of an accepted journal.
    pub fn buffer(&mut self, length: usize, journal: &[u8]) {
        let engines = journal::engines(journal);
        add_row(&mut self.buffers, &buffer(length, engines).map(u64::from));
    }

    /// A right page of this journal, and the verdict on its year.
    pub fn page(&mut self, page: &Page, journal: &[u8], verdict: u64) {
        let [volume, days, periods] = page.head;
        self.engines[page.engines.len()] += 1;
        self.periods[periods as usize - 1] += 1;
        self.verdicts[verdict as usize] += 1;
        let (head, lines) = self.digits.split_at_mut(2);
        count_digits(head, &[volume, days]);
        for line in &page.engines {
            count_digits(lines, &line.numbers());
            let largest = line.cumsums.into_iter().fold(self.largest_cumsum, u64::max);
            self.largest_cumsum = largest;
        }
        add_row(&mut self.met, &meets(page, journal));
    }

    /// What was never met and should have been.
    pub fn missing(&self) -> Vec<String> {
        let mut missing = Vec::new();
        let lists: [(&str, &[u64], usize); 3] = [
            ("engines", &self.engines, 0),
            ("periods", &self.periods, 1),
            ("verdict", &self.verdicts, 0),
        ];
        for (name, counts, first) in lists {
            for place in unmet(counts) {
                missing.push(format!("a page: {name} {}", first + place));
            }
        }
        for ((name, most), counts) in COLUMNS.iter().zip(&self.digits) {
            for place in unmet(&counts[..*most]) {
                missing.push(format!("{name} of {} digits on a page", place + 1));
            }
        }
        missing.extend(unmet(&self.buffers).map(|place| format!("a page {}", BUFFERS[place])));
        missing.extend(unmet(&self.met).map(|place| MET[place].to_string()));
        missing
    }

    pub fn print(&self) {
        println!("\nwall pages by engines, so many and 0 to 9 more");
        for (place, counts) in self.engines.chunks(10).enumerate() {
            println!("{:>7}{}", 10 * place, cells(counts));
        }
        println!("wall pages by periods, 1 to 4, and by verdict, 0 to 7");
        println!("       {}", cells(&self.periods));
        println!("       {}\n", cells(&self.verdicts));
        for (name, count) in BUFFERS.iter().zip(&self.buffers) {
            println!("{name}: {count}");
        }
        for (name, count) in MET.iter().zip(&self.met) {
            println!("{name}: {count}");
        }
        println!("largest C on a page: {}", self.largest_cumsum);
        let heads: [u64; DIGITS] = array::from_fn(|place| place as u64 + 1);
        println!("\ndigits on pages{}", cells(&heads));
        for ((name, _), counts) in COLUMNS.iter().zip(&self.digits) {
            println!("{name:<15}{}", cells(counts));
        }
    }
}

/// Which of `BUFFERS` this length meets.
fn buffer(length: usize, engines: usize) -> [bool; BUFFERS.len()] {
    let needed = LINE * (engines + 1);
    let refused = length < needed;
    [
        length == 0,
        (1..LINE).contains(&length),
        refused && length >= LINE * engines,
        refused && length >= (LINE - 1) * (engines + 1),
        refused && length + 1 == needed,
        length == needed,
        (needed + 1..needed + LINE).contains(&length),
        length >= needed + LINE,
    ]
}

/// How often the page of this journal meets each of `MET`.
fn meets(page: &Page, journal: &[u8]) -> [u64; MET.len()] {
    let slots = journal::slots(journal);
    let later = slots.iter().filter(|slot| **slot == journal::NEXT_PERIOD);
    let newest = page.last_cumsums();
    [
        slots.contains(&journal::DELETION).into(),
        (later.count() as u64 + 1 < page.head[2]).into(),
        count(page, |line| line.cumsums != newest).min(1),
        count(page, |line| line.entered[1] != line.entered[2]),
        count(page, |line| line.marks[0] != line.marks[1]),
        count(page, |line| line.cumsums[0] < line.cumsums[1]),
        count(page, |line| line.cumsums[2] < line.cumsums[3]),
    ]
}

fn count(page: &Page, wanted: impl Fn(&Line) -> bool) -> u64 {
    page.engines.iter().filter(|line| wanted(line)).count() as u64
}

/// Counts each number by its digits, in the row of its column.
fn count_digits(rows: &mut [[u64; DIGITS]], numbers: &[u64]) {
    for (row, number) in rows.iter_mut().zip(numbers) {
        row[number.checked_ilog10().unwrap_or(0) as usize] += 1;
    }
}

/// The places of what was never met.
fn unmet(counts: &[u64]) -> impl Iterator<Item = usize> {
    (0..counts.len()).filter(|place| counts[*place] == 0)
}

fn cells(counts: &[u64]) -> String {
    counts.iter().map(|count| format!("{count:>9}")).collect()
}
