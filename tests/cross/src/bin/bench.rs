//! Times the library and the model on the same journals.

use std::hint::black_box;
use std::time::Instant;

use cross::journal::{self, COUNT_AT, SLOTS, Setup, VERSION_AT};
use cross::library::{self, FIGURES, REPLY, REPORT};
use cross::model;
use cross::words::words_of;
use cross::year::Year;

/// Timed batches of each side in a row of the table, and the nanoseconds that a
/// batch of both sides should take.
const BATCHES: usize = 500;
const BATCH_NANOS: f64 = 2_500_000.0;

const ENGINE_1: &[u8] = b"E 5000 771000 5002000";
const ASK: &[u8] = b"T 5000 771000 5002000";
const ENGINE_3: &[u8] = b"E 5000 771000 780400 765999 5002000 5011111 4990000";
const SETUP: &[u8] = b"S 100000 366 800 6100 0 0 1 1050";
const REFUSED: &[u8] = b"E 5000 771000 5002000 7";
const DELETION: &[u8] = b"Z";

const YEAR: Setup = Setup {
    volume: 100_000,
    days: 366,
    standards: [800, 6_100],
    kinds: [0, 1],
    factors: [0, 1_050],
};

struct Row {
    name: &'static str,
    library: f64,
    model: f64,
}

fn main() {
    let ten = year(10, 0).journal();
    let full = year(40, 64).journal();
    let deletions = year_of_deletions().journal();
    for journal in [&ten, &full, &deletions] {
        assert!(model::status(journal).is_ok_and(|status| status.verdict < 6));
    }
    let rows = [
        line_row("engine command, 1 reading", &ten, ENGINE_1),
        line_row("ask command, 1 reading", &ten, ASK),
        line_row("engine command, 3 readings", &ten, ENGINE_3),
        status_row("status of ten engines", &ten),
        status_row("scan of a full journal (status)", &full),
        marks_row("marks of a full journal", &full),
        page_row("wall page of a full journal", &full),
        line_row("setup command", &ten, SETUP),
        line_row("refused line", &ten, REFUSED),
        status_row("scan of 64 events with many strikes (status)", &deletions),
        entry_row("strike command", &ten, DELETION, take_back_deletion),
    ];
    print(&rows);
}

/// A year of this many engines in four periods, filled with amendments up to
/// this many events.
fn year(engines: u32, events: usize) -> Year {
    let mut year = Year::new(YEAR);
    for number in 1..=engines {
        engine(&mut year, number);
        if number > engines / 2 && !year.last_period() {
            year.next_period();
        }
        let left = (engines - number) as usize;
        if number % 2 == 0 && year.events() + left + 1 < events {
            year.amendment([800, 6_100]);
        }
    }
    while year.events() < events {
        year.amendment([810, 6_090]);
    }
    year
}

/// A year of 38 engines, the last of which is deleted and replaced until there
/// are 64 events.
fn year_of_deletions() -> Year {
    let mut year = Year::new(YEAR);
    for number in 1..=38 {
        engine(&mut year, number);
    }
    while year.events() < SLOTS {
        year.deletion();
        let number = year.events() as u32;
        engine(&mut year, number);
    }
    year
}

fn engine(year: &mut Year, number: u32) {
    let results = [700 + number * 37 % 101, 5_000 + number * 71 % 257];
    year.engine(1 + (number % 3) as u8, results, number);
}

/// A line; what it enters is undone after each call.
fn line_row(name: &'static str, journal: &[u8], line: &[u8]) -> Row {
    entry_row(name, journal, line, take_back)
}

/// A line, with what undoes it.
fn entry_row(
    name: &'static str,
    journal: &[u8],
    line: &[u8],
    take_back: impl Fn(&mut [u8], u8),
) -> Row {
    let (mut left, mut right) = (journal.to_vec(), journal.to_vec());
    let (mut left_reply, mut right_reply) = ([0; REPLY], [0; REPLY]);
    let count = journal[COUNT_AT];
    let row = measure(
        name,
        || {
            let line = black_box(line);
            black_box(library::command(&mut left, line, &mut left_reply));
            take_back(&mut left, count);
        },
        || {
            let line = black_box(line);
            black_box(model::key_line(&mut right, line, &mut right_reply));
            take_back(&mut right, count);
        },
    );
    assert_eq!(left_reply, right_reply);
    row
}

/// Restores the number of events and the slot after them: two small writes,
/// negligible beside the call.
fn take_back(journal: &mut [u8], count: u8) {
    let at = journal::slot_at(count.into());
    journal[COUNT_AT] = count;
    journal[at..at + 8].fill(0);
}

/// Restores the version too, for a deletion's row.
fn take_back_deletion(journal: &mut [u8], count: u8) {
    take_back(journal, count);
    journal[VERSION_AT] = 1;
}

fn status_row(name: &'static str, journal: &[u8]) -> Row {
    let mut figures = [0; FIGURES];
    let row = measure(
        name,
        || {
            black_box(library::status(black_box(journal), &mut figures));
        },
        || {
            let _ = black_box(model::status(black_box(journal)));
        },
    );
    assert_eq!(figures, words_of(&model::status(journal)));
    row
}

fn marks_row(name: &'static str, journal: &[u8]) -> Row {
    let mut out = [0; 80];
    let mut other_out = [0; 80];
    let mut written = 0;
    let row = measure(
        name,
        || {
            let journal = black_box(journal);
            black_box(library::marks(journal, &mut out, &mut written));
        },
        || {
            let _ = black_box(model::strip(black_box(journal), &mut other_out));
        },
    );
    assert_eq!(out, other_out);
    row
}

fn page_row(name: &'static str, journal: &[u8]) -> Row {
    let mut out = [0; REPORT];
    let mut other_out = [0; REPORT];
    let mut written = 0;
    let row = measure(
        name,
        || {
            let journal = black_box(journal);
            black_box(library::report(journal, &mut out, &mut written));
        },
        || {
            let _ = black_box(model::wall_page(black_box(journal), &mut other_out));
        },
    );
    assert_eq!(out, other_out);
    row
}

/// The median nanoseconds per call of each side, over alternating batches.
fn measure(name: &'static str, mut library: impl FnMut(), mut model: impl FnMut()) -> Row {
    let calls = 200;
    let both = batch(&mut library, calls) + batch(&mut model, calls);
    let calls = (BATCH_NANOS / both).ceil() as usize;
    let mut library_times = Vec::new();
    let mut model_times = Vec::new();
    for _ in 0..BATCHES {
        library_times.push(batch(&mut library, calls));
        model_times.push(batch(&mut model, calls));
    }
    Row {
        name,
        library: median(library_times),
        model: median(model_times),
    }
}

/// Nanoseconds per call.
fn batch(call: &mut impl FnMut(), calls: usize) -> f64 {
    let start = Instant::now();
    for _ in 0..calls {
        call();
    }
    start.elapsed().as_nanos() as f64 / calls as f64
}

fn median(mut times: Vec<f64>) -> f64 {
    times.sort_by(f64::total_cmp);
    times[times.len() / 2]
}

fn print(rows: &[Row]) {
    println!("row                                          library ns    model ns   ratio");
    let mut worst: f64 = 0.0;
    for row in rows {
        let ratio = row.library / row.model;
        worst = worst.max(ratio);
        println!(
            "{:<44} {:>10.1}  {:>10.1} {ratio:>7.2}",
            row.name, row.library, row.model
        );
    }
    println!("worst ratio: {worst:.2}");
}
