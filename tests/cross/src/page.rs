//! The wall page read by position, without the model.

use std::ops::Range;

use crate::journal::{self, Slot};
use crate::library::LINE;

/// Where the columns of the head line are.
const HEAD: [Range<usize>; 3] = [0..8, 8..11, 11..12];

/// Where the columns of an engine's line are that hold numbers: the engine's
/// number, both results, C low and C high of HC+NOx and of CO.
const COLUMNS: [Range<usize>; 7] = [0..5, 5..10, 10..15, 15..25, 25..35, 35..45, 45..55];

/// Where its two marks are.
const MARKS: Range<usize> = 55..57;

/// Text and newline.
const TEXT: usize = LINE - 1;

/// A page taken apart.
#[derive(Clone, PartialEq, Eq, Debug)]
pub struct Page {
    /// P, D and the number of periods.
    pub head: [u64; 3],
    pub engines: Vec<Line>,
}

/// An engine's line taken apart.
#[derive(Clone, Copy, PartialEq, Eq, Debug)]
pub struct Line {
    /// The engine's number and its results for HC+NOx and CO.
    pub entered: [u64; 3],
    /// C low and C high of HC+NOx, then of CO.
    pub cumsums: [u64; 4],
    pub marks: [u8; 2],
}

impl Page {
    /// The figures on a page, if each of its lines is of the form.
    pub fn read(bytes: &[u8]) -> Option<Self> {
        let (lines, rest) = bytes.as_chunks::<LINE>();
        let (head, lines) = lines.split_first().filter(|_| rest.is_empty())?;
        let engines = lines.iter().map(Line::read);
        Some(Page {
            head: read_head(head)?,
            engines: engines.collect::<Option<_>>()?,
        })
    }

    /// P, D and the number of periods, and each engine's number and results, as
    /// the bytes of an accepted journal have them.
    pub fn holds(&self, journal: &[u8]) -> bool {
        let entered = self.engines.iter().map(|line| line.entered);
        let remaining = journal::remaining(journal);
        self.head == head_of(journal) && entered.eq(remaining.iter().map(entered_in))
    }

    /// The marks of all lines, as the marks are written without a page.
    pub fn marks(&self) -> Vec<u8> {
        self.engines.iter().flat_map(|line| line.marks).collect()
    }

    /// The last line's C: 0 without an engine, and at engine 1.
    pub fn last_cumsums(&self) -> [u64; 4] {
        self.engines.last().map_or([0; 4], |line| line.cumsums)
    }
}

impl Line {
    fn read(line: &[u8; LINE]) -> Option<Self> {
        let text = text_of(line, MARKS.end)?;
        let mut numbers = [0; COLUMNS.len()];
        for (place, column) in numbers.iter_mut().zip(COLUMNS) {
            *place = number(&text[column])?;
        }
        let [engine, hcnox, co, cumsums @ ..] = numbers;
        Some(Line {
            entered: [engine, hcnox, co],
            cumsums,
            marks: text[MARKS].try_into().ok()?,
        })
    }

    /// All numbers of the line, from the left.
    pub fn numbers(&self) -> [u64; COLUMNS.len()] {
        let ([engine, hcnox, co], [a, b, c, d]) = (self.entered, self.cumsums);
        [engine, hcnox, co, a, b, c, d]
    }
}

fn read_head(line: &[u8; LINE]) -> Option<[u64; 3]> {
    let [volume, days, periods] = HEAD;
    let text = text_of(line, periods.end)?;
    Some([
        number(&text[volume])?,
        number(&text[days])?,
        number(&text[periods])?,
    ])
}

/// The text of a line, if a newline ends it and nothing but spaces is behind its
/// last column.
fn text_of(line: &[u8; LINE], end: usize) -> Option<&[u8]> {
    let text = line.strip_suffix(b"\n")?;
    let mut rest = text[end..TEXT].iter();
    rest.all(|byte| *byte == b' ').then_some(text)
}

/// The number of a column: right-aligned with spaces, without leading zeros.
fn number(column: &[u8]) -> Option<u64> {
    let spaces = column.iter().take_while(|byte| **byte == b' ').count();
    let digits = &column[spaces..];
    let formed = match digits {
        [] => false,
        [b'0', rest @ ..] => rest.is_empty(),
        _ => digits.iter().all(u8::is_ascii_digit),
    };
    let add = |number, digit: &u8| 10 * number + u64::from(digit - b'0');
    formed.then(|| digits.iter().fold(0, add))
}

/// P and D of a journal, and how many periods they give.
fn head_of(journal: &[u8]) -> [u64; 3] {
    let [a, b, c, d, e, f] = [8, 9, 10, 11, 12, 13].map(|at| journal[at]);
    let volume = u32::from_le_bytes([a, b, c, d]);
    let days = u16::from_le_bytes([e, f]);
    let later = [121, 211, 301].iter().filter(|first| days >= **first);
    let periods = if volume < 1_600 { 1 } else { 1 + later.count() };
    [volume.into(), days.into(), periods as u64]
}

/// An engine's number and results, as its slot holds them.
fn entered_in(slot: &Slot) -> [u64; 3] {
    let [_, _, a, b, c, d, e, f] = *slot;
    [[e, f], [a, b], [c, d]].map(|word| u16::from_le_bytes(word).into())
}
