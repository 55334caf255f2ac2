//! Document 01, "Refused calls, in checking order", and document 02, W-201, W-202
//! and W-205: the calls on a lent book.
//!
//! Each call checks in the document's order and writes only once nothing is
//! left to refuse.

use super::Status;
use super::book::{self, Book, Event};
use super::page::{self, LINE_BYTES};
use super::refusal;
use super::rounding::{MAX_READING, MAX_RESULT, work_result};
use super::setup::{Setup, check_standards};
use super::work::MAX_ENGINES;
use super::year::Year;

/// Starts a year. Refusals 3, 4, 5, 6.
pub fn setup(
    book: &mut [u8],
    p: u32,
    d: u32,
    standards: [u32; 2],
    kinds: [u32; 2],
    factors: [u32; 2],
) -> Result<Status, u8> {
    let book = whole_mut(book)?;
    let setup = Setup::new(p, d, standards, kinds, factors)?;
    book::write_setup(book, &setup);
    Ok(Year::new(setup).status())
}

/// Enters an engine. Refusals 3, 7, 8, 9, 10, 11, 12, 13, 14.
pub fn engine(book: &mut [u8], number: u32, hcnox: &[u32], co: &[u32]) -> Result<Status, u8> {
    let book = whole_mut(book)?;
    let mut year = accepted(book)?;
    year.check_open()?;
    let number = year.check_number(number)?;
    let (readings, results) = work_engine(&year.setup, hcnox, co)?;
    year.check_room()?;
    let event = Event::Engine {
        readings,
        results,
        number,
    };
    Ok(enter(book, &mut year, &event))
}

/// Tells what `engine` answers on this book: "tells the reply, writing nothing".
pub fn ask(book: &[u8], number: u32, hcnox: &[u32], co: &[u32]) -> Result<Status, u8> {
    let mut copy = *whole(book)?;
    engine(&mut copy, number, hcnox, co)
}

/// Enters new standards for later engines. Refusals 3, 5, 7, 8, 9.
pub fn amendment(book: &mut [u8], standards: [u32; 2]) -> Result<Status, u8> {
    let book = whole_mut(book)?;
    let standards = check_standards(standards)?;
    let mut year = accepted(book)?;
    year.check_open()?;
    Ok(enter(book, &mut year, &Event::Amendment { standards }))
}

/// Enters the start of the next period. Refusals 3, 7, 8, 9, 15.
pub fn next_period(book: &mut [u8]) -> Result<Status, u8> {
    let book = whole_mut(book)?;
    let mut year = accepted(book)?;
    year.check_open()?;
    year.check_next_period()?;
    Ok(enter(book, &mut year, &Event::NextPeriod))
}

/// Enters a declaration. Refusals 3, 7, 8, 9.
pub fn declaration(book: &mut [u8]) -> Result<Status, u8> {
    let book = whole_mut(book)?;
    let mut year = accepted(book)?;
    year.check_open()?;
    Ok(enter(book, &mut year, &Event::Declaration))
}

/// Enters the deletion of the newest engine. Refusals 3, 7, 8, 9, 17.
pub fn deletion(book: &mut [u8]) -> Result<Status, u8> {
    let book = whole_mut(book)?;
    let mut year = accepted(book)?;
    year.check_open()?;
    year.check_deletion()?;
    Ok(enter(book, &mut year, &Event::Deletion))
}

/// Reads the status. Refusals 3, 7.
pub fn status(book: &[u8]) -> Result<Status, u8> {
    Ok(accepted(whole(book)?)?.status())
}

/// Writes two marks per engine at the front of `out` and says how many bytes
/// that is. Refusals 3, 7, 16.
pub fn strip(book: &[u8], out: &mut [u8]) -> Result<usize, u8> {
    let year = accepted(whole(book)?)?;
    let marks = year.strip();
    let Some(front) = out.get_mut(..marks.len()) else {
        return Err(refusal::STRIP_LENGTH);
    };
    front.copy_from_slice(marks);
    Ok(marks.len())
}

/// Writes the wall page at the front of `out` and says how many bytes that is.
/// Refusals 3, 7, 18.
pub fn wall_page(book: &[u8], out: &mut [u8]) -> Result<usize, u8> {
    let mut cumsums = [[0; 4]; MAX_ENGINES];
    let year = book::accept_noting(whole(book)?, |year| year.note_cumsums(&mut cumsums));
    let year = year.ok_or(refusal::NO_BOOK)?;
    let needed = LINE_BYTES * (year.n() + 1);
    let Some(front) = out.get_mut(..needed) else {
        return Err(refusal::PAGE_LENGTH);
    };
    let (lines, _) = front.as_chunks_mut();
    page::write(lines, &year, &cumsums);
    Ok(needed)
}

/// Refusal 3, for a book only read.
fn whole(book: &[u8]) -> Result<&Book, u8> {
    book.try_into().map_err(|_| refusal::BOOK_LENGTH)
}

/// Refusal 3, for a book to be written.
fn whole_mut(book: &mut [u8]) -> Result<&mut Book, u8> {
    book.try_into().map_err(|_| refusal::BOOK_LENGTH)
}

/// Refusal 7.
fn accepted(book: &Book) -> Result<Year, u8> {
    book::accept(book).ok_or(refusal::NO_BOOK)
}

/// Refusals 11, 12 and 13: the readings per pollutant and the two results.
fn work_engine(setup: &Setup, hcnox: &[u32], co: &[u32]) -> Result<(u8, [u16; 2]), u8> {
    if hcnox.len() != co.len() || !(1..=3).contains(&hcnox.len()) {
        return Err(refusal::READING_COUNT);
    }
    if hcnox.iter().chain(co).any(|&reading| reading > MAX_READING) {
        return Err(refusal::READING);
    }
    let results = [
        work_result(hcnox, setup.kinds[0], setup.factors[0]),
        work_result(co, setup.kinds[1], setup.factors[1]),
    ];
    if results.iter().any(|&result| result > MAX_RESULT) {
        return Err(refusal::RESULT);
    }
    Ok((hcnox.len() as u8, results.map(|result| result as u16)))
}

/// Stores a checked event; "An accepted setup or entry returns the status of
/// the book that it leaves."
fn enter(book: &mut Book, year: &mut Year, event: &Event) -> Status {
    book::write_event(book, year.events(), event);
    year.enter(event);
    year.status()
}
