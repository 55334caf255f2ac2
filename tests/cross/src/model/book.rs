//! Document 01, "The book", with document 02, W-201: the 544 bytes, read and
//! written.

use super::rounding::MAX_RESULT;
use super::setup::{Setup, check_standards};
use super::year::Year;

pub(super) const BOOK_BYTES: usize = 544;

pub(super) type Book = [u8; BOOK_BYTES];

/// "24 number of events, 0 to 64"
pub(super) const MAX_EVENTS: usize = 64;

const VERSION_AT: usize = 3;
const EVENTS_AT: usize = 24;
const HEAD_BYTES: usize = 32;
const SLOT_BYTES: usize = 8;

/// The version of a setup, and that of a book with a deletion.
const FIRST_VERSION: u8 = 1;
const DELETION_VERSION: u8 = 2;

const ENGINE: u8 = 1;
const AMENDMENT: u8 = 2;
const NEXT_PERIOD: u8 = 3;
const DECLARATION: u8 = 4;
const DELETION: u8 = 5;

/// What a slot holds.
pub(super) enum Event {
    Engine {
        /// Readings per pollutant, 1 to 3.
        readings: u8,
        results: [u16; 2],
        number: u16,
    },
    Amendment {
        standards: [u16; 2],
    },
    NextPeriod,
    Declaration,
    /// Of the newest engine; document 02 calls it a strike.
    Deletion,
}

impl Event {
    /// The event of a slot, if the slot by itself is well formed; the year
    /// then says whether it could be entered at that point.
    fn decode(slot: &[u8; SLOT_BYTES]) -> Option<Self> {
        match *slot {
            [ENGINE, readings @ 1..=3, a, b, c, d, e, f] => {
                let results = words([a, b, c, d]);
                // "each result from 0 to 20,000 being allowed"
                let allowed = results.iter().all(|&x| u32::from(x) <= MAX_RESULT);
                allowed.then_some(Self::Engine {
                    readings,
                    results,
                    number: u16::from_le_bytes([e, f]),
                })
            }
            [AMENDMENT, 0, a, b, c, d, 0, 0] => {
                let standards = check_standards(words([a, b, c, d]).map(u32::from)).ok()?;
                Some(Self::Amendment { standards })
            }
            [NEXT_PERIOD, 0, 0, 0, 0, 0, 0, 0] => Some(Self::NextPeriod),
            [DECLARATION, 0, 0, 0, 0, 0, 0, 0] => Some(Self::Declaration),
            [DELETION, 0, 0, 0, 0, 0, 0, 0] => Some(Self::Deletion),
            _ => None,
        }
    }

    fn encode(&self) -> [u8; SLOT_BYTES] {
        match *self {
            Self::Engine {
                readings,
                results,
                number,
            } => {
                let [a, b, c, d] = bytes(results);
                let [e, f] = number.to_le_bytes();
                [ENGINE, readings, a, b, c, d, e, f]
            }
            Self::Amendment { standards } => {
                let [a, b, c, d] = bytes(standards);
                [AMENDMENT, 0, a, b, c, d, 0, 0]
            }
            Self::NextPeriod => [NEXT_PERIOD, 0, 0, 0, 0, 0, 0, 0],
            Self::Declaration => [DECLARATION, 0, 0, 0, 0, 0, 0, 0],
            Self::Deletion => [DELETION, 0, 0, 0, 0, 0, 0, 0],
        }
    }
}

/// Two little-endian words, HC+NOx then CO.
fn words([a, b, c, d]: [u8; 4]) -> [u16; 2] {
    [u16::from_le_bytes([a, b]), u16::from_le_bytes([c, d])]
}

fn bytes(words: [u16; 2]) -> [u8; 4] {
    let [[a, b], [c, d]] = words.map(u16::to_le_bytes);
    [a, b, c, d]
}

/// The version, the setup and the number of events in the first 32 bytes, if
/// those bytes are well formed. The version and the range of the number of
/// events are not yet checked.
fn decode_head(head: &[u8; HEAD_BYTES]) -> Option<(u8, Setup, u8)> {
    let (name, rest) = head.split_first_chunk::<8>()?;
    let (&[p0, p1, p2, p3, d0, d1], rest) = rest.split_first_chunk::<6>()?;
    let (&standards, rest) = rest.split_first_chunk::<4>()?;
    let (&kinds, rest) = rest.split_first_chunk::<2>()?;
    let (&factors, rest) = rest.split_first_chunk::<4>()?;
    let &[events, 0, 0, 0, 0, 0, 0, 0] = rest else {
        return None;
    };
    // "PLT", a version below 256, zero.
    let &[b'P', b'L', b'T', version, 0, 0, 0, 0] = name else {
        return None;
    };
    let setup = Setup::new(
        u32::from_le_bytes([p0, p1, p2, p3]),
        u16::from_le_bytes([d0, d1]).into(),
        words(standards).map(u32::from),
        kinds.map(u32::from),
        words(factors).map(u32::from),
    );
    Some((version, setup.ok()?, events))
}

/// The year of an accepted book: "exactly if its first 32 bytes are as above
/// and its events could have been entered in that order", unused slots zero.
pub(super) fn accept(book: &Book) -> Option<Year> {
    accept_noting(book, |_| ())
}

/// The same; `note` is shown the year after each event.
pub(super) fn accept_noting(book: &Book, mut note: impl FnMut(&Year)) -> Option<Year> {
    let (head, slots) = book.split_first_chunk::<HEAD_BYTES>()?;
    let (version, setup, events) = decode_head(head)?;
    let (slots, _) = slots.as_chunks::<SLOT_BYTES>();
    let (used, unused) = slots.split_at_checked(events.into())?;
    if unused.iter().any(|slot| *slot != [0; SLOT_BYTES]) {
        return None;
    }
    let mut year = Year::new(setup);
    for slot in used {
        let event = Event::decode(slot)?;
        year.check(&event).ok()?;
        year.enter(&event);
        note(&year);
    }
    (version == version_of(&year)).then_some(year)
}

/// "A version 2 book holds at least one strike", and version 1 holds none: it
/// "becomes version 2 at its first strike".
fn version_of(year: &Year) -> u8 {
    if year.has_deletion() {
        DELETION_VERSION
    } else {
        FIRST_VERSION
    }
}

/// "Setup takes a buffer of any content and writes all of it."
pub(super) fn write_setup(book: &mut Book, setup: &Setup) {
    book.fill(0);
    book[0..3].copy_from_slice(b"PLT");
    book[VERSION_AT] = FIRST_VERSION;
    book[8..12].copy_from_slice(&setup.volume.to_le_bytes());
    book[12..14].copy_from_slice(&setup.days.to_le_bytes());
    book[14..18].copy_from_slice(&bytes(setup.standards));
    book[18..20].copy_from_slice(&setup.kinds);
    book[20..24].copy_from_slice(&bytes(setup.factors));
}

/// "Each other entry writes its slot and byte 24", the first deletion also
/// byte 3; at a later one that is 2 already. `place` is the number of events
/// before it, below 64.
pub(super) fn write_event(book: &mut Book, place: usize, event: &Event) {
    let (slots, _) = book[HEAD_BYTES..].as_chunks_mut::<SLOT_BYTES>();
    if let Some(slot) = slots.get_mut(place) {
        *slot = event.encode();
        book[EVENTS_AT] = place as u8 + 1;
        if let Event::Deletion = event {
            book[VERSION_AT] = DELETION_VERSION;
        }
    }
}
