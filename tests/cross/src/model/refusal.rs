//! Document 01, "Refused calls, in checking order", and document 02: the
//! numbers, by name.

pub(super) const LINE_LENGTH: u8 = 1;
pub(super) const LINE_FORM: u8 = 2;
pub(super) const BOOK_LENGTH: u8 = 3;
pub(super) const VOLUME_OR_DAYS: u8 = 4;
pub(super) const STANDARD: u8 = 5;
pub(super) const FACTOR: u8 = 6;
pub(super) const NO_BOOK: u8 = 7;
pub(super) const CLOSED: u8 = 8;
pub(super) const EVENTS_FULL: u8 = 9;
pub(super) const ENGINE_NUMBER: u8 = 10;
pub(super) const READING_COUNT: u8 = 11;
pub(super) const READING: u8 = 12;
pub(super) const RESULT: u8 = 13;
pub(super) const ENGINES_FULL: u8 = 14;
pub(super) const NEXT_PERIOD: u8 = 15;
pub(super) const STRIP_LENGTH: u8 = 16;
/// "checked after 9"
pub(super) const NO_DELETION: u8 = 17;
/// "checked after 16"
pub(super) const PAGE_LENGTH: u8 = 18;
