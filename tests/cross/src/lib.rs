//! Cross-check of the library `plt` with an independent model of it.

pub mod aim;
pub mod buffer;
pub mod case;
pub mod counts;
pub mod drive;
pub mod faults;
pub mod journal;
pub mod kinds;
pub mod library;
pub mod model;
pub mod options;
pub mod outcome;
pub mod page;
pub mod page_counts;
pub mod plan;
pub mod random;
pub mod readings;
pub mod results;
pub mod setups;
pub mod tally;
pub mod twin;
pub mod words;
pub mod written;
pub mod year;
