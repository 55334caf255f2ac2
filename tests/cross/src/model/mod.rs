//! Document 01: the production-line test book under 40 CFR 1054, with what
//! document 02 adds: the deletion of the newest engine (W-201), the ask before an
//! entry (W-202), the one percent without failing engines (W-204) and the wall
//! page (W-205).
//!
//! Every call takes the book as lent bytes, recomputes all of it and keeps
//! nothing between calls. A refused call changes no lent byte.

#![forbid(unsafe_code)]

mod book;
mod calls;
mod line;
mod page;
mod refusal;
mod rounding;
mod setup;
mod work;
mod year;

pub use calls::{
    amendment, ask, declaration, deletion, engine, next_period, setup, status, strip, wall_page,
};
pub use line::key_line;
pub use rounding::work_result;
pub use work::Pollutant;

/// The figures of one pollutant.
#[derive(Clone, Copy, PartialEq, Eq, Debug)]
pub struct Figures {
    pub sum: u64,
    pub s: u64,
    pub e: u64,
    pub c_low: u64,
    pub c_high: u64,
    pub h_low: u64,
    pub h_high: u64,
    pub n_tenths: Option<u64>,
    /// ASCII.
    pub mark: u8,
}

/// A status: n, verdict, HC+NOx then CO.
#[derive(Clone, Copy, PartialEq, Eq, Debug)]
pub struct Status {
    pub n: u64,
    pub verdict: u8,
    pub pollutants: [Figures; 2],
}
