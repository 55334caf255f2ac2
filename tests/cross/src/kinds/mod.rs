//! The kinds of input. Each case is made wholly from its kind and its seed.

pub mod damaged;
pub mod deletions;
pub mod edges;
pub mod lines;
pub mod lists;
pub mod undecided;
pub mod years;

use crate::random::Random;
use crate::twin::Twin;

#[derive(Clone, Copy)]
pub struct Kind {
    pub name: &'static str,
    /// Share of the cases.
    pub weight: u32,
    pub run: fn(&mut Twin, &mut Random),
}

pub const KINDS: [Kind; 5] = [
    Kind {
        name: "years",
        weight: 6,
        run: years::run,
    },
    Kind {
        name: "undecided",
        weight: 6,
        run: undecided::run,
    },
    Kind {
        name: "lists",
        weight: 6,
        run: lists::run,
    },
    Kind {
        name: "damaged",
        weight: 8,
        run: damaged::run,
    },
    Kind {
        name: "lines",
        weight: 6,
        run: lines::run,
    },
];

/// The index of the kind with this name.
pub fn place_of(name: &str) -> Option<usize> {
    KINDS.iter().position(|kind| kind.name == name)
}
