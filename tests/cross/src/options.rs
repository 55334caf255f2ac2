//! The arguments of the cross-check.

use crate::kinds;

/// The default run.
const SEED: u64 = 1_054;
const CALLS: u64 = 14_000_000;

#[derive(Clone, Copy, Debug)]
pub struct Options {
    pub seed: u64,
    /// Go on until this many calls are made.
    pub calls: u64,
    /// Repeat one case: the index of its kind, and its seed.
    pub case: Option<(usize, u64)>,
    /// Name each case before it is run.
    pub names: bool,
}

pub const USAGE: &str = "cross [--seed S] [--calls N] [--names] [--case KIND SEED]";

/// Reads the arguments, or says which one is wrong.
pub fn read(mut arguments: impl Iterator<Item = String>) -> Result<Options, String> {
    let mut options = Options {
        seed: SEED,
        calls: CALLS,
        case: None,
        names: false,
    };
    while let Some(argument) = arguments.next() {
        match argument.as_str() {
            "--seed" => options.seed = number(arguments.next())?,
            "--calls" => options.calls = number(arguments.next())?,
            "--names" => options.names = true,
            "--case" => {
                let kind = kind(arguments.next())?;
                options.case = Some((kind, number(arguments.next())?));
            }
            other => return Err(format!("unknown argument {other}")),
        }
    }
    Ok(options)
}

fn number(argument: Option<String>) -> Result<u64, String> {
    let text = argument.ok_or("a number is missing")?;
    text.parse().map_err(|_| format!("{text} is no number"))
}

fn kind(argument: Option<String>) -> Result<usize, String> {
    let text = argument.ok_or("a kind is missing")?;
    kinds::place_of(&text).ok_or(format!("{text} is no kind of input"))
}
