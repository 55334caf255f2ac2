//! The cross-check of the library with the model.

use std::num::NonZero;
use std::process::ExitCode;
use std::time::Instant;
use std::{env, thread};

use cross::case::Case;
use cross::counts::Counts;
use cross::kinds::KINDS;
use cross::options::{self, Options, USAGE};
use cross::outcome::Difference;
use cross::random::Random;

/// How many cases are spread over the threads before their counts are summed.
const ROUND: u64 = 4096;

fn main() -> ExitCode {
    match options::read(env::args().skip(1)) {
        Ok(options) => run(&options),
        Err(message) => {
            eprintln!("{message}\n{USAGE}");
            ExitCode::from(2)
        }
    }
}

fn run(options: &Options) -> ExitCode {
    if let Some((kind, seed)) = options.case {
        return one_case(Case { kind, seed });
    }
    let start = Instant::now();
    let mut random = Random::new(options.seed);
    let mut total = Counts::default();
    while total.calls < options.calls {
        let cases = next_cases(&mut random, options.calls - total.calls);
        // in order, up to the number of calls asked for, so that what is
        // counted and reported does not depend on the threads
        for (case, result) in cases.iter().zip(results(&cases, options.names)) {
            match result {
                Ok(counts) => total.add(&counts),
                Err(difference) => return report(*case, &difference, total.calls),
            }
            if total.calls >= options.calls {
                break;
            }
        }
    }
    println!(
        "seed {}: {} cases, {} calls, {:.1} s",
        options.seed,
        total.cases(),
        total.calls,
        start.elapsed().as_secs_f64()
    );
    finish(&total)
}

fn one_case(case: Case) -> ExitCode {
    match case.run(true) {
        Ok(counts) => {
            println!("cross-check: {} calls agree", counts.calls);
            ExitCode::SUCCESS
        }
        Err(difference) => report(case, &difference, 0),
    }
}

/// The next cases of the run, with this many calls left to make: a case makes
/// at least one.
fn next_cases(random: &mut Random, calls: u64) -> Vec<Case> {
    let weights = KINDS.map(|kind| kind.weight);
    let draw = |_| Case {
        kind: random.weighted(&weights),
        seed: random.word(),
    };
    (0..calls.min(ROUND)).map(draw).collect()
}

/// Runs these cases, dealt out to the threads by turns. If each is to be named
/// before it runs, they run one by one, so that the last one named is the one
/// that ends the program.
fn results(cases: &[Case], names: bool) -> Vec<Result<Counts, Difference>> {
    if names {
        let named = cases.iter().inspect(|case| println!("{}", case.name()));
        return named.map(|case| case.run(false)).collect();
    }
    let threads = thread::available_parallelism().map_or(1, NonZero::get);
    thread::scope(|scope| {
        let part = |first| cases.iter().skip(first).step_by(threads);
        let work = |first| move || part(first).map(|case| case.run(false)).collect::<Vec<_>>();
        let workers: Vec<_> = (0..threads).map(|first| scope.spawn(work(first))).collect();
        let joined = workers.into_iter().map(|worker| worker.join());
        let mut parts: Vec<_> = joined
            .map(|part| {
                part.expect("a case catches what is thrown in it")
                    .into_iter()
            })
            .collect();
        (0..cases.len())
            .filter_map(|place| parts[place % threads].next())
            .collect()
    })
}

/// Prints a difference that was found after this many calls of earlier cases.
fn report(case: Case, difference: &Difference, earlier: u64) -> ExitCode {
    let agreed = earlier + difference.agreed;
    println!("{}, after {agreed} calls that agreed", difference.what);
    println!("case: {}", case.name());
    println!("{}", difference.details);
    ExitCode::FAILURE
}

/// Prints the counts; the run is good if nothing is missing in them.
fn finish(total: &Counts) -> ExitCode {
    total.print();
    let missing = total.missing();
    if !missing.is_empty() {
        println!("\nnever met: {}", missing.join("; "));
        return ExitCode::FAILURE;
    }
    println!("\ncross-check: {} calls agree", total.calls);
    ExitCode::SUCCESS
}
