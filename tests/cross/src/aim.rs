//! Results and standards that lead to a wanted mark at the next engine.

use crate::model::Pollutant;
use crate::random::Random;
use crate::readings::MAX_RESULT;

/// C and H are in units of 1/4,096 of a result unit.
const FINE: f64 = 4_096.0;

/// Results tried in the search for a mark '?'.
const TRIES: usize = 3_000;

/// One result under one standard.
#[derive(Clone, Copy, Debug)]
pub struct Aim {
    pub result: u32,
    pub standard: u32,
}

/// An aim for the wanted mark; it mostly gives that mark, not always.
pub fn aim(random: &mut Random, worker: &Pollutant, wish: u8) -> Aim {
    if wish == b'?'
        && let Some(found) = undecided(random, worker)
    {
        return found;
    }
    beside(random, worker, wish)
}

/// An aim that makes C as large as it can become without the year failing: a high
/// result under the lowest standard, or a low one if a second mark 'O' would follow.
/// Now and then the low one comes first.
pub fn climb(random: &mut Random, worker: &Pollutant, standard: u32) -> Aim {
    let away = random.pick(&[0, 0, 1, 30, 3_000]);
    let away = random.between(0, away);
    let aims = [
        (MAX_RESULT - away, 10),
        (away, standard),
        (away, MAX_RESULT),
    ];
    let mut aims = aims.map(|(result, standard)| Aim { result, standard });
    if random.one_in(4) {
        aims.swap(0, 1);
    }
    let open = aims.iter().find(|aim| !after(worker, **aim).failed);
    *open.unwrap_or(&aims[2])
}

/// The mark that an aim gives.
fn mark(worker: &Pollutant, aim: Aim) -> u8 {
    after(worker, aim).mark
}

fn after(worker: &Pollutant, aim: Aim) -> Pollutant {
    let mut next = *worker;
    next.add(aim.result, aim.standard);
    next
}

/// Searches for a C so near to H that the brackets do not decide. Now and then
/// an aim that just misses this is kept.
fn undecided(random: &mut Random, worker: &Pollutant) -> Option<Aim> {
    let reach = (24.0 + worker.n as f64) / FINE;
    for _ in 0..TRIES {
        let result = around(random, worker);
        let level = turning_point(worker, result);
        let standard = ten(level);
        if (level - f64::from(standard)).abs() > reach {
            continue;
        }
        let aim = Aim { result, standard };
        if mark(worker, aim) == b'?' || random.one_in(8) {
            return Some(aim);
        }
    }
    None
}

/// A standard some tens away from the one at which the mark changes.
fn beside(random: &mut Random, worker: &Pollutant, wish: u8) -> Aim {
    let mut aim = Aim {
        result: 0,
        standard: 10,
    };
    for _ in 0..8 {
        aim.result = around(random, worker);
        let away = f64::from(random.pick(&[5, 10, 40, 300]));
        let level = turning_point(worker, aim.result);
        aim.standard = ten(if wish == b'O' {
            level - away
        } else {
            level + away
        });
        if mark(worker, aim) == wish {
            break;
        }
    }
    aim
}

/// The nearest standard.
fn ten(level: f64) -> u32 {
    (10 * (level / 10.0 + 0.5) as u32).clamp(10, 20_000)
}

/// A result not far from the earlier ones.
fn around(random: &mut Random, worker: &Pollutant) -> u32 {
    let n = worker.n.max(1);
    let mean = (worker.sum / n) as u32;
    let reach = 100 + (worker.s / 512) as u32 + if n == 1 { mean / 6 } else { 0 };
    let low = mean.saturating_sub(reach);
    random.between(low, (mean + reach).min(MAX_RESULT))
}

/// The standard at which C would equal H for this result, in real numbers:
/// the last C, plus the result, less five and a quarter spreads.
fn turning_point(worker: &Pollutant, result: u32) -> f64 {
    let x = f64::from(result);
    let n = worker.n as f64 + 1.0;
    let sum = worker.sum as f64 + x;
    let squares = worker.squares as f64 + x * x;
    let variance = (n * squares - sum * sum) / (n * (n - 1.0)).max(1.0);
    worker.c_high as f64 / FINE + x - 5.25 * variance.sqrt()
}
