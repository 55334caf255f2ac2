//! Patterns of results for one pollutant.

use crate::random::Random;
use crate::readings::MAX_RESULT;

#[derive(Clone, Copy, Debug)]
pub enum Style {
    /// Next to the standard, on both sides.
    Near,
    /// At or below a level, by a random part of the step.
    Spread,
    /// The same result every time: V is 0.
    Same,
    /// A level, then by turns one step below and above it: at odd counts the
    /// spread is the step itself, so e is 0.
    Square,
    /// A level and up to three units more.
    Small,
    /// By turns a step above and below the standard: G is 0 at even counts.
    Balanced,
    /// 0, 20,000 and the standard with its neighbours.
    Extreme,
    /// Anything.
    Wide,
    /// The first result far from the standard, which spreads the results so wide
    /// that the marks stay 'U'; each later one next to the standard, above it if
    /// the engine is to fail.
    Verge(Fails),
}

/// Which engines of a year are to fail the standard.
#[derive(Clone, Copy, Debug)]
pub enum Fails {
    Never,
    Always,
    /// At even places, or at odd ones.
    Even,
    Odd,
    /// All but the one at this place.
    AllBut(usize),
    /// Any, one in this many.
    OneIn(usize),
}

impl Fails {
    /// Whether the engine at this place, counted from 0, is to fail.
    fn at(self, random: &mut Random, place: usize) -> bool {
        match self {
            Fails::Never => false,
            Fails::Always => true,
            Fails::Even => place.is_multiple_of(2),
            Fails::Odd => place % 2 == 1,
            Fails::AllBut(other) => place != other,
            Fails::OneIn(times) => random.one_in(times),
        }
    }
}

/// One pollutant's results of a year.
#[derive(Clone, Copy, Debug)]
pub struct Pattern {
    style: Style,
    level: u32,
    step: u32,
}

impl Pattern {
    /// Results that mostly stay under the standard, for a long year.
    pub fn passing(random: &mut Random, standard: u32) -> Self {
        let styles = [
            Style::Near,
            Style::Spread,
            Style::Spread,
            Style::Same,
            Style::Square,
            Style::Small,
            Style::Balanced,
        ];
        let step = random.between(0, standard / 8);
        let level = match random.below(4) {
            0 => standard,
            1 => standard - step,
            _ => random.between(0, standard - step),
        };
        Pattern {
            style: random.pick(&styles),
            level,
            step,
        }
    }

    /// Results of any sort.
    pub fn any(random: &mut Random, standard: u32) -> Self {
        let mut pattern = Self::passing(random, standard);
        match random.below(4) {
            0 => pattern.style = Style::Extreme,
            1 => pattern.style = Style::Wide,
            2 => pattern.level = random.between(standard, MAX_RESULT),
            _ => {}
        }
        pattern
    }

    /// Results next to the standard, on the wanted side of it.
    pub fn verge(fails: Fails) -> Self {
        Pattern {
            style: Style::Verge(fails),
            level: 0,
            step: 0,
        }
    }

    /// The result of the engine at this place, counted from 0.
    pub fn result(&self, random: &mut Random, standard: u32, place: usize) -> u32 {
        let Pattern { style, level, step } = *self;
        let wish = match style {
            Style::Near => (standard + random.between(0, 60)).saturating_sub(30),
            Style::Spread => level.saturating_sub(random.between(0, step)),
            Style::Same => level,
            Style::Square if place == 0 => level,
            Style::Square if place % 2 == 1 => level.saturating_sub(step),
            Style::Square => level + step,
            Style::Small => level + random.between(0, 3),
            Style::Balanced if place.is_multiple_of(2) => standard + step,
            Style::Balanced => standard - step.min(standard),
            Style::Extreme => extreme(random, standard),
            Style::Wide => random.between(0, MAX_RESULT),
            Style::Verge(fails) => {
                let fails = fails.at(random, place);
                verge(random, standard, place, fails)
            }
        };
        wish.min(MAX_RESULT)
    }
}

/// Far from the standard at place 0, else at it, one above it, or some tens away
/// from these: there an amendment brings the standard to the result.
fn verge(random: &mut Random, standard: u32, place: usize, fails: bool) -> u32 {
    let away = random.pick(&[0, 0, 0, 0, 1, 9, 10, 20]);
    match (place, fails) {
        (0, true) => MAX_RESULT - random.between(0, (MAX_RESULT - standard) / 8),
        (0, false) => random.between(0, standard / 8),
        (_, true) => standard + 1 + away,
        (_, false) => standard.saturating_sub(away),
    }
}

fn extreme(random: &mut Random, standard: u32) -> u32 {
    random.pick(&[0, 0, standard - 1, standard, standard + 1, MAX_RESULT])
}
