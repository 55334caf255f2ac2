//! Document 01, "Periods", and the ranges that refusals 4, 5 and 6 check.

use super::refusal;

/// "Standards are whole result units, multiples of ten, 10 to 20,000."
pub(super) const MAX_STANDARD: u32 = 20_000;

const MAX_FACTOR: u32 = 60_000;

/// A setup whose numbers are all in range.
#[derive(Clone, Copy)]
pub(super) struct Setup {
    /// P, the projected volume.
    pub(super) volume: u32,
    /// D, the production days.
    pub(super) days: u16,
    /// The first standards, HC+NOx then CO, as are the next two.
    pub(super) standards: [u16; 2],
    pub(super) kinds: [u8; 2],
    pub(super) factors: [u16; 2],
}

impl Setup {
    /// Refusals 4, 5 and 6, in that order.
    pub(super) fn new(
        volume: u32,
        days: u32,
        standards: [u32; 2],
        kinds: [u32; 2],
        factors: [u32; 2],
    ) -> Result<Self, u8> {
        if !(1..=99_999_999).contains(&volume) || !(1..=366).contains(&days) {
            return Err(refusal::VOLUME_OR_DAYS);
        }
        let standards = check_standards(standards)?;
        let (hcnox_kind, hcnox_factor) = check_factor(kinds[0], factors[0])?;
        let (co_kind, co_factor) = check_factor(kinds[1], factors[1])?;
        Ok(Self {
            volume,
            days: days as u16,
            standards,
            kinds: [hcnox_kind, co_kind],
            factors: [hcnox_factor, co_factor],
        })
    }

    /// How many test periods the year has.
    pub(super) fn periods(&self) -> u8 {
        match (self.volume, self.days) {
            (..1_600, _) | (_, ..=120) => 1,
            (_, ..=210) => 2,
            (_, ..=300) => 3,
            _ => 4,
        }
    }
}

/// Refusal 5.
pub(super) fn check_standards(standards: [u32; 2]) -> Result<[u16; 2], u8> {
    let good = |t: u32| (10..=MAX_STANDARD).contains(&t) && t.is_multiple_of(10);
    if !standards.into_iter().all(good) {
        return Err(refusal::STANDARD);
    }
    Ok(standards.map(|t| t as u16))
}

/// Refusal 6. "Kind 0 adds 0 to 60,000; kind 1 multiplies by 1,000 to 60,000."
fn check_factor(kind: u32, factor: u32) -> Result<(u8, u16), u8> {
    match (kind, factor) {
        (0, 0..=MAX_FACTOR) | (1, 1_000..=MAX_FACTOR) => Ok((kind as u8, factor as u16)),
        _ => Err(refusal::FACTOR),
    }
}
