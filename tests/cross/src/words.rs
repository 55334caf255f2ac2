//! The model's answers as the words that the library gives.

use crate::library::FIGURES;
use crate::model::Status;

/// The twenty words that report a status or a refusal.
pub fn words_of(answer: &Result<Status, u8>) -> [u64; FIGURES] {
    let mut words = [0; FIGURES];
    let Ok(status) = answer else {
        words[10] = u64::from(b'-');
        words[19] = u64::from(b'-');
        return words;
    };
    words[0] = status.n;
    words[1] = u64::from(status.verdict);
    for (part, figures) in words[2..].chunks_mut(9).zip(&status.pollutants) {
        part.copy_from_slice(&[
            figures.sum,
            figures.s,
            figures.e,
            figures.c_low,
            figures.c_high,
            figures.h_low,
            figures.h_high,
            figures.n_tenths.unwrap_or(0),
            u64::from(figures.mark),
        ]);
    }
    words
}
