//! A buffer to be lent: a part of a longer one, starting anywhere. Nobody may
//! read or write what surrounds the part.

/// The most elements before the part, and the number of those after it.
pub const BEFORE: usize = 15;
pub const AFTER: usize = 16;

#[derive(Clone, PartialEq, Eq, Debug)]
pub struct Buffer<T> {
    whole: Vec<T>,
    start: usize,
    length: usize,
}

impl<T: Copy> Buffer<T> {
    /// The part of `whole` from `start` on, without the last `AFTER` elements.
    pub fn new(whole: Vec<T>, start: usize) -> Self {
        let length = whole.len() - start - AFTER;
        Buffer {
            whole,
            start,
            length,
        }
    }

    pub fn part(&self) -> &[T] {
        &self.whole[self.start..self.start + self.length]
    }

    pub fn part_mut(&mut self) -> &mut [T] {
        &mut self.whole[self.start..self.start + self.length]
    }

    /// What is before the part, and what is after it.
    pub fn around(&self) -> [&[T]; 2] {
        [
            &self.whole[..self.start],
            &self.whole[self.start + self.length..],
        ]
    }
}
