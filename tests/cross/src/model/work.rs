//! Document 01, "Spread, brackets, marks" and "Sample size", for one pollutant.

use super::Figures;
use super::rounding::MAX_RESULT;
use super::setup::MAX_STANDARD;

/// "At most 40 engines."
pub(super) const MAX_ENGINES: usize = 40;

/// "t95 in hundredths, n = 2 to 30"
const T95: [u64; 29] = [
    631, 292, 235, 213, 202, 194, 190, 186, 183, 181, 180, 178, 177, 176, 175, 175, 174, 173, 173,
    172, 172, 172, 171, 171, 171, 171, 170, 170, 170,
];

/// "165 from 31 on"
const T95_BEYOND: u64 = 165;

/// "Fineness k is 1,024 in the calculator". k² × V <= 2^20 × 1.6e11 < 2^64.
const FINENESS: u64 = 1_024;

/// One pollutant, engine by engine.
///
/// The fields are for reading: the bounds below hold for what `add` leaves.
/// With n <= 40 and X, T <= 20,000:
/// S <= 800,000, Q <= 1.6e10, V <= n² × 20,000² / 4 <= 1.6e11.
#[derive(Clone, Copy, PartialEq, Eq, Debug)]
pub struct Pollutant {
    /// Engines so far.
    pub n: u64,
    /// S, the sum of X.
    pub sum: u64,
    /// Q, the sum of squares.
    pub squares: u64,
    /// V = n × Q − S², from engine 2 on.
    pub v: u64,
    /// T, in force when the newest engine was entered.
    pub standard: u64,
    pub s: u64,
    pub e: u64,
    pub c_low: u64,
    pub c_high: u64,
    pub h_low: u64,
    pub h_high: u64,
    /// The newest mark, ASCII.
    pub mark: u8,
    /// 'O' at two consecutive engines, for verdict 6.
    pub failed: bool,
    /// Two consecutive marks each 'O' or '?', not both 'O', for verdict 5.
    pub unsettled: bool,
}

impl Default for Pollutant {
    fn default() -> Self {
        Self {
            n: 0,
            sum: 0,
            squares: 0,
            v: 0,
            standard: 0,
            s: 0,
            e: 0,
            c_low: 0,
            c_high: 0,
            h_low: 0,
            h_high: 0,
            mark: b'-',
            failed: false,
            unsettled: false,
        }
    }
}

impl Pollutant {
    /// No engine yet.
    pub fn new() -> Self {
        Self::default()
    }

    /// Takes the next engine's result under the standard then in force.
    ///
    /// A 41st engine, or a result or standard above 20,000, is left out.
    pub fn add(&mut self, result: u32, standard: u32) {
        if self.n >= MAX_ENGINES as u64 || result > MAX_RESULT || standard > MAX_STANDARD {
            return;
        }
        let x = u64::from(result);
        self.n += 1;
        self.sum += x;
        self.squares += x * x;
        self.standard = u64::from(standard);
        // "C low and C high are 0 at engine 1", "Engine 1 has '-'".
        if self.n < 2 {
            return;
        }
        self.take_spread();
        self.take_brackets(x);
        self.take_mark();
    }

    /// V, s and e.
    fn take_spread(&mut self) {
        self.v = self.n * self.squares - self.sum * self.sum;
        let scaled = FINENESS * FINENESS * self.v;
        let pairs = self.n * (self.n - 1);
        // The largest s with s² × pairs <= scaled is the root of the quotient.
        self.s = (scaled / pairs).isqrt();
        self.e = u64::from(self.s * self.s * pairs != scaled);
    }

    /// C and H. `max(0, a - b)` is a saturating difference of two sums, each
    /// below 41 × 4k × 20,000 < 3.4e9 plus s, which is below 1.5e7.
    fn take_brackets(&mut self, x: u64) {
        let up = 4 * FINENESS * x;
        let down = 4 * FINENESS * self.standard + self.s;
        self.c_low = (self.c_low + up).saturating_sub(down + self.e);
        self.c_high = (self.c_high + up).saturating_sub(down);
        self.h_low = 20 * self.s;
        self.h_high = 20 * (self.s + self.e);
    }

    /// The newest mark, and the patterns that it makes with the one before it.
    fn take_mark(&mut self) {
        let before = self.mark;
        self.mark = if self.c_low > self.h_high {
            b'O'
        } else if self.c_high <= self.h_low {
            b'U'
        } else {
            b'?'
        };
        match (before, self.mark) {
            (b'O', b'O') => self.failed = true,
            (b'O' | b'?', b'O' | b'?') => self.unsettled = true,
            _ => {}
        }
    }

    /// n × T, from which G is computed: G = S − n × T.
    fn allowed(&self) -> u64 {
        self.n * self.standard
    }

    /// N − 1 as a fraction t95² × V × n / (10,000 × (n − 1) × G²): the top,
    /// and the bottom without its 10,000. "There is no N if n < 2 or G = 0."
    ///
    /// The top is largest at n = 40: 165² × 1.6e11 × 40 < 1.8e17. |G| is at
    /// most 800,000 and not 0, so the bottom is from 1 to 39 × 6.4e11 < 2.5e13.
    fn excess(&self) -> Option<(u64, u64)> {
        let g = self.sum.abs_diff(self.allowed());
        if self.n < 2 || g == 0 {
            return None;
        }
        let t95 = *T95.get(self.n as usize - 2).unwrap_or(&T95_BEYOND);
        Some((t95 * t95 * self.v * self.n, (self.n - 1) * g * g))
    }

    /// N in tenths, rounded up: 10 × N is 10 plus top / (1,000 × bottom), of
    /// which only the fraction needs rounding. 1,000 × 2.5e13 fits.
    pub fn n_tenths(&self) -> Option<u64> {
        let (top, bottom) = self.excess()?;
        Some(10 + top.div_ceil(1_000 * bottom))
    }

    /// The stop test: "N exists, n > N and G ≤ 0", on the exact fraction.
    ///
    /// n > N is (n − 1) × 10,000 × bottom > top. The left side is at most
    /// 39² × 10,000 × 6.4e11 < 9.8e18, below 2^64.
    pub fn may_stop(&self) -> bool {
        let Some((top, bottom)) = self.excess() else {
            return false;
        };
        (self.n - 1) * 10_000 * bottom > top && self.sum <= self.allowed()
    }

    /// The figures that a status gives. Before engine 2 all but S are still
    /// as in a new pollutant.
    pub fn figures(&self) -> Figures {
        Figures {
            sum: self.sum,
            s: self.s,
            e: self.e,
            c_low: self.c_low,
            c_high: self.c_high,
            h_low: self.h_low,
            h_high: self.h_high,
            n_tenths: self.n_tenths(),
            mark: self.mark,
        }
    }
}
