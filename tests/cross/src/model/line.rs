//! Document 01, "Key line", with the keys Z and T of document 02: a line taken
//! apart, its call made, the reply put together.

use super::Status;
use super::calls::{amendment, ask, declaration, deletion, engine, next_period, setup, strip};
use super::refusal;

/// "At most 64 bytes"
const MAX_LINE: usize = 64;

/// A letter, then at least two bytes for each number.
const MAX_NUMBERS: usize = (MAX_LINE - 1) / 2;

/// "A number has 1 to 8 digits"
const MAX_DIGITS: usize = 8;

const REPLY_BYTES: usize = 96;

/// What comes before the marks in the reply to L.
const STRIP_HEAD: &[u8; 3] = b"OK ";

/// One key line (without its newline) on the book. The reply (no newline) goes
/// to the front of `reply` and its length is returned; the bytes of `reply`
/// beyond it are unchanged.
pub fn key_line(book: &mut [u8], line: &[u8], reply: &mut [u8; REPLY_BYTES]) -> usize {
    let mut list = [0; MAX_NUMBERS];
    let answer = match read_line(line, &mut list) {
        Ok((b'L', [])) => return strip_reply(book, reply),
        Ok((letter, numbers)) => make_call(book, letter, numbers),
        Err(refused) => Err(refused),
    };
    let mut writer = Writer::new(reply);
    match answer {
        Ok(status) => writer.status(&status),
        Err(refused) => writer.refused(refused),
    }
    writer.len
}

/// The letter and the numbers of a line. Refusal 1, and the part of refusal 2
/// that does not depend on the letter.
fn read_line<'n>(line: &[u8], list: &'n mut [u32; MAX_NUMBERS]) -> Result<(u8, &'n [u32]), u8> {
    if line.len() > MAX_LINE {
        return Err(refusal::LINE_LENGTH);
    }
    let Some(&letter) = line.first() else {
        return Err(refusal::LINE_FORM);
    };
    let mut reader = Reader { line, next: 1 };
    let Some(numbers) = reader.numbers(list) else {
        return Err(refusal::LINE_FORM);
    };
    Ok((letter, numbers))
}

/// The call of a line other than L. Refusal 2 for an unknown letter or a count
/// of numbers that is not the letter's.
fn make_call(book: &mut [u8], letter: u8, numbers: &[u32]) -> Result<Status, u8> {
    match (letter, numbers) {
        // "P, D, two standards, HC+NOx kind and factor, CO kind and factor"
        (b'S', &[p, d, t0, t1, k0, f0, k1, f1]) => setup(book, p, d, [t0, t1], [k0, k1], [f0, f1]),
        // "An odd count of readings is refused by 2"; both calls refuse an even
        // count "that is none or more than six" by 11. "key T, with E's numbers,
        // only asks".
        (b'E' | b'T', &[number, ref readings @ ..]) if readings.len().is_multiple_of(2) => {
            let (hcnox, co) = readings.split_at(readings.len() / 2);
            if letter == b'T' {
                ask(book, number, hcnox, co)
            } else {
                engine(book, number, hcnox, co)
            }
        }
        (b'A', &[hcnox, co]) => amendment(book, [hcnox, co]),
        (b'P', []) => next_period(book),
        (b'X', []) => declaration(book),
        (b'Z', []) => deletion(book),
        _ => Err(refusal::LINE_FORM),
    }
}

/// "OK" and the strip, whose marks go straight to their place; "OK" alone with
/// no engine.
fn strip_reply(book: &[u8], reply: &mut [u8; REPLY_BYTES]) -> usize {
    let marks = strip(book, &mut reply[STRIP_HEAD.len()..]);
    let mut writer = Writer::new(reply);
    match marks {
        Ok(0) => writer.bytes(b"OK"),
        Ok(length) => {
            writer.bytes(STRIP_HEAD);
            writer.len += length;
        }
        Err(refused) => writer.refused(refused),
    }
    writer.len
}

/// "A reader of the key line keeps the line it was given and the position of
/// the next byte".
struct Reader<'l> {
    line: &'l [u8],
    next: usize,
}

impl Reader<'_> {
    /// Every number up to the end of the line.
    fn numbers<'n>(&mut self, list: &'n mut [u32; MAX_NUMBERS]) -> Option<&'n [u32]> {
        let mut count = 0;
        while self.next < self.line.len() {
            *list.get_mut(count)? = self.number()?;
            count += 1;
        }
        list.get(..count)
    }

    /// One space and a number with "1 to 8 digits and no leading zero but in
    /// 0", or nothing if that is not what comes next.
    fn number(&mut self) -> Option<u32> {
        let rest = self.line.get(self.next..)?.strip_prefix(b" ")?;
        let length = rest.iter().take_while(|b| b.is_ascii_digit()).count();
        let digits = rest.get(..length)?;
        let formed = match digits {
            [b'0'] => true,
            [b'1'..=b'9', ..] => length <= MAX_DIGITS,
            _ => false,
        };
        if !formed {
            return None;
        }
        self.next += 1 + length;
        // At most 99,999,999.
        let value = digits
            .iter()
            .fold(0, |value, digit| 10 * value + u32::from(digit - b'0'));
        Some(value)
    }
}

/// Puts the reply together. With two N of 20 digits a status would take 52
/// bytes; forty engines' marks take 83.
struct Writer<'r> {
    reply: &'r mut [u8; REPLY_BYTES],
    len: usize,
}

impl<'r> Writer<'r> {
    fn new(reply: &'r mut [u8; REPLY_BYTES]) -> Self {
        Self { reply, len: 0 }
    }

    fn bytes(&mut self, bytes: &[u8]) {
        for (place, byte) in self.reply.iter_mut().skip(self.len).zip(bytes) {
            *place = *byte;
        }
        self.len += bytes.len();
    }

    fn number(&mut self, number: u64) {
        // u64 has at most 20 digits.
        let mut digits = [b'0'; 20];
        let mut left = number;
        let mut first = digits.len();
        for (place, digit) in digits.iter_mut().enumerate().rev() {
            *digit = b'0' + (left % 10) as u8;
            left /= 10;
            first = place;
            if left == 0 {
                break;
            }
        }
        self.bytes(digits.get(first..).unwrap_or_default());
    }

    /// "NO" and the number.
    fn refused(&mut self, refused: u8) {
        self.bytes(b"NO ");
        self.number(refused.into());
    }

    /// "OK", n, verdict, the two last marks joined, N in tenths for each
    /// pollutant ('-' for none).
    fn status(&mut self, status: &Status) {
        self.bytes(b"OK ");
        self.number(status.n);
        self.bytes(b" ");
        self.number(status.verdict.into());
        self.bytes(b" ");
        self.bytes(&status.pollutants.map(|figures| figures.mark));
        for figures in &status.pollutants {
            self.bytes(b" ");
            match figures.n_tenths {
                Some(tenths) => self.number(tenths),
                None => self.bytes(b"-"),
            }
        }
    }
}
