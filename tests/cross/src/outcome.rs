//! A call and what it left, for comparing and for printing.

use std::fmt;

use crate::buffer::Buffer;

/// A call made on both sides.
#[derive(Clone, Copy, Debug)]
pub enum Call<'a> {
    Line(&'a [u8]),
    Engine(u32, &'a [u32], &'a [u32]),
    Ask(u32, &'a [u32], &'a [u32]),
    Status,
    Marks,
    Report,
    /// A line with a reply buffer that is too small.
    LineShort(&'a [u8]),
    /// An engine, an ask or a status with too few words for the figures.
    EngineShort(u32, &'a [u32], &'a [u32]),
    AskShort(u32, &'a [u32], &'a [u32]),
    StatusShort,
}

impl fmt::Display for Call<'_> {
    fn fmt(&self, f: &mut fmt::Formatter<'_>) -> fmt::Result {
        match self {
            Call::Line(line) => write!(f, "command \"{}\"", line.escape_ascii()),
            Call::Engine(number, hcnox, co) => write!(f, "engine {number} {hcnox:?} {co:?}"),
            Call::Ask(number, hcnox, co) => write!(f, "ask {number} {hcnox:?} {co:?}"),
            Call::Status => write!(f, "status"),
            Call::Marks => write!(f, "marks"),
            Call::Report => write!(f, "report"),
            Call::LineShort(line) => {
                write!(f, "command, small reply \"{}\"", line.escape_ascii())
            }
            Call::EngineShort(number, hcnox, co) => {
                write!(f, "engine, few figures {number} {hcnox:?} {co:?}")
            }
            Call::AskShort(number, hcnox, co) => {
                write!(f, "ask, few figures {number} {hcnox:?} {co:?}")
            }
            Call::StatusShort => write!(f, "status, few figures"),
        }
    }
}

/// A lent buffer after the call, with what surrounds it.
#[derive(Clone, PartialEq, Eq, Debug)]
pub enum Lent {
    Bytes(Buffer<u8>),
    Words(Buffer<u64>),
}

/// All that a call gives back, except the journal.
#[derive(Clone, PartialEq, Eq, Debug)]
pub struct Outcome {
    /// The returned number: a length or a refusal.
    pub returned: usize,
    /// The count of bytes written, as reported: the length of a reply, of the
    /// marks or of a wall page.
    pub written: usize,
    pub lent: Lent,
}

impl Outcome {
    pub fn bytes(returned: usize, written: usize, lent: Buffer<u8>) -> Self {
        Outcome {
            returned,
            written,
            lent: Lent::Bytes(lent),
        }
    }

    pub fn words(returned: u8, lent: Buffer<u64>) -> Self {
        Outcome {
            returned: returned.into(),
            written: 0,
            lent: Lent::Words(lent),
        }
    }

    /// The verdict in figures, or in the reply to a line that is no L, if the call
    /// was accepted.
    pub fn verdict(&self) -> Option<u8> {
        let reply = match &self.lent {
            Lent::Words(words) => return (self.returned == 0).then(|| words.part()[1] as u8),
            Lent::Bytes(bytes) => bytes.part().get(..self.written)?,
        };
        let mut fields = reply.split(|byte| *byte == b' ');
        match (fields.next()?, fields.nth(1)?) {
            (b"OK", [digit]) => Some(digit - b'0'),
            _ => None,
        }
    }
}

impl fmt::Display for Outcome {
    fn fmt(&self, f: &mut fmt::Formatter<'_>) -> fmt::Result {
        write!(f, "returned {}, ", self.returned)?;
        match &self.lent {
            Lent::Words(words) => {
                let around = words.around();
                write!(f, "figures {:?}, around them {around:?}", words.part())
            }
            Lent::Bytes(bytes) => {
                let part = bytes.part();
                let (front, rest) = part.split_at(self.written.min(part.len()));
                let front = front.escape_ascii();
                write!(f, "wrote {}: \"{front}\", then {}", self.written, hex(rest))?;
                let [before, after] = bytes.around().map(hex);
                write!(f, ", around it {before} and {after}")
            }
        }
    }
}

/// Bytes as hexadecimal digits.
pub fn hex(bytes: &[u8]) -> String {
    bytes.iter().map(|byte| format!("{byte:02x}")).collect()
}

/// Why a case ended early.
#[derive(Clone, Debug)]
pub struct Difference {
    pub what: &'static str,
    /// The calls of the case that agreed before.
    pub agreed: u64,
    /// The call and what both sides left.
    pub details: String,
}

impl Difference {
    /// The panic's message went to standard error.
    pub fn panicked() -> Self {
        Difference {
            what: "a side panicked",
            agreed: 0,
            details: String::new(),
        }
    }
}
