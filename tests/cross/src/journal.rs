//! A journal's bytes, written and read directly.

pub const LENGTH: usize = 544;
pub const HEADER: usize = 32;
pub const SLOTS: usize = 64;
pub const VERSION_AT: usize = 3;
pub const COUNT_AT: usize = 24;

pub type Slot = [u8; 8];

pub const NEXT_PERIOD: Slot = [3, 0, 0, 0, 0, 0, 0, 0];
pub const DECLARATION: Slot = [4, 0, 0, 0, 0, 0, 0, 0];
pub const DELETION: Slot = [5, 0, 0, 0, 0, 0, 0, 0];

/// The numbers of a setup, in range or not.
#[derive(Clone, Copy, Debug)]
pub struct Setup {
    pub volume: u32,
    pub days: u32,
    pub standards: [u32; 2],
    pub kinds: [u32; 2],
    pub factors: [u32; 2],
}

impl Setup {
    /// The numbers in the order of the line.
    pub fn numbers(&self) -> [u32; 8] {
        [
            self.volume,
            self.days,
            self.standards[0],
            self.standards[1],
            self.kinds[0],
            self.factors[0],
            self.kinds[1],
            self.factors[1],
        ]
    }

    /// The key line of this setup.
    pub fn line(&self) -> Vec<u8> {
        line(b'S', &self.numbers())
    }

    /// Test periods of the year.
    pub fn periods(&self) -> u32 {
        match (self.volume, self.days) {
            (..1_600, _) | (_, ..=120) => 1,
            (_, ..=210) => 2,
            (_, ..=300) => 3,
            _ => 4,
        }
    }
}

/// A key line of a letter and numbers.
pub fn line(letter: u8, numbers: &[u32]) -> Vec<u8> {
    let mut line = vec![letter];
    for number in numbers {
        line.push(b' ');
        push_number(&mut line, *number);
    }
    line
}

fn push_number(line: &mut Vec<u8>, number: u32) {
    let mut digits = [0; 10];
    let mut first = digits.len();
    let mut left = number;
    loop {
        first -= 1;
        digits[first] = b'0' + (left % 10) as u8;
        left /= 10;
        if left == 0 {
            break;
        }
    }
    line.extend_from_slice(&digits[first..]);
}

/// The slot of an engine.
pub fn engine_slot(readings: u8, results: [u32; 2], number: u32) -> Slot {
    let [a, b] = (results[0] as u16).to_le_bytes();
    let [c, d] = (results[1] as u16).to_le_bytes();
    let [e, f] = (number as u16).to_le_bytes();
    [1, readings, a, b, c, d, e, f]
}

/// The slot of an amendment.
pub fn amendment_slot(standards: [u32; 2]) -> Slot {
    let [a, b] = (standards[0] as u16).to_le_bytes();
    let [c, d] = (standards[1] as u16).to_le_bytes();
    [2, 0, a, b, c, d, 0, 0]
}

/// A journal of this setup and the first 64 of these slots.
pub fn write(setup: &Setup, slots: &[Slot]) -> Vec<u8> {
    let mut journal = vec![0; LENGTH];
    journal[0..3].copy_from_slice(b"PLT");
    journal[8..12].copy_from_slice(&setup.volume.to_le_bytes());
    journal[12..14].copy_from_slice(&(setup.days as u16).to_le_bytes());
    for place in 0..2 {
        let standard = (setup.standards[place] as u16).to_le_bytes();
        let factor = (setup.factors[place] as u16).to_le_bytes();
        journal[14 + 2 * place..16 + 2 * place].copy_from_slice(&standard);
        journal[18 + place] = setup.kinds[place] as u8;
        journal[20 + 2 * place..22 + 2 * place].copy_from_slice(&factor);
    }
    put_slots(&mut journal, slots);
    journal
}

/// Puts the first 64 of these slots into a journal, with their number and the
/// version that fits them.
pub fn put_slots(journal: &mut [u8], slots: &[Slot]) {
    journal[VERSION_AT] = version_of(slots);
    journal[COUNT_AT] = slots.len().min(255) as u8;
    let parts = &mut journal[HEADER..LENGTH];
    parts.fill(0);
    for (part, slot) in parts.chunks_mut(8).zip(slots) {
        part.copy_from_slice(slot);
    }
}

/// The version that fits these slots.
pub fn version_of(slots: &[Slot]) -> u8 {
    let deletion = slots.iter().any(|slot| slot[0] == DELETION[0]);
    if deletion { 2 } else { 1 }
}

/// Where slot `place` starts.
pub fn slot_at(place: usize) -> usize {
    HEADER + 8 * place
}

/// The slots in use, as far as the bytes go.
pub fn slots(journal: &[u8]) -> Vec<Slot> {
    let Some(count) = journal.get(COUNT_AT) else {
        return Vec::new();
    };
    let (slots, _) = journal[HEADER.min(journal.len())..].as_chunks::<8>();
    slots.iter().take(usize::from(*count)).copied().collect()
}

/// The standards, kinds and factors of the header, if there is one.
pub fn factors(journal: &[u8]) -> Option<[(u8, u16); 2]> {
    let header = journal.get(..HEADER)?;
    let word = |at: usize| u16::from_le_bytes([header[at], header[at + 1]]);
    Some([(header[18], word(20)), (header[19], word(22))])
}

/// The engine numbers in use, and those of deleted engines.
pub fn numbers(journal: &[u8]) -> Vec<u32> {
    let engines = slots(journal).into_iter().filter(|slot| slot[0] == 1);
    engines
        .map(|slot| u32::from(u16::from_le_bytes([slot[6], slot[7]])))
        .collect()
}

/// The number of engines that remain.
pub fn engines(journal: &[u8]) -> usize {
    let slots = slots(journal);
    let count = |kind: u8| slots.iter().filter(|slot| slot[0] == kind).count();
    count(1).saturating_sub(count(DELETION[0]))
}

/// The slots of the engines that remain in an accepted journal.
pub fn remaining(journal: &[u8]) -> Vec<Slot> {
    let mut slots = slots(&without_deleted(journal));
    slots.retain(|slot| slot[0] == 1);
    slots
}

/// An accepted journal as it was right after this one of the engines that remain,
/// counted from 1, had the deleted ones never been entered; for 0, after the setup.
pub fn cut_after(journal: &[u8], engine: usize) -> Vec<u8> {
    let mut other = without_deleted(journal);
    let slots = slots(&other);
    let places = (0..slots.len()).filter(|place| slots[*place][0] == 1);
    let ends = [0].into_iter().chain(places.map(|place| place + 1));
    let end = ends.take(engine + 1).last().unwrap_or(0);
    put_slots(&mut other, &slots[..end]);
    other
}

/// An accepted journal as it would be had its deleted engines never been
/// entered.
pub fn without_deleted(journal: &[u8]) -> Vec<u8> {
    let mut left: Vec<Slot> = Vec::new();
    for slot in slots(journal) {
        if slot != DELETION {
            left.push(slot);
        } else if let Some(newest) = left.iter().rposition(|slot| slot[0] == 1) {
            left.remove(newest);
        }
    }
    let mut other = journal.to_vec();
    put_slots(&mut other, &left);
    other
}
