//! Lines of bytes: random ones, and well-formed lines with something changed.

use super::damaged::damage;
use crate::faults;
use crate::journal;
use crate::random::Random;
use crate::twin::Twin;
use crate::written;

const ALPHABET: &[u8] = b"SETAPXLZQU 0123456789";

/// Bytes put into a well-formed line.
const STRANGE: &[u8] = b" \t\r\n\0+-.,/:;0129aelpstxzEALPQSTUXZ\x1f\x21\x2f\x3a\x80\xff";

/// Letters to key with the numbers of another: those that take numbers, and some
/// that differ from T in one bit or stand next to it.
const LETTERS: &[u8] = b"SEATTDPRUVt";

pub fn run(twin: &mut Twin, random: &mut Random) {
    let mut start = written::any_journal(random);
    if random.one_in(8) {
        damage(random, &mut start);
    }
    twin.lend(&start);
    for _ in 0..random.between(4, 20) {
        let line = line(twin.journal(), random);
        if random.one_in(24) {
            let other = random.pick(&[0, 1, 543, 545]);
            twin.lend(&vec![0; other]);
        }
        twin.command(&line);
        if twin.journal() != start && random.one_in(2) {
            twin.lend(&start);
        }
    }
}

fn line(journal: &[u8], random: &mut Random) -> Vec<u8> {
    match random.weighted(&[2, 2, 1, 8, 2, 2]) {
        0 => {
            let length = random.below(71);
            random.bytes(length)
        }
        1 => from_alphabet(random),
        2 => {
            let length = random.pick(&[63, 64, 65, 66, 100, 500, 3_000]);
            random.bytes(length)
        }
        3 => changed(journal, random),
        4 => long(journal, random),
        _ => many_numbers(random),
    }
}

fn from_alphabet(random: &mut Random) -> Vec<u8> {
    let length = random.below(71);
    (0..length).map(|_| random.pick(ALPHABET)).collect()
}

/// A well-formed line, mostly with arguments in range too.
fn valid(journal: &[u8], random: &mut Random) -> Vec<u8> {
    match random.below(8) {
        0 | 1 => faults::setup(random, 30).line(),
        2..=4 => faults::engine_line(random.pick(b"EET"), journal, random, 30),
        5 => journal::line(b'A', &faults::standards(random, 30)),
        _ => vec![random.pick(b"PXLZZ")],
    }
}

fn changed(journal: &[u8], random: &mut Random) -> Vec<u8> {
    let mut line = valid(journal, random);
    for _ in 0..random.pick(&[0, 1, 1, 1, 2]) {
        change(random, &mut line);
    }
    line
}

fn change(random: &mut Random, line: &mut Vec<u8>) {
    let at = random.below(line.len() + 1);
    let inside = at.min(line.len().saturating_sub(1));
    match random.below(10) {
        0 if !line.is_empty() => {
            line.remove(inside);
        }
        1 => line.insert(at, random.pick(STRANGE)),
        2 if !line.is_empty() => line[inside] = random.pick(STRANGE),
        3 => insert_at_space(random, line, b' '),
        4 => insert_at_space(random, line, b'0'),
        5 => line.push(random.pick(b" \r\n\t\0")),
        6 => line.insert(0, random.pick(STRANGE)),
        7 => line.make_ascii_lowercase(),
        8 if !line.is_empty() => line[0] = random.pick(LETTERS),
        _ => lengthen_number(random, line),
    }
}

/// Doubles a space, or puts a zero after one.
fn insert_at_space(random: &mut Random, line: &mut Vec<u8>, byte: u8) {
    let spaces: Vec<usize> = (0..line.len()).filter(|at| line[*at] == b' ').collect();
    if !spaces.is_empty() {
        line.insert(random.pick(&spaces) + 1, byte);
    }
}

/// Adds digits to a number, up to nine and more of them.
fn lengthen_number(random: &mut Random, line: &mut Vec<u8>) {
    let at = random.below(line.len() + 1);
    for _ in 0..random.between(1, 9) {
        line.insert(at, b'0' + random.below(10) as u8);
    }
}

/// A line brought to about the greatest length, or one whose length has the
/// same lowest bits as a shorter one.
fn long(journal: &[u8], random: &mut Random) -> Vec<u8> {
    let mut line = valid(journal, random);
    let length = match random.below(200) {
        0 => line.len() + 65_536,
        1..=20 => line.len() + 256,
        _ => random.pick(&[63, 64, 65, 66]),
    };
    while line.len() + 1 < length {
        line.extend_from_slice(b" 7");
    }
    if line.len() < length {
        line.push(b'1');
    }
    line
}

/// A letter and up to thirty small numbers, or a few of any size.
fn many_numbers(random: &mut Random) -> Vec<u8> {
    let letter = random.pick(ALPHABET);
    let (count, largest) = if random.one_in(2) {
        (random.below(32), 9)
    } else {
        (random.below(10), 99_999_999)
    };
    let numbers: Vec<u32> = (0..count).map(|_| random.between(0, largest)).collect();
    journal::line(letter, &numbers)
}
