//! The salvage by its description: byte for byte what becomes of a file, and then what is the same side by side.

use std::iter::repeat_n;

use threshreed::TourFault::{self, *};

use crate::format::{Part, carried, count, number, version};

/// The commands kept, the fresh file, and of each range what was done with it, its first byte and the byte behind its
/// last.
#[derive(Debug, PartialEq)]
pub struct Remains {
    pub kept: usize,
    pub file: Vec<u8>,
    pub ranges: Vec<[u64; 3]>,
}

pub const KEPT: u64 = 1;
pub const PASSED: u64 = 2;
pub const DROPPED: u64 = 3;

/// The number of a command, as its field has it.
pub fn command_number(field: &[u8]) -> u64 {
    number(&field[11..19])
}

/// How many bytes a command has that these bytes begin with: whole, of one of the ten kinds, its clip one of 32.
fn command(bytes: &[u8]) -> Option<usize> {
    (1..=10).find_map(|kind| {
        let parts = carried(kind).unwrap();
        let length = 17 + parts.iter().map(|part| part.bytes()).sum::<usize>();
        let names = parts.first() == Some(&Part::Clip);
        let stands = bytes.starts_with(&[2, length as u8, 0])
            && bytes.len() >= 3 + length
            && bytes[19] == kind as u8
            && !(names && bytes[20] > 31);
        stands.then_some(3 + length)
    })
}

/// How many bytes a first, a last or a skippable field has that these bytes begin with.
fn other(bytes: &[u8]) -> Option<usize> {
    match *bytes {
        [1, 2, 0, 1, 0, ..] | [3, 2, 0, _, _, ..] => Some(5),
        [128..=255, low, high, ref behind @ ..] => {
            let length = usize::from(u16::from_le_bytes([low, high]));
            (behind.len() >= length).then_some(3 + length)
        }
        _ => None,
    }
}

/// What remains of a file, if there is room for so many bytes and so many words; else the fault.
pub fn salvage(file: &[u8], bytes: usize, words: usize) -> Result<Remains, TourFault> {
    // What is done with each byte, and where its field begins if it is in one.
    let mut done = Vec::with_capacity(file.len());
    let mut kept: Vec<&[u8]> = Vec::new();
    while done.len() < file.len() {
        let at = done.len();
        let rest = &file[at..];
        let last = kept.last().map(|field| command_number(field));
        let is_above = |_: &usize| last.is_none_or(|last| command_number(rest) > last);
        if let Some(length) = command(rest).filter(is_above) {
            kept.push(&rest[..length]);
            done.extend(repeat_n((KEPT, Some(at)), length));
        } else if let Some(length) = other(rest) {
            done.extend(repeat_n((PASSED, Some(at)), length));
        } else {
            done.push((DROPPED, None));
        }
    }
    let mut to = 0;
    let range = |same: &[(u64, Option<usize>)]| {
        let from = to;
        to += same.len() as u64;
        [same[0].0, from, to]
    };
    let ranges: Vec<[u64; 3]> = done.chunk_by(|a, b| a == b).map(range).collect();
    let file = [version(), kept.concat(), count(kept.len())].concat();
    if kept.len() > 4_096 {
        return Err(TooMany);
    }
    if file.len() > bytes {
        return Err(OutputTooShort);
    }
    if ranges.len() > words / 3 {
        return Err(RecordsTooShort);
    }
    Ok(Remains {
        kept: kept.len(),
        file,
        ranges,
    })
}
