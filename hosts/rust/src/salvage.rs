//! What remains of a damaged tour's file.

use crate::raw;
use crate::tour::{TourFault, TourPlace, TourRefusal};

/// The words of a range in the list.
const RANGE: usize = 3;

/// The bytes that a salvage of a file of so many bytes writes at most.
pub const fn salvage_bytes(bytes: usize) -> usize {
    bytes.saturating_add(10)
}

/// The words that a salvage of a file of so many bytes lists at most. The ranges are most where a dropped byte and an
/// empty field that is passed over take turns, two in four bytes.
pub const fn salvage_words(bytes: usize) -> usize {
    bytes.div_ceil(2).saturating_mul(RANGE)
}

/// Salvages a damaged tour's file, such as one that was cut while it was copied.
///
/// From left to right, a whole valid command whose number is above that of the last one kept is kept; a valid first or
/// last field and a field that is skipped are passed over; at any other place one byte is dropped. The kept commands,
/// byte for byte, make a fresh file at the front of `out`, which [`read_tour`](crate::read_tour) takes if their clips are
/// listed. An undamaged file loses none. What only looks like a command may be kept too. A damaged number that is too high
/// shuts out the later commands up to it, and a byte that has become a skippable tag swallows what its length covers. The
/// list shows where.
///
/// [`salvage_bytes`] and [`salvage_words`] are always enough for `out` and for the list, and what stands behind the file
/// and the ranges stays. It is refused, in this order, if more than 4,096 commands are kept, if `out` is too short, and if
/// the list is; a refused call leaves both as they were.
///
/// ```
/// use threshreed::{Mark, Range, WORDS, read_tour, salvage, salvage_bytes, salvage_words, write_tour};
///
/// let records = [[0, 1, 1, 0, 0], [100, 2, 2, 0, 0]]; // Play, and after 100 frames Pause.
/// let mut file = [0; 50];
/// write_tour(&[None; 32], records.as_flattened(), &mut file)?;
/// let cut = &file[..40];
///
/// let mut out = [0; salvage_bytes(40)];
/// let mut list = [0; salvage_words(40)];
/// let salvaged = salvage(cut, &mut out, &mut list)?;
/// let ranges: Vec<Range> = salvaged.ranges().collect();
/// assert_eq!(ranges[0], Range { mark: Mark::Passed, from: 0, to: 5 });
/// assert_eq!(ranges[1], Range { mark: Mark::Kept, from: 5, to: 25 });
/// assert_eq!(ranges[2], Range { mark: Mark::Dropped, from: 25, to: 40 });
///
/// let mut again = [0; WORDS];
/// assert_eq!(read_tour(&[None; 32], salvaged.file, &mut again), Ok(1));
/// assert_eq!(again, records[0]);
/// # Ok::<(), threshreed::TourRefusal>(())
/// ```
pub fn salvage<'a>(
    file: &[u8],
    out: &'a mut [u8],
    list: &'a mut [u64],
) -> Result<Salvaged<'a>, TourRefusal> {
    let answered = raw::salvage(file, out, list);
    match TourFault::of(answered.refusal) {
        None => Ok(Salvaged {
            kept: answered.kept,
            file: &out[..answered.bytes],
            list: &list[..answered.ranges * RANGE],
        }),
        Some(fault) => Err(TourRefusal {
            fault,
            place: TourPlace::Nowhere,
        }),
    }
}

/// What a salvage gives.
#[derive(Clone, Copy, Debug, PartialEq, Eq)]
pub struct Salvaged<'a> {
    /// How many commands were kept.
    pub kept: usize,
    /// The fresh file.
    pub file: &'a [u8],
    list: &'a [u64],
}

impl<'a> Salvaged<'a> {
    /// What was done with each part of the damaged file, in order, no byte of which is left out or comes twice.
    pub fn ranges(&self) -> impl ExactSizeIterator<Item = Range> + use<'a> {
        self.list.chunks_exact(RANGE).map(|words| Range {
            mark: match words[0] {
                1 => Mark::Kept,
                2 => Mark::Passed,
                _ => Mark::Dropped,
            },
            from: words[1] as usize,
            to: words[2] as usize,
        })
    }
}

/// A whole field of a damaged file, or bytes that were dropped side by side: its first byte, and the byte behind its
/// last.
#[derive(Clone, Copy, Debug, PartialEq, Eq, Hash)]
pub struct Range {
    pub mark: Mark,
    pub from: usize,
    pub to: usize,
}

/// What was done with a range.
#[derive(Clone, Copy, Debug, PartialEq, Eq, Hash)]
pub enum Mark {
    /// A command, which stands in the fresh file.
    Kept,
    /// Another field: the first, the last or one that is skipped.
    Passed,
    /// Neither.
    Dropped,
}
