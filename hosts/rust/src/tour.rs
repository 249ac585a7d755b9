//! A tour in a file: what a capture kept, to be replayed another day.

use core::error::Error;
use core::fmt;

use crate::command::Handle;
use crate::raw;

/// Which clip stands behind each clip byte of a tour's file, 0 to 31. No handle may stand twice.
///
/// A session's own are [`Session::clips`](crate::Session::clips). Where the rooms are loaded in another order, the places
/// are a host's to choose:
///
/// ```
/// use threshreed::{Clips, Song, Stores};
///
/// let mut stores = Stores::<8, 0, 4>::new();
/// let session = stores.open(48_000, Song::new(&[0.5, -0.5], 48_000))?;
/// let mut clips: Clips = [None; 32];
/// clips[7] = Some(session.song());
/// # Ok::<(), threshreed::Refusal>(())
/// ```
pub type Clips = [Option<Handle>; raw::SLOTS];

/// The bytes that a tour's file of so many commands has at most: all of them loops.
pub const fn tour_bytes(commands: usize) -> usize {
    commands.saturating_mul(36).saturating_add(10)
}

/// Writes records, [`WORDS`](crate::WORDS) words each, as a tour's file to the front of `out`, and answers its length. A
/// remainder is not looked at, gains are kept bit for bit, and what stands behind the file in `out` stays. A refused call
/// leaves `out` as it was.
///
/// A capture is saved, and replayed by a session that has loaded the same clips in the same order:
///
/// ```
/// use threshreed::{At, ClockFrame, Command, Handle, Refusal, Session, Song, Stinger, Stores};
/// use threshreed::{WORDS, read_tour, tour_bytes, write_tour};
///
/// fn open(stores: &mut Stores<8, 8, 4>) -> Result<(Session<'_>, Handle), Refusal> {
///     let mut session = stores.open(48_000, Song::new(&[0.5, -0.5, 0.25, 0.25], 48_000))?;
///     let bell = session.load_stinger(Stinger { samples: &[0.125; 2], rate: 48_000 })?;
///     Ok((session, bell))
/// }
///
/// let mut stores = Stores::new();
/// let (mut session, bell) = open(&mut stores)?;
/// session.start_capture()?;
/// session.submit(Command::Play, At::Immediate)?;
/// session.submit(Command::Stinger(bell, 1.0), At::Frame(ClockFrame(1)))?;
/// let mut heard = [0.0; 4];
/// session.block(&mut heard)?;
///
/// let mut list = [0; 8 * WORDS];
/// let captured = session.stop_capture(&mut list)?;
/// let mut bytes = [0; tour_bytes(8)];
/// let length = write_tour(&session.clips(), &list[..captured * WORDS], &mut bytes)?;
/// let file = &bytes[..length];
///
/// // Another day.
/// let (mut session, _) = open(&mut stores)?;
/// let mut list = [0; 8 * WORDS];
/// let read = read_tour(&session.clips(), file, &mut list)?;
/// assert_eq!(session.replay(&list[..read * WORDS])?.taken, 2);
/// let mut again = [0.0; 4];
/// session.block(&mut again)?;
/// assert_eq!((again, again[2]), (heard, 0.25 + 0.125));
/// # Ok::<(), Box<dyn std::error::Error>>(())
/// ```
pub fn write_tour(clips: &Clips, records: &[u64], out: &mut [u8]) -> Result<usize, TourRefusal> {
    let written = raw::write_tour(&words(clips), records, out);
    answer(written, |fault, place| match fault {
        TourFault::UnreadableRecord | TourFault::NotListed | TourFault::NotRising => {
            TourPlace::Record(place)
        }
        _ => TourPlace::Nowhere,
    })
}

/// Reads a tour's file, which ends where `file` does, to the list's front, and answers how many records of
/// [`WORDS`](crate::WORDS) words there are; words past them stay. A refused call leaves the list as it was.
///
/// [`Session::replay`](crate::Session::replay) queues all of them at once: as many as the queue holds, and of stingers at
/// most 16. At clock 0 they are the same sound, if the capture ran from there on, no snapshot was applied, and no command
/// was submitted for a clock frame that had passed.
///
/// ```
/// use threshreed::{TourFault, TourPlace, read_tour};
///
/// let refused = read_tour(&[None; 32], &[1, 2, 0, 1, 0], &mut []).unwrap_err();
/// assert_eq!((refused.fault, refused.place), (TourFault::CutShort, TourPlace::Byte(5)));
/// assert_eq!(refused.to_string(), "file cut short, at byte 5");
/// ```
pub fn read_tour(clips: &Clips, file: &[u8], list: &mut [u64]) -> Result<usize, TourRefusal> {
    let read = raw::read_tour(&words(clips), file, list);
    answer(read, |fault, place| match fault {
        TourFault::ListedTwice | TourFault::RecordsTooShort => TourPlace::Nowhere,
        _ => TourPlace::Byte(place),
    })
}

/// Why a tour is not read, not written or not salvaged, and where.
#[derive(Clone, Copy, Debug, PartialEq, Eq, Hash)]
pub struct TourRefusal {
    pub fault: TourFault,
    pub place: TourPlace,
}

/// What a fault is one of.
#[derive(Clone, Copy, Debug, PartialEq, Eq, Hash)]
pub enum TourPlace {
    /// Of no single field or record.
    Nowhere,
    /// Of the field that begins at this byte of the file.
    Byte(usize),
    /// Of this record of the list, from 0.
    Record(usize),
}

/// A fault of a tour's file, of the records for one, or of what is lent.
#[derive(Clone, Copy, Debug, PartialEq, Eq, Hash)]
#[repr(u32)]
pub enum TourFault {
    ListedTwice = 101,
    /// A field is not there as a whole, or the last one not at all.
    CutShort,
    WrongFirstTag,
    UnknownTag,
    WrongLength,
    OtherVersion,
    UnknownKind,
    /// A clip byte for which no handle stands, or a record's clip that has no byte.
    NotListed,
    /// A command's number is not above that of the one before it.
    NotRising,
    TooMany,
    WrongCount,
    BytesAfterEnd,
    /// The list for the records of a reading, or for the ranges of a [`salvage`](crate::salvage()).
    RecordsTooShort,
    /// Its kind is none, or its gain is no 32 bits.
    UnreadableRecord,
    OutputTooShort,
}

impl TourFault {
    /// All of them, in the order of their numbers, none of which is a [`Refusal`](crate::Refusal)'s.
    pub const ALL: [TourFault; 15] = [
        TourFault::ListedTwice,
        TourFault::CutShort,
        TourFault::WrongFirstTag,
        TourFault::UnknownTag,
        TourFault::WrongLength,
        TourFault::OtherVersion,
        TourFault::UnknownKind,
        TourFault::NotListed,
        TourFault::NotRising,
        TourFault::TooMany,
        TourFault::WrongCount,
        TourFault::BytesAfterEnd,
        TourFault::RecordsTooShort,
        TourFault::UnreadableRecord,
        TourFault::OutputTooShort,
    ];

    /// Its number, as the library answers it.
    pub const fn number(self) -> u32 {
        self as u32
    }

    /// The fault of an answer's number: the library gives none but theirs and 0.
    pub(crate) fn of(number: u32) -> Option<TourFault> {
        let mut faults = TourFault::ALL.into_iter();
        faults.find(|x| x.number() == number)
    }

    const fn words(self) -> &'static str {
        match self {
            TourFault::ListedTwice => "handle listed twice",
            TourFault::CutShort => "file cut short",
            TourFault::WrongFirstTag => "wrong first tag",
            TourFault::UnknownTag => "unknown tag",
            TourFault::WrongLength => "field of a wrong length",
            TourFault::OtherVersion => "file of another version",
            TourFault::UnknownKind => "unknown kind of command",
            TourFault::NotListed => "clip not listed",
            TourFault::NotRising => "number not rising",
            TourFault::TooMany => "more than 4,096 commands",
            TourFault::WrongCount => "wrong count of commands",
            TourFault::BytesAfterEnd => "bytes after the end",
            TourFault::RecordsTooShort => "list for a tour's records or ranges too short",
            TourFault::UnreadableRecord => "record unreadable",
            TourFault::OutputTooShort => "output for a tour's file too short",
        }
    }
}

impl fmt::Display for TourFault {
    fn fmt(&self, f: &mut fmt::Formatter<'_>) -> fmt::Result {
        f.write_str(self.words())
    }
}

impl fmt::Display for TourRefusal {
    fn fmt(&self, f: &mut fmt::Formatter<'_>) -> fmt::Result {
        let fault = self.fault;
        match self.place {
            TourPlace::Nowhere => write!(f, "{fault}"),
            TourPlace::Byte(n) => write!(f, "{fault}, at byte {n}"),
            TourPlace::Record(n) => write!(f, "{fault}, at record {n}"),
        }
    }
}

impl Error for TourRefusal {}

/// The list as the library takes it.
fn words(clips: &Clips) -> [u64; raw::SLOTS] {
    clips.map(|clip| match clip {
        Some(Handle(raw::Handle { slot, serial })) => u64::from(slot) << 32 | u64::from(serial),
        None => 0,
    })
}

/// An answer of the library.
fn answer(
    answered: raw::Tour,
    place: impl Fn(TourFault, usize) -> TourPlace,
) -> Result<usize, TourRefusal> {
    match TourFault::of(answered.refusal) {
        None => Ok(answered.count),
        Some(fault) => Err(TourRefusal {
            fault,
            place: place(fault, answered.place),
        }),
    }
}
