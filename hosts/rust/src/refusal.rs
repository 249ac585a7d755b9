//! Why a call is refused.

use core::error::Error;
use core::fmt;

use crate::raw;

/// A refused call leaves the session and all its stores as they were; [`QueueFull`](Refusal::QueueFull) alone raises
/// the dropped count.
///
/// ```
/// use threshreed::Refusal;
///
/// assert_eq!(Refusal::Stale.number(), 11);
/// assert_eq!(Refusal::Stale.to_string(), "stale handle");
/// ```
#[derive(Clone, Copy, Debug, PartialEq, Eq, Hash)]
#[repr(u32)]
pub enum Refusal {
    NotWellFormed = 1,
    PoolLength,
    OddSamples,
    ClockSpent,
    NoSamples,
    BadSample,
    OutOfRange,
    SlotsUsed,
    SerialsSpent,
    NoRoom,
    Stale,
    WrongKind,
    WrongRate,
    BadGain,
    QueueFull,
    CaptureFull,
    VoicesTaken,
    NumbersSpent,
    Held,
    ListTooShort,
    Unreadable,
    /// A loop's start is not below its end, in a submission or, seen only as a skip, in a replayed record.
    SenselessLoop,
    /// A [`Ring`](crate::Ring) of another size. Head and tail can be outside only where a host keeps them by hand.
    BadRing,
    /// Never given here, where an argument can only name a case: it is for hosts that pass numbers.
    NoSuchCase = raw::NO_SUCH_CASE,
}

impl Refusal {
    /// All of them, in the order of their numbers.
    pub const ALL: [Refusal; 24] = [
        Refusal::NotWellFormed,
        Refusal::PoolLength,
        Refusal::OddSamples,
        Refusal::ClockSpent,
        Refusal::NoSamples,
        Refusal::BadSample,
        Refusal::OutOfRange,
        Refusal::SlotsUsed,
        Refusal::SerialsSpent,
        Refusal::NoRoom,
        Refusal::Stale,
        Refusal::WrongKind,
        Refusal::WrongRate,
        Refusal::BadGain,
        Refusal::QueueFull,
        Refusal::CaptureFull,
        Refusal::VoicesTaken,
        Refusal::NumbersSpent,
        Refusal::Held,
        Refusal::ListTooShort,
        Refusal::Unreadable,
        Refusal::SenselessLoop,
        Refusal::BadRing,
        Refusal::NoSuchCase,
    ];

    /// Its number, as every answer of the library has it.
    pub const fn number(self) -> u32 {
        self as u32
    }

    /// An answer's number: 0 is none. The library gives no number that is not in the list.
    pub(crate) fn check(number: u32) -> Result<(), Refusal> {
        if number == 0 {
            return Ok(());
        }
        let named = Refusal::ALL.into_iter().find(|x| x.number() == number);
        Err(named.unwrap_or(Refusal::NoSuchCase))
    }

    const fn words(self) -> &'static str {
        match self {
            Refusal::NotWellFormed => "session or its stores not well formed",
            Refusal::PoolLength => "lent pool has another length",
            Refusal::OddSamples => "odd sample count",
            Refusal::ClockSpent => "block would pass clock 2^62",
            Refusal::NoSamples => "clip without samples",
            Refusal::BadSample => "sample not finite or above 16",
            Refusal::OutOfRange => {
                "opening number, clip rate (8,000 to 192,000) or song length outside its range"
            }
            Refusal::SlotsUsed => "32 slots used",
            Refusal::SerialsSpent => "serials spent",
            Refusal::NoRoom => "no start in the pool fits",
            Refusal::Stale => "stale handle",
            Refusal::WrongKind => "song where a stinger is due, or the reverse",
            Refusal::WrongRate => "clip rate is not the session's",
            Refusal::BadGain => {
                "gain not finite; stinger gain above 16; snapshot gain outside 0..2"
            }
            Refusal::QueueFull => "queue full; dropped count + 1, stopping at 2^64 - 1",
            Refusal::CaptureFull => "capture on and full",
            Refusal::VoicesTaken => "a stinger while queued stingers + sounding voices = 16",
            Refusal::NumbersSpent => "submission number 2^64 - 1 already given",
            Refusal::Held => "clip held by song, tail, voice, queue or running capture",
            Refusal::ListTooShort => "list for captured records too short",
            Refusal::Unreadable => "replayed record unreadable (seen only as a skip)",
            Refusal::SenselessLoop => "senseless loop: its start is not below its end",
            Refusal::BadRing => {
                "ring's store not of 3 to 65,536 samples, or its head or tail outside"
            }
            Refusal::NoSuchCase => "argument names no case",
        }
    }
}

impl fmt::Display for Refusal {
    fn fmt(&self, f: &mut fmt::Formatter<'_>) -> fmt::Result {
        f.write_str(self.words())
    }
}

impl Error for Refusal {}
