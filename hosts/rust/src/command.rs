//! What a host says to a session and hears from it, and the library's numbers for it.

use crate::raw;

/// A frame of the song: a position in it, a length.
#[derive(Clone, Copy, Debug, Default, PartialEq, Eq, PartialOrd, Ord, Hash)]
pub struct SongFrame(pub u64);

/// A frame of the session's clock, which counts the frames rendered.
#[derive(Clone, Copy, Debug, Default, PartialEq, Eq, PartialOrd, Ord, Hash)]
pub struct ClockFrame(pub u64);

/// A loaded clip, by slot and serial. No serial comes twice in a session, so the handle of a retired clip is refused as
/// stale and never taken for the clip that has its slot now. It says nothing in any other session.
#[derive(Clone, Copy, Debug, PartialEq, Eq, Hash)]
pub struct Handle(pub(crate) raw::Handle);

/// A loop from its start up to its end. A submission refuses one whose start is not below its end; one past the length
/// of the song that plays is taken, since a swap to a longer song may come first.
///
/// ```
/// use threshreed::{At, Command, LoopRange, Refusal, Song, SongFrame, Stores};
///
/// let mut stores = Stores::<8, 0, 4>::new();
/// let mut session = stores.open(48_000, Song::new(&[0.5, -0.5], 48_000))?;
/// let looped = |start, end| {
///     let (start, end) = (SongFrame(start), SongFrame(end));
///     Command::Loop(LoopRange { start, end })
/// };
/// let refused = session.submit(looped(5, 5), At::Immediate);
/// assert_eq!(refused, Err(Refusal::SenselessLoop));
/// session.submit(looped(5, 6), At::Immediate)?;
/// # Ok::<(), Refusal>(())
/// ```
#[derive(Clone, Copy, Debug, PartialEq, Eq, Hash)]
pub struct LoopRange {
    pub start: SongFrame,
    pub end: SongFrame,
}

/// A session's mode, chosen at its opening. It decides whether a swap's tail is under the master gain, and where a song
/// sounds whose [position](crate::Session::position) is past its loop.
///
/// The guide has turned the score down to 0.25, and the next room is silent: what the first frame of the swap lets
/// through of the old one.
///
/// ```
/// use threshreed::{At, Command, Mode, Song, Stores};
///
/// let weight = 1023.0 / 1024.0;
/// for (mode, heard) in [(Mode::AsTono, 0.5 * weight), (Mode::House, 0.5 * 0.25 * weight)] {
///     let mut stores = Stores::<8, 0, 4>::new();
///     let mut session = stores.open_in(mode, 48_000, Song::new(&[0.5, -0.5], 48_000))?;
///     let next = session.load_song(Song::new(&[0.0, 0.0], 48_000))?;
///     session.submit(Command::Gain(0.25), At::Immediate)?;
///     session.block(&mut [0.0; 2 * 256])?;
///     session.submit(Command::Swap(next), At::Immediate)?;
///     let mut out = [0.0; 2];
///     session.block(&mut out)?;
///     assert_eq!(out, [heard, -heard]);
/// }
/// # Ok::<(), threshreed::Refusal>(())
/// ```
#[derive(Clone, Copy, Debug, Default, PartialEq, Eq)]
pub enum Mode {
    /// A swap's tail ignores the master gain, so that the old room bursts through at full level where the score is
    /// turned down. A song whose position is past its loop sounds from the loop's start, behind the playhead.
    #[default]
    AsTono,
    /// The tail is under the master gain, as the song is. The song sounds where the playhead is.
    House,
}

/// What the ordinary submission takes: every command but a transition, which has its own call.
#[derive(Clone, Copy, Debug, PartialEq)]
pub enum Command {
    Play,
    Pause,
    /// To position 0; loop and laps are kept.
    Stop,
    /// To a song frame, held to the song's length.
    Seek(SongFrame),
    /// Set if its end is not past the length of the song that then plays, else nothing. Refused as
    /// [`SenselessLoop`](crate::Refusal::SenselessLoop) if its start is not below its end.
    Loop(LoopRange),
    ClearLoop,
    /// The master gain, held to 0..2, reached in 256 frames.
    Gain(f32),
    /// The song under the handle plays from 0 with no loop; the old one fades out in 1,024 frames, in
    /// [house mode](Mode::House) under the master gain.
    Swap(Handle),
    /// The stinger under the handle sounds at a gain; below 0 is 0.
    Stinger(Handle, f32),
}

/// When a command is due.
#[derive(Clone, Copy, Debug, PartialEq, Eq)]
pub enum At {
    /// At the clock's frame.
    Immediate,
    /// At a clock frame; one that has passed is executed at once.
    Frame(ClockFrame),
    /// When the song comes to a frame, through its loop if it has one; at once if it does not come there.
    Song(SongFrame),
}

#[derive(Clone, Copy, Debug, PartialEq, Eq)]
pub enum State {
    Stopped,
    Playing,
    Paused,
}

/// What a control snapshot keeps. Clock, queue, tail and voices are no part of it.
#[derive(Clone, Copy, Debug, PartialEq)]
pub struct Snapshot {
    pub position: SongFrame,
    pub state: State,
    pub gain: f32,
    /// If it does not fit the song that plays, loop and laps stay as they are.
    pub looped: Option<LoopRange>,
}

const NO_HANDLE: raw::Handle = raw::Handle { slot: 0, serial: 0 };

impl From<Command> for raw::Command {
    fn from(command: Command) -> Self {
        let plain = |kind| raw::Command {
            kind,
            gain: 0.0,
            clip: NO_HANDLE,
            frame: 0,
            end: 0,
        };
        match command {
            Command::Play => plain(1),
            Command::Pause => plain(2),
            Command::Stop => plain(3),
            Command::Seek(frame) => raw::Command {
                frame: frame.0,
                ..plain(4)
            },
            Command::Loop(range) => raw::Command {
                frame: range.start.0,
                end: range.end.0,
                ..plain(6)
            },
            Command::ClearLoop => plain(7),
            Command::Gain(gain) => raw::Command { gain, ..plain(8) },
            Command::Swap(clip) => raw::Command {
                clip: clip.0,
                ..plain(9)
            },
            Command::Stinger(clip, gain) => raw::Command {
                clip: clip.0,
                gain,
                ..plain(10)
            },
        }
    }
}

impl From<At> for raw::At {
    fn from(at: At) -> Self {
        match at {
            At::Immediate => raw::At { kind: 1, frame: 0 },
            At::Frame(frame) => raw::At {
                kind: 2,
                frame: frame.0,
            },
            At::Song(frame) => raw::At {
                kind: 3,
                frame: frame.0,
            },
        }
    }
}

impl Mode {
    pub(crate) fn of(number: u32) -> Self {
        match number {
            1 => Mode::House,
            _ => Mode::AsTono,
        }
    }

    pub(crate) fn number(self) -> u32 {
        match self {
            Mode::AsTono => 0,
            Mode::House => 1,
        }
    }
}

impl State {
    pub(crate) fn of(number: u32) -> Self {
        match number {
            1 => State::Playing,
            2 => State::Paused,
            _ => State::Stopped,
        }
    }

    fn number(self) -> u32 {
        match self {
            State::Stopped => 0,
            State::Playing => 1,
            State::Paused => 2,
        }
    }
}

impl LoopRange {
    pub(crate) fn of(looped: raw::Loop) -> Option<Self> {
        (looped.set == 1).then_some(LoopRange {
            start: SongFrame(looped.start),
            end: SongFrame(looped.end),
        })
    }

    fn numbers(looped: Option<Self>) -> raw::Loop {
        match looped {
            None => raw::Loop {
                set: 0,
                start: 0,
                end: 0,
            },
            Some(range) => raw::Loop {
                set: 1,
                start: range.start.0,
                end: range.end.0,
            },
        }
    }
}

impl From<raw::Snapshot> for Snapshot {
    fn from(snapshot: raw::Snapshot) -> Self {
        Snapshot {
            position: SongFrame(snapshot.position),
            state: State::of(snapshot.state),
            gain: snapshot.gain,
            looped: LoopRange::of(snapshot.looped),
        }
    }
}

impl From<Snapshot> for raw::Snapshot {
    fn from(snapshot: Snapshot) -> Self {
        raw::Snapshot {
            position: snapshot.position.0,
            state: snapshot.state.number(),
            gain: snapshot.gain,
            looped: LoopRange::numbers(snapshot.looped),
        }
    }
}
