//! A session together with the stores that it is lent.

use core::fmt;

use crate::command::{
    At, ClockFrame, Command, Handle, LoopRange, Mode, Snapshot, SongFrame, State,
};
use crate::raw::{self, Metrics, Report};
use crate::refusal::Refusal;
use crate::tour::Clips;

/// Words of a record, in the queue, in the capture and in lists of them: clock frame, number, kind (1 to 10 in the order
/// play, pause, stop, seek, transition, loop, clear loop, gain, swap, stinger), and two that the kind uses.
pub const WORDS: usize = 5;

const SONG: u32 = 1;
const STINGER: u32 = 2;

/// A song to load: interleaved stereo, samples finite and at most 16 in magnitude.
#[derive(Clone, Copy, Debug, PartialEq)]
pub struct Song<'s> {
    pub samples: &'s [f32],
    pub rate: u32,
    /// From the frames in `samples` to 2^40. Past its samples a song is silent.
    pub length: SongFrame,
}

impl<'s> Song<'s> {
    /// A song as long as its samples.
    pub const fn new(samples: &'s [f32], rate: u32) -> Self {
        Song {
            samples,
            rate,
            length: SongFrame((samples.len() / 2) as u64),
        }
    }
}

/// A stinger to load: samples as a song's, no length.
#[derive(Clone, Copy, Debug, PartialEq)]
pub struct Stinger<'s> {
    pub samples: &'s [f32],
    pub rate: u32,
}

/// Stores of a fixed size, which a static can hold: so many queued commands (1 to 4,096), captured commands (0 to
/// 4,096) and stereo frames of clips (1 to 33,554,432).
///
/// ```
/// use threshreed::{Song, Stores};
///
/// let mut stores = Stores::<8, 0, 4>::new();
/// let session = stores.open(48_000, Song::new(&[0.5, -0.5, 0.25, 0.25], 48_000))?;
/// assert_eq!(session.queue_depth(), 0);
/// # Ok::<(), threshreed::Refusal>(())
/// ```
pub struct Stores<const QUEUE: usize, const CAPTURE: usize, const POOL: usize> {
    queue: [[u64; WORDS]; QUEUE],
    capture: [[u64; WORDS]; CAPTURE],
    pool: [[f32; 2]; POOL],
}

impl<const QUEUE: usize, const CAPTURE: usize, const POOL: usize> Stores<QUEUE, CAPTURE, POOL> {
    pub const fn new() -> Self {
        Stores {
            queue: [[0; WORDS]; QUEUE],
            capture: [[0; WORDS]; CAPTURE],
            pool: [[0.0; 2]; POOL],
        }
    }

    /// Opens a session on its first song, as tono (see [`Mode`]), in these stores: they are its own until it is dropped.
    /// Of what an earlier session left in them nothing counts. A refused opening leaves them as they were.
    pub fn open(&mut self, rate: u32, song: Song<'_>) -> Result<Session<'_>, Refusal> {
        self.open_in(Mode::default(), rate, song)
    }

    /// Opens a session likewise in a [`Mode`], which decides whether a swap's tail is under the master gain, and where
    /// a song sounds whose position is past its loop.
    pub fn open_in(
        &mut self,
        mode: Mode,
        rate: u32,
        song: Song<'_>,
    ) -> Result<Session<'_>, Refusal> {
        Session::open_in(
            mode,
            rate,
            self.queue.as_flattened_mut(),
            self.capture.as_flattened_mut(),
            self.pool.as_flattened_mut(),
            song,
        )
    }
}

impl<const QUEUE: usize, const CAPTURE: usize, const POOL: usize> Default
    for Stores<QUEUE, CAPTURE, POOL>
{
    fn default() -> Self {
        Stores::new()
    }
}

/// A session and its stores. Every call answers at once, allocates nothing, and is safe with any argument: what it does
/// not take it refuses, and is then as if it had not been made.
pub struct Session<'a> {
    raw: raw::Session,
    queue: &'a mut [u64],
    capture: &'a mut [u64],
    pool: &'a mut [f32],
}

impl<'a> Session<'a> {
    /// Opens a session on its first song, as tono (see [`Mode`]), stopped at 0, gain 1.0. The stores are [`WORDS`] words
    /// for each command of the queue and of the capture, and two samples for each frame of the pool. A refused opening
    /// gives no session and leaves them as they were.
    ///
    /// ```
    /// use threshreed::{Refusal, Session, Song, WORDS};
    ///
    /// let song = Song::new(&[0.5, -0.5, 0.25, 0.25], 48_000);
    /// let (mut queue, mut pool) = ([0; 8 * WORDS], [0.0; 2 * 4]);
    /// assert!(Session::open(48_000, &mut queue, &mut [], &mut pool, song).is_ok());
    ///
    /// let odd = &mut queue[1..];
    /// let refused = Session::open(48_000, odd, &mut [], &mut pool, song).unwrap_err();
    /// assert_eq!(refused, Refusal::NotWellFormed);
    /// ```
    pub fn open(
        rate: u32,
        queue: &'a mut [u64],
        capture: &'a mut [u64],
        pool: &'a mut [f32],
        song: Song<'_>,
    ) -> Result<Self, Refusal> {
        Session::open_in(Mode::default(), rate, queue, capture, pool, song)
    }

    /// Opens a session likewise in a [`Mode`], which decides whether a swap's tail is under the master gain, and where
    /// a song sounds whose position is past its loop.
    pub fn open_in(
        mode: Mode,
        rate: u32,
        queue: &'a mut [u64],
        capture: &'a mut [u64],
        pool: &'a mut [f32],
        song: Song<'_>,
    ) -> Result<Self, Refusal> {
        let settings = raw::Settings {
            rate,
            mode: mode.number(),
            queue: queue.len() / WORDS,
            capture: capture.len() / WORDS,
            pool: (pool.len() / 2) as u64,
        };
        let opened = raw::open(
            settings,
            queue,
            capture,
            pool,
            song.samples,
            song.rate,
            song.length.0,
        );
        Refusal::check(opened.refusal)?;
        Ok(Session {
            raw: opened.session,
            queue,
            capture,
            pool,
        })
    }

    /// Loads a song into the lowest free slot and the lowest room in the pool where it fits.
    ///
    /// Rooms may stream in while the score plays, in both modes: before a block and after it a load gives the same, its
    /// answer and its handle, what the block answers, the samples, the session and the pool (`examples/streaming.rs`).
    /// The order of two loads does count: the first takes the lower slot, whichever it is.
    ///
    /// ```
    /// use threshreed::{Handle, Refusal, Song, Stores};
    ///
    /// fn load(clips: [&[f32]; 2]) -> Result<[Handle; 2], Refusal> {
    ///     let mut stores = Stores::<8, 0, 8>::new();
    ///     let mut session = stores.open(48_000, Song::new(&[0.5, -0.5], 48_000))?;
    ///     let [first, second] = clips.map(|clip| session.load_song(Song::new(clip, 48_000)));
    ///     Ok([first?, second?])
    /// }
    ///
    /// let (hall, cellar): ([f32; 2], [f32; 4]) = ([0.25; 2], [0.75; 4]);
    /// assert_eq!(load([&hall, &cellar])?, load([&cellar, &hall])?);
    /// # Ok::<(), Refusal>(())
    /// ```
    pub fn load_song(&mut self, song: Song<'_>) -> Result<Handle, Refusal> {
        self.load(song.samples, SONG, song.length, song.rate)
    }

    /// Loads a stinger likewise.
    pub fn load_stinger(&mut self, stinger: Stinger<'_>) -> Result<Handle, Refusal> {
        self.load(stinger.samples, STINGER, SongFrame(0), stinger.rate)
    }

    fn load(
        &mut self,
        samples: &[f32],
        kind: u32,
        extent: SongFrame,
        rate: u32,
    ) -> Result<Handle, Refusal> {
        let loaded = raw::load(
            self.raw,
            self.queue,
            self.capture,
            self.pool,
            samples,
            kind,
            extent.0,
            rate,
        );
        self.raw = loaded.session;
        Refusal::check(loaded.refusal)?;
        Ok(Handle(loaded.handle))
    }

    /// Retires a clip that neither song, tail, voice, queue nor running capture holds. Its slot and its room are free.
    ///
    /// A clip that may be retired before a block may be after it, and both give the same, as with a load. One that the
    /// block sets free goes after it alone.
    ///
    /// ```
    /// use threshreed::{Refusal, Song, Stinger, Stores};
    ///
    /// let mut stores = Stores::<8, 0, 4>::new();
    /// let mut session = stores.open(48_000, Song::new(&[0.5, -0.5], 48_000))?;
    /// let bell = session.load_stinger(Stinger { samples: &[0.25, 0.25], rate: 48_000 })?;
    /// session.retire(bell)?;
    /// assert!(!session.is_live(bell));
    /// assert_eq!(session.retire(bell), Err(Refusal::Stale));
    /// assert_eq!(session.retire(session.song()), Err(Refusal::Held));
    /// # Ok::<(), Refusal>(())
    /// ```
    pub fn retire(&mut self, clip: Handle) -> Result<(), Refusal> {
        let answered = raw::retire(self.raw, self.queue, self.capture, clip.0);
        self.answer(answered)
    }

    /// Submits a command and answers its number. Commands are executed by frame, those of one frame by number.
    ///
    /// ```
    /// use threshreed::{At, ClockFrame, Command, Song, Stores};
    ///
    /// let mut stores = Stores::<8, 0, 4>::new();
    /// let mut session = stores.open(48_000, Song::new(&[0.5, -0.5], 48_000))?;
    /// assert_eq!(session.submit(Command::Play, At::Frame(ClockFrame(1)))?, 1);
    /// let mut out = [0.0; 6];
    /// session.block(&mut out)?;
    /// assert_eq!(out, [0.0, 0.0, 0.5, -0.5, 0.0, 0.0]);
    /// # Ok::<(), threshreed::Refusal>(())
    /// ```
    pub fn submit(&mut self, command: Command, at: At) -> Result<u64, Refusal> {
        let submitted = raw::submit(
            self.raw,
            self.queue,
            self.capture,
            command.into(),
            at.into(),
        );
        self.number(submitted)
    }

    /// Submits a seek that takes the place of every queued transition, and answers its number.
    pub fn transition(&mut self, frame: SongFrame, at: At) -> Result<u64, Refusal> {
        let submitted = raw::transition(self.raw, self.queue, self.capture, frame.0, at.into());
        self.number(submitted)
    }

    /// Queues a list's records, [`WORDS`] words each, at their frames, without capture; a remainder is not looked at.
    /// Tells how many were taken, how many found the queue full, and how many were skipped otherwise.
    pub fn replay(&mut self, list: &[u64]) -> Result<Report, Refusal> {
        let replayed = raw::replay(self.raw, self.queue, self.capture, list);
        self.raw = replayed.session;
        Refusal::check(replayed.refusal)?;
        Ok(replayed.report)
    }

    /// Makes a block of half as many frames as `out` has samples, and executes each command that is due in it at its
    /// frame. Answers how many times the playhead passed from a loop's end to its start in it, whatever set the
    /// [`laps`](Session::laps) back in between. A refused block leaves `out` as it was.
    pub fn block(&mut self, out: &mut [f32]) -> Result<u64, Refusal> {
        let blocked = raw::block(self.raw, self.queue, self.capture, self.pool, out);
        self.raw = blocked.session;
        Refusal::check(blocked.refusal)?;
        Ok(blocked.passes)
    }

    /// Makes frames into a ring's store; see [`Ring::pump`](crate::Ring::pump).
    pub(crate) fn pump(
        &mut self,
        ring: raw::Ring,
        store: &mut [f32],
        frames: usize,
    ) -> raw::Pumped {
        let pumped = raw::pump(
            self.raw,
            self.queue,
            self.capture,
            self.pool,
            ring,
            store,
            frames,
        );
        self.raw = pumped.session;
        pumped
    }

    /// Starts capture, empty, also while it runs.
    pub fn start_capture(&mut self) -> Result<(), Refusal> {
        let answered = raw::start_capture(self.raw, self.queue, self.capture);
        self.answer(answered)
    }

    /// Stops capture, copies its records to the list's front and answers how many: none if capture is off. A list of
    /// less than [`WORDS`] words for each is [too short](Refusal::ListTooShort), and capture goes on.
    /// [`write_tour`](crate::write_tour) makes a file of them.
    ///
    /// ```
    /// use threshreed::{At, ClockFrame, Command, Song, Stores, WORDS};
    ///
    /// let mut stores = Stores::<8, 8, 4>::new();
    /// let mut session = stores.open(48_000, Song::new(&[0.5, -0.5], 48_000))?;
    /// session.start_capture()?;
    /// session.submit(Command::Play, At::Frame(ClockFrame(7)))?;
    /// let mut list = [0; 8 * WORDS];
    /// assert_eq!(session.stop_capture(&mut list)?, 1);
    /// assert_eq!(list[..WORDS], [7, 1, 1, 0, 0]);
    /// assert_eq!(session.replay(&list[..WORDS])?.taken, 1);
    /// # Ok::<(), threshreed::Refusal>(())
    /// ```
    pub fn stop_capture(&mut self, list: &mut [u64]) -> Result<usize, Refusal> {
        let stopped = raw::stop_capture(self.raw, self.queue, self.capture, list);
        self.raw = stopped.session;
        Refusal::check(stopped.refusal)?;
        Ok(stopped.copied)
    }

    /// Takes a control snapshot: position, state, the gain that the master is heading for, loop.
    pub fn snapshot(&self) -> Result<Snapshot, Refusal> {
        let snapped = raw::snapshot(self.raw, self.queue, self.capture);
        Refusal::check(snapped.refusal)?;
        Ok(snapped.snapshot.into())
    }

    /// Applies a control snapshot at once. Clock, queue, tail and voices stay.
    ///
    /// An undo button may apply snapshots freely, in both modes. Twice is as once. The last one decides alone, whatever
    /// was applied before it, if its loop is none or fits the song that plays. If its loop does not fit, the loop and
    /// its [`laps`](Session::laps) remain as they were left, and all else is as the last one says.
    ///
    /// ```
    /// use threshreed::{At, Command, LoopRange, Song, SongFrame, Stores};
    ///
    /// let mut stores = Stores::<8, 0, 12>::new();
    /// let mut session = stores.open(48_000, Song::new(&[0.5; 2 * 8], 48_000))?;
    /// let short = session.load_song(Song::new(&[0.25; 2 * 4], 48_000))?;
    /// let range = |start, end| LoopRange { start: SongFrame(start), end: SongFrame(end) };
    /// let mut out = [0.0; 2];
    ///
    /// // A snapshot is taken before each change.
    /// let mut undo = Vec::new();
    /// for change in [Command::Play, Command::Loop(range(2, 8)), Command::Gain(0.25)] {
    ///     undo.push(session.snapshot()?);
    ///     session.submit(change, At::Immediate)?;
    ///     session.block(&mut out)?;
    /// }
    /// let changed = session.snapshot()?;
    ///
    /// // Back step by step, and forth again; then at once to the first, pressed twice.
    /// for snapshot in undo.iter().rev() {
    ///     session.apply_snapshot(*snapshot)?;
    ///     assert_eq!(session.snapshot()?, *snapshot);
    /// }
    /// session.apply_snapshot(changed)?;
    /// assert_eq!(session.loop_range(), Some(range(2, 8)));
    /// for _ in 0..2 {
    ///     session.apply_snapshot(undo[0])?;
    ///     assert_eq!(session.snapshot()?, undo[0]);
    /// }
    ///
    /// // In a shorter song the old loop does not fit: the one that is there remains.
    /// for change in [Command::Swap(short), Command::Loop(range(0, 4))] {
    ///     session.submit(change, At::Immediate)?;
    /// }
    /// session.block(&mut out)?;
    /// session.apply_snapshot(changed)?;
    /// assert_eq!(session.loop_range(), Some(range(0, 4)));
    /// assert_eq!((session.position(), session.master_gain()), (SongFrame(3), 0.25));
    /// # Ok::<(), threshreed::Refusal>(())
    /// ```
    pub fn apply_snapshot(&mut self, snapshot: Snapshot) -> Result<(), Refusal> {
        let answered = raw::apply_snapshot(self.raw, self.queue, self.capture, snapshot.into());
        self.answer(answered)
    }

    /// Reads the metrics.
    pub fn metrics(&self) -> Result<Metrics, Refusal> {
        let metered = raw::metrics(self.raw, self.queue, self.capture);
        Refusal::check(metered.refusal)?;
        Ok(metered.metrics)
    }

    /// As tono or house, as it was opened.
    pub fn mode(&self) -> Mode {
        Mode::of(self.raw.settings.mode)
    }

    /// The clock: frames rendered.
    pub const fn clock(&self) -> ClockFrame {
        ClockFrame(self.raw.clock)
    }

    /// The song position, or playhead. If it is at the loop's end or past it, the next frame that plays first takes it
    /// to start + (position - start) mod (end - start). In [house mode](Mode::House) the song sounds where the playhead
    /// is. [As tono](Mode::AsTono) it then starts over at the loop's start, less than a loop behind the playhead, until
    /// the loop comes round, or a seek, transition, stop, swap or snapshot sets both.
    ///
    /// With a loop from 10 to 14, a playhead at 27 is taken to 11:
    ///
    /// ```
    /// use threshreed::{At, Command, LoopRange, Mode, Song, SongFrame, Stores};
    ///
    /// let song: Vec<f32> = (0..2 * 32).map(|i| (i / 2) as f32 / 32.0).collect();
    /// let (start, end) = (SongFrame(10), SongFrame(14));
    /// for (mode, heard) in [(Mode::AsTono, 10), (Mode::House, 11)] {
    ///     let mut stores = Stores::<8, 0, 32>::new();
    ///     let mut session = stores.open_in(mode, 48_000, Song::new(&song, 48_000))?;
    ///     session.submit(Command::Loop(LoopRange { start, end }), At::Immediate)?;
    ///     session.submit(Command::Seek(SongFrame(27)), At::Immediate)?;
    ///     session.submit(Command::Play, At::Immediate)?;
    ///     let mut out = [0.0; 2];
    ///     session.block(&mut out)?;
    ///     assert_eq!(out, song[2 * heard..][..2]);
    ///     assert_eq!(session.position(), SongFrame(12));
    /// }
    /// # Ok::<(), threshreed::Refusal>(())
    /// ```
    pub const fn position(&self) -> SongFrame {
        SongFrame(self.raw.position)
    }

    /// Stopped, playing or paused.
    pub fn state(&self) -> State {
        State::of(self.raw.state)
    }

    /// The loop, if one is set.
    pub fn loop_range(&self) -> Option<LoopRange> {
        LoopRange::of(self.raw.looped)
    }

    /// The laps: how many times the playhead passed from the loop's end to its start since the loop was set. Setting or
    /// clearing a loop, by command or snapshot, and a swap make them 0; a loop that is not set leaves them. They stop
    /// at 2^64 - 1.
    ///
    /// A bar goes round, and the lights change after its third pass:
    ///
    /// ```
    /// use threshreed::{At, ClockFrame, Command, LoopRange, Song, SongFrame, Stores};
    ///
    /// let bar = [0.25; 2 * 1_000];
    /// let mut stores = Stores::<8, 0, 1_000>::new();
    /// let mut session = stores.open(48_000, Song::new(&bar, 48_000))?;
    /// let (start, end) = (SongFrame(0), SongFrame(1_000));
    /// session.submit(Command::Loop(LoopRange { start, end }), At::Immediate)?;
    /// session.submit(Command::Play, At::Immediate)?;
    ///
    /// let mut lights = "dim";
    /// let mut out = [0.0; 2 * 480];
    /// while lights == "dim" {
    ///     let passes = session.block(&mut out)?;
    ///     if passes > 0 && session.laps() >= 3 {
    ///         lights = "bright";
    ///     }
    /// }
    /// // The third pass is at frame 3,000, in the seventh block.
    /// assert_eq!((session.laps(), session.clock()), (3, ClockFrame(7 * 480)));
    /// # Ok::<(), threshreed::Refusal>(())
    /// ```
    pub const fn laps(&self) -> u64 {
        self.raw.laps
    }

    /// The master gain: the value that it is heading for.
    pub const fn master_gain(&self) -> f32 {
        self.raw.master.target
    }

    /// The song that plays.
    pub const fn song(&self) -> Handle {
        Handle(self.raw.song)
    }

    /// The loaded clips, each at its slot, for a tour's file ([`write_tour`](crate::write_tour)). When a capture has just
    /// stopped they are all that its records name: until then it holds them.
    pub fn clips(&self) -> Clips {
        core::array::from_fn(|slot| {
            let raw::Clip { serial, .. } = self.raw.clips[slot];
            let clip = Handle(raw::Handle {
                slot: slot as u32,
                serial,
            });
            self.is_live(clip).then_some(clip)
        })
    }

    /// How many commands are queued.
    pub const fn queue_depth(&self) -> usize {
        self.raw.queued
    }

    /// Whether a handle stands for a loaded clip.
    pub fn is_live(&self, clip: Handle) -> bool {
        let raw::Handle { slot, serial } = clip.0;
        let loaded = self.raw.clips.get(slot as usize);
        loaded.is_some_and(|x| x.serial == serial && self.raw.used >> slot & 1 == 1)
    }

    fn answer(&mut self, answered: raw::Answered) -> Result<(), Refusal> {
        self.raw = answered.session;
        Refusal::check(answered.refusal)
    }

    fn number(&mut self, submitted: raw::Submitted) -> Result<u64, Refusal> {
        self.raw = submitted.session;
        Refusal::check(submitted.refusal)?;
        Ok(submitted.number)
    }
}

/// Where it stands, without its stores.
impl fmt::Debug for Session<'_> {
    fn fmt(&self, f: &mut fmt::Formatter<'_>) -> fmt::Result {
        f.debug_struct("Session")
            .field("clock", &self.clock())
            .field("state", &self.state())
            .field("position", &self.position())
            .field("queued", &self.queue_depth())
            .finish_non_exhaustive()
    }
}
