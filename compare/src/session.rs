//! Document 01's calls over tono's `Performance`. Times and places are frames: tono is given the beat,
//! bar or section that falls on the frame.

use std::sync::Arc;

use crate::dsl::{SoundDoc, TempoPoint, Treatment};
use crate::program::{Program, Sections};
use crate::runtime::AudioSource;
use crate::runtime::performance::{self, Command, Performance};

pub use crate::runtime::TransportState;
pub use crate::runtime::performance::{
    COMMAND_QUEUE_CAP, PerformanceError, PerformanceMetrics, PerformanceSnapshot,
    TimestampedCommand,
};

/// A frame of sound, left and right.
pub type Pair = (f32, f32);

/// A song's clip.
#[derive(Clone)]
pub struct Song(Arc<Program>);

impl Song {
    /// A song of these frames at this rate, whose length may exceed them.
    pub fn new(rate: u32, frames: &[Pair], length: u64) -> Song {
        Song(Arc::new(Program::new(prepared(rate, frames), length)))
    }

    /// The same song, but with so many frames to a beat, so that beat b and bar b are another frame.
    pub fn with_beats_of(mut self, frames: u32) -> Song {
        let program = Arc::make_mut(&mut self.0);
        let beats_per_second = program.doc.sample_rate as f64 / frames as f64;
        program.meta.tempo_map = vec![TempoPoint { beats_per_second }];
        self
    }

    /// Whether this is the song that tono's command names.
    pub fn is(&self, program: &Arc<Program>) -> bool {
        Arc::ptr_eq(&self.0, program)
    }
}

/// A stinger's clip.
#[derive(Clone)]
pub struct Stinger(SoundDoc);

impl Stinger {
    pub fn new(rate: u32, frames: &[Pair]) -> Stinger {
        Stinger(prepared(rate, frames))
    }
}

fn prepared(rate: u32, frames: &[Pair]) -> SoundDoc {
    let (left, right) = frames.iter().copied().unzip();
    SoundDoc {
        sample_rate: rate,
        stereo: Treatment,
        left,
        right,
    }
}

/// What the ordinary submission takes: every command but a transition. A loop's ends lie below 2^32,
/// since tono numbers its bars in 32 bits.
#[derive(Clone)]
pub enum Submission {
    Play,
    Pause,
    Stop,
    Seek(u64),
    Loop(u64, u64),
    ClearLoop,
    Gain(f32),
    Swap(Song),
    Stinger(Stinger, f32),
}

/// When a command is due.
#[derive(Clone, Copy)]
pub enum At {
    Immediate,
    Frame(u64),
    Song(u64),
}

/// One of tono's performances.
pub struct Session(Performance);

impl Session {
    /// A session with its first song, stopped at 0.
    pub fn open(song: &Song) -> Session {
        Session(Performance::new(song.0.clone()))
    }

    /// Queues a command and gives its number.
    pub fn submit(&mut self, submission: Submission, at: At) -> Result<u64, PerformanceError> {
        let at = self.tono_at(at);
        let command = match submission {
            Submission::Play => Command::Play,
            Submission::Pause => Command::Pause,
            Submission::Stop => Command::Stop,
            Submission::Seek(frame) => Command::SeekBeat(self.beat(frame)),
            Submission::Loop(start, end) => Command::SetLoopBars(bar(start), bar(end)),
            Submission::ClearLoop => Command::ClearLoop,
            Submission::Gain(gain) => Command::SetGain(gain),
            Submission::Swap(song) => return self.0.swap_to(song.0, at),
            Submission::Stinger(stinger, gain) => return self.0.stinger(&stinger.0, gain, at),
        };
        self.0.schedule(command, at)
    }

    /// Queues a transition to a frame below 2^32, in place of every transition that waits.
    pub fn transition(&mut self, frame: u64, at: At) -> Result<u64, PerformanceError> {
        let at = self.tono_at(at);
        self.0
            .transition_to_section(&Sections::name(bar(frame)), at)
    }

    /// The next frames, interleaved.
    pub fn block(&mut self, frames: usize) -> Vec<f32> {
        let mut out = vec![f32::NAN; frames * 2];
        self.fill(&mut out);
        out
    }

    pub fn start_capture(&mut self) {
        self.0.start_capture();
    }

    pub fn stop_capture(&mut self) -> Vec<TimestampedCommand> {
        self.0.stop_capture()
    }

    pub fn replay(&mut self, records: &[TimestampedCommand]) {
        self.0.replay(records);
    }

    pub fn snapshot(&self) -> PerformanceSnapshot {
        self.0.snapshot()
    }

    pub fn apply(&mut self, snapshot: &PerformanceSnapshot) {
        self.0.apply_snapshot(snapshot);
    }

    pub fn metrics(&self) -> PerformanceMetrics {
        self.0.metrics()
    }

    pub fn clock(&self) -> u64 {
        self.0.clock()
    }

    pub fn queued(&self) -> usize {
        self.0.queue_depth()
    }

    pub fn position(&self) -> u64 {
        self.0.transport().position_frames()
    }

    pub fn state(&self) -> TransportState {
        self.0.transport().state()
    }

    /// A count that rises by 1 with each pass from the loop's end to its start.
    pub fn passes(&self) -> u64 {
        self.0.transport().told()
    }

    /// The value that the master gain rides to.
    pub fn gain_target(&self) -> f32 {
        self.0.master_gain()
    }

    pub fn loop_range(&self) -> Option<(u64, u64)> {
        self.0.transport().loop_range()
    }

    fn tono_at(&self, at: At) -> performance::At {
        match at {
            At::Immediate => performance::At::Immediate,
            At::Frame(frame) => performance::At::Frame(frame),
            At::Song(frame) => performance::At::Beat(self.beat(frame)),
        }
    }

    /// The beat that falls on this frame. Below 2^51 there always is one.
    fn beat(&self, frame: u64) -> f64 {
        let beat = frame as f64;
        let falls_on = self.0.transport().frame_at_beat(beat);
        assert_eq!(falls_on, frame, "no beat falls on the frame");
        beat
    }
}

/// The next frames, into an output that is there.
impl AudioSource for Session {
    fn fill(&mut self, out: &mut [f32]) -> usize {
        self.0.fill(out)
    }
}

/// The bar that falls on this frame.
fn bar(frame: u64) -> u32 {
    u32::try_from(frame).expect("tono has no bar at 2^32 or later")
}
