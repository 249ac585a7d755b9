//! What is played on both sides: a call, what it answers, and how a session then stands. Each prints
//! itself as the numbers of a line in the fixed list (`crates/answers/data/answers`).

use std::fmt;

use threshreed::raw::{At, Command, Handle, Loop, Report};

use crate::clip;

/// The rate of the fixed list.
pub const RATE: u32 = 48_000;
pub const QUEUE: usize = 4_096;
pub const CAPTURE: usize = 4_096;
pub const POOL: u64 = 32_768;

pub const SONG: u32 = 1;
pub const STINGER: u32 = 2;

/// The modes of a session.
pub mod mode {
    pub const AS_TONO: u32 = 0;
    pub const HOUSE: u32 = 1;
}

/// The kinds of a command, as a record numbers them.
pub mod kind {
    pub const PLAY: u32 = 1;
    pub const PAUSE: u32 = 2;
    pub const STOP: u32 = 3;
    pub const SEEK: u32 = 4;
    pub const TRANSITION: u32 = 5;
    pub const LOOP: u32 = 6;
    pub const CLEAR_LOOP: u32 = 7;
    pub const GAIN: u32 = 8;
    pub const SWAP: u32 = 9;
    pub const STINGER: u32 = 10;
}

/// The states of a transport.
pub mod state {
    pub const STOPPED: u32 = 0;
    pub const PLAYING: u32 = 1;
    pub const PAUSED: u32 = 2;
}

/// How a time is named.
pub mod at {
    pub const IMMEDIATE: u32 = 1;
    pub const FRAME: u32 = 2;
    pub const SONG: u32 = 3;
}

/// A clip to be loaded, by its seed. Only a song has an extent, its length in frames.
#[derive(Clone, Copy, Debug, PartialEq)]
pub struct Material {
    pub kind: u32,
    pub frames: u64,
    pub extent: u64,
    pub seed: u32,
    /// Whether our pool is written over where it lies. No clip of the fixed list is.
    pub spoiled: bool,
}

impl Material {
    /// A song that is as long as its frames.
    pub fn song(frames: u64, seed: u32) -> Material {
        Material {
            kind: SONG,
            frames,
            extent: frames,
            seed,
            spoiled: false,
        }
    }

    pub fn stinger(frames: u64, seed: u32) -> Material {
        Material {
            kind: STINGER,
            extent: 0,
            ..Material::song(frames, seed)
        }
    }

    /// What is written over the clip in our pool, by places.
    pub fn spoils(&self) -> Vec<(usize, f32)> {
        match self.spoiled {
            true => clip::spoils(self.seed, self.frames),
            false => Vec::new(),
        }
    }

    /// The samples as they will be heard, which both sides load.
    pub fn samples(&self) -> Vec<f32> {
        let mut samples = clip::samples(self.seed, self.frames);
        for (place, sample) in self.spoils() {
            samples[place] = clip::heard(sample);
        }
        samples
    }
}

/// A call. A replay takes the list that the last stop of the session gave, and the snapshot that is
/// applied is the one taken last, or one laid in its place.
#[derive(Clone, Debug, PartialEq)]
pub enum Call {
    Open(Material),
    Load(Material),
    Retire(Handle),
    Submit(Command, At),
    Transition(u64, At),
    Block(usize),
    StartCapture,
    StopCapture,
    Replay,
    Snapshot,
    Apply,
}

/// What a call answers. Samples and gains are their bits.
#[derive(Clone, Debug, PartialEq)]
pub enum Answer {
    Done,
    Refused(u32),
    Loaded(Handle),
    Queued(u64),
    /// A block's samples, and the passes made in it.
    Made(Vec<u32>, u64),
    Records(Vec<[u64; 5]>),
    Replayed(Report),
    /// Position, state, gain, and the loop as three numbers.
    Snapshot([u64; 6]),
}

impl Answer {
    /// Of a block with this output.
    pub fn made(out: &[f32], passes: u64) -> Answer {
        Answer::Made(out.iter().map(|sample| sample.to_bits()).collect(), passes)
    }

    /// The frames of a block; none of another call.
    pub fn frames(&self) -> usize {
        match self {
            Answer::Made(bits, _) => bits.len() / 2,
            _ => 0,
        }
    }

    /// The passes of a block; none of another call.
    pub fn passes(&self) -> u64 {
        match self {
            Answer::Made(_, passes) => *passes,
            _ => 0,
        }
    }
}

/// What can be read of a session between two calls.
#[derive(Clone, Copy, Debug, PartialEq)]
pub struct Standing {
    pub position: u64,
    pub state: u32,
    pub looped: Loop,
    /// The bits of the master gain's target.
    pub target: u32,
    pub clock: u64,
    pub rendered: u64,
    pub queued: usize,
    pub executed: u64,
    pub dropped: u64,
    pub deepest: usize,
    pub swaps: u64,
    pub fired: u64,
}

pub const NO_LOOP: Loop = Loop {
    set: 0,
    start: 0,
    end: 0,
};

/// At once.
pub const NOW: At = At {
    kind: at::IMMEDIATE,
    frame: 0,
};

/// At a clock frame.
pub fn at_frame(frame: u64) -> At {
    At {
        kind: at::FRAME,
        frame,
    }
}

/// At a song frame.
pub fn at_song(frame: u64) -> At {
    At {
        kind: at::SONG,
        frame,
    }
}

/// A command whose kind uses no other field.
pub fn plain(kind: u32) -> Command {
    Command {
        kind,
        gain: 0.0,
        clip: Handle { slot: 0, serial: 0 },
        frame: 0,
        end: 0,
    }
}

/// The numbers of a snapshot.
pub fn snapshot_numbers(position: u64, state: u32, gain: f32, looped: Loop) -> Answer {
    Answer::Snapshot([
        position,
        u64::from(state),
        u64::from(gain.to_bits()),
        u64::from(looped.set),
        looped.start,
        looped.end,
    ])
}

/// A digest of 32-bit words, in order.
pub fn digest(words: impl IntoIterator<Item = u32>) -> u64 {
    words.into_iter().fold(1, |digest, word| {
        (digest * 16_777_619 + u64::from(word)) % 4_294_967_291
    })
}

impl fmt::Display for Call {
    fn fmt(&self, f: &mut fmt::Formatter<'_>) -> fmt::Result {
        match self {
            Call::Open(clip) => write!(f, "1 {} {} {}", clip.frames, clip.extent, clip.seed),
            Call::Load(clip) => write!(
                f,
                "2 {} {} {} {}",
                clip.kind, clip.frames, clip.extent, clip.seed
            ),
            Call::Retire(clip) => write!(f, "3 {} {}", clip.slot, clip.serial),
            Call::Submit(command, at) => write!(
                f,
                "4 {} {} {} {} {} {} {} {}",
                command.kind,
                command.gain.to_bits(),
                command.clip.slot,
                command.clip.serial,
                command.frame,
                command.end,
                at.kind,
                at.frame
            ),
            Call::Transition(frame, at) => write!(f, "5 {frame} {} {}", at.kind, at.frame),
            Call::Block(frames) => write!(f, "6 {frames}"),
            Call::StartCapture => write!(f, "7"),
            Call::StopCapture => write!(f, "8"),
            Call::Replay => write!(f, "9"),
            Call::Snapshot => write!(f, "10"),
            Call::Apply => write!(f, "11"),
        }
    }
}

impl fmt::Display for Answer {
    fn fmt(&self, f: &mut fmt::Formatter<'_>) -> fmt::Result {
        match self {
            Answer::Done => Ok(()),
            Answer::Refused(number) => write!(f, "{number} 0"),
            Answer::Loaded(clip) => write!(f, "{} {}", clip.slot, clip.serial),
            Answer::Queued(number) => write!(f, "0 {number}"),
            Answer::Made(bits, passes) => {
                write!(f, "{} {passes}", digest(bits.iter().copied()))
            }
            Answer::Records(records) => {
                let halves = |word: &u64| [*word as u32, (*word >> 32) as u32];
                let words = records.iter().flatten().flat_map(halves);
                write!(f, "{} {}", records.len(), digest(words))
            }
            Answer::Replayed(report) => {
                write!(f, "{} {} {}", report.taken, report.full, report.skipped)
            }
            Answer::Snapshot([position, state, gain, set, start, end]) => {
                write!(f, "{position} {state} {gain} {set} {start} {end}")
            }
        }
    }
}

impl fmt::Display for Standing {
    fn fmt(&self, f: &mut fmt::Formatter<'_>) -> fmt::Result {
        write!(
            f,
            "{} {} {} {} {} {} {} {} {} {} {} {} {}",
            self.position,
            self.state,
            self.looped.set,
            self.looped.start,
            self.looped.end,
            self.target,
            self.clock,
            self.queued,
            self.executed,
            self.dropped,
            self.deepest,
            self.swaps,
            self.fired
        )
    }
}
