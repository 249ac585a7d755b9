//! tono's side: one of its performances, and a table of clips, since tono has no handles. A clip gets
//! the lowest free slot and the next serial.

use threshreed::raw::{At, Command, Handle, Loop, Report, Snapshot};

use crate::ours::handle_word;
use crate::runtime::{AudioSource, performance};
use crate::script::{
    Answer, Call, Material, NO_LOOP, SONG, Standing, at, kind, snapshot_numbers, state,
};
use crate::session::{
    self, Pair, PerformanceError, PerformanceSnapshot, Session, Song, Stinger, Submission,
    TimestampedCommand, TransportState,
};

pub struct Theirs {
    rate: u32,
    session: Session,
    table: Table,
    list: Vec<TimestampedCommand>,
    snapshot: Option<PerformanceSnapshot>,
}

/// The loaded clips by their slots.
struct Table {
    slots: [Option<Entry>; 32],
    last: u32,
}

struct Entry {
    serial: u32,
    clip: Clip,
}

enum Clip {
    Song(Song),
    Stinger(Stinger, Vec<f32>),
}

impl Theirs {
    pub fn open(rate: u32, material: Material) -> (Theirs, Answer) {
        let song = song(rate, material);
        let mut theirs = Theirs {
            rate,
            session: Session::open(&song),
            table: Table {
                slots: [const { None }; 32],
                last: 0,
            },
            list: Vec::new(),
            snapshot: None,
        };
        let handle = theirs.table.load(Clip::Song(song));
        (theirs, Answer::Loaded(handle))
    }

    pub fn play(&mut self, call: &Call) -> Answer {
        match call {
            Call::Open(_) => panic!("the session is open"),
            Call::Load(material) => Answer::Loaded(self.table.load(made(self.rate, *material))),
            Call::Retire(clip) => {
                self.table.slots[clip.slot as usize] = None;
                Answer::Done
            }
            Call::Submit(command, at) => {
                let submission = self.table.submission(*command);
                queued(self.session.submit(submission, when(*at)))
            }
            Call::Transition(frame, at) => queued(self.session.transition(*frame, when(*at))),
            Call::Block(frames) => {
                let before = self.passes();
                let out = self.session.block(*frames);
                Answer::made(&out, self.passes() - before)
            }
            Call::StartCapture => {
                self.session.start_capture();
                Answer::Done
            }
            Call::StopCapture => {
                self.list = self.session.stop_capture();
                Answer::Records(self.list.iter().map(|x| self.table.row(x)).collect())
            }
            Call::Replay => self.replay(),
            Call::Snapshot => {
                let taken = self.session.snapshot();
                let state = state_number(taken.state);
                let looped = loop_numbers(taken.loop_range);
                let numbers = snapshot_numbers(taken.position, state, taken.master_gain, looped);
                self.snapshot = Some(taken);
                numbers
            }
            Call::Apply => {
                let snapshot = self.snapshot.as_ref().expect("a snapshot was taken");
                self.session.apply(snapshot);
                Answer::Done
            }
        }
    }

    /// Lays a snapshot in the place of the one taken last.
    pub fn lay(&mut self, snapshot: Snapshot) {
        let Loop { set, start, end } = snapshot.looped;
        self.snapshot = Some(PerformanceSnapshot {
            position: snapshot.position,
            state: transport_state(snapshot.state),
            master_gain: snapshot.gain,
            loop_range: (set == 1).then_some((start, end)),
        });
    }

    /// tono's replay returns nothing: it is told by the depth and the dropped count.
    fn replay(&mut self) -> Answer {
        let counts = |session: &Session| (session.queued(), session.metrics().commands_dropped);
        let before = counts(&self.session);
        self.session.replay(&self.list);
        let after = counts(&self.session);
        let taken = after.0 - before.0;
        let full = (after.1 - before.1) as usize;
        Answer::Replayed(Report {
            taken,
            full,
            skipped: self.list.len() - taken - full,
        })
    }

    /// A count that rises by 1 with each pass.
    pub fn passes(&self) -> u64 {
        self.session.passes()
    }

    pub fn standing(&self) -> Standing {
        let metrics = self.session.metrics();
        Standing {
            position: self.session.position(),
            state: state_number(self.session.state()),
            looped: loop_numbers(self.session.loop_range()),
            target: self.session.gain_target().to_bits(),
            clock: self.session.clock(),
            rendered: metrics.frames_rendered,
            queued: self.session.queued(),
            executed: metrics.commands_executed,
            dropped: metrics.commands_dropped,
            deepest: metrics.queue_depth_max,
            swaps: metrics.swaps,
            fired: metrics.stingers_fired,
        }
    }
}

/// What a ring takes its frames from.
impl AudioSource for Theirs {
    fn fill(&mut self, out: &mut [f32]) -> usize {
        self.session.fill(out)
    }
}

impl Table {
    fn load(&mut self, clip: Clip) -> Handle {
        let slot = self.slots.iter().position(Option::is_none);
        let slot = slot.expect("a slot is free");
        self.last += 1;
        self.slots[slot] = Some(Entry {
            serial: self.last,
            clip,
        });
        self.handle(slot)
    }

    fn handle(&self, slot: usize) -> Handle {
        let entry = self.slots[slot].as_ref().expect("the slot is used");
        Handle {
            slot: slot as u32,
            serial: entry.serial,
        }
    }

    fn submission(&self, command: Command) -> Submission {
        match command.kind {
            kind::PLAY => Submission::Play,
            kind::PAUSE => Submission::Pause,
            kind::STOP => Submission::Stop,
            kind::SEEK => Submission::Seek(command.frame),
            kind::LOOP => Submission::Loop(command.frame, command.end),
            kind::CLEAR_LOOP => Submission::ClearLoop,
            kind::GAIN => Submission::Gain(command.gain),
            kind::SWAP | kind::STINGER => {
                let entry = self.slots[command.clip.slot as usize].as_ref();
                match &entry.expect("the clip is loaded").clip {
                    Clip::Song(song) => Submission::Swap(song.clone()),
                    Clip::Stinger(stinger, _) => Submission::Stinger(stinger.clone(), command.gain),
                }
            }
            other => panic!("no submission has kind {other}"),
        }
    }

    /// tono's record in our five words.
    fn row(&self, record: &TimestampedCommand) -> [u64; 5] {
        use performance::Command::*;
        let (kind, first, second) = match &record.command {
            Play => (kind::PLAY, 0, 0),
            Pause => (kind::PAUSE, 0, 0),
            Stop => (kind::STOP, 0, 0),
            SeekBeat(beat) => (kind::SEEK, *beat as u64, 0),
            SeekSection(name) => {
                let bar = name.parse().expect("a section's name is its bar");
                (kind::TRANSITION, bar, 0)
            }
            SetLoopBars(start, end) => (kind::LOOP, u64::from(*start), u64::from(*end)),
            ClearLoop => (kind::CLEAR_LOOP, 0, 0),
            SetGain(gain) => (kind::GAIN, u64::from(gain.to_bits()), 0),
            Swap(program) => {
                let clip = self.find(|clip| matches!(clip, Clip::Song(song) if song.is(program)));
                (kind::SWAP, handle_word(clip), 0)
            }
            Stinger { samples, gain } => {
                let clip = self
                    .find(|clip| matches!(clip, Clip::Stinger(_, held) if held[..] == samples[..]));
                let gain = u64::from(gain.to_bits());
                (kind::STINGER, handle_word(clip), gain)
            }
            SeekBar(_) => panic!("no call submits a seek to a bar"),
        };
        [record.at_frame, record.seq, u64::from(kind), first, second]
    }

    /// The handle of the clip that passes a test.
    fn find(&self, test: impl Fn(&Clip) -> bool) -> Handle {
        let passes = |entry: &Option<Entry>| entry.as_ref().is_some_and(|x| test(&x.clip));
        let slot = self.slots.iter().position(passes);
        self.handle(slot.expect("the clip is loaded"))
    }
}

fn pairs(samples: &[f32]) -> Vec<Pair> {
    samples.chunks(2).map(|pair| (pair[0], pair[1])).collect()
}

fn song(rate: u32, material: Material) -> Song {
    Song::new(rate, &pairs(&material.samples()), material.extent)
}

fn made(rate: u32, material: Material) -> Clip {
    if material.kind == SONG {
        return Clip::Song(song(rate, material));
    }
    let samples = material.samples();
    Clip::Stinger(Stinger::new(rate, &pairs(&samples)), samples)
}

fn when(at: At) -> session::At {
    match at.kind {
        at::IMMEDIATE => session::At::Immediate,
        at::FRAME => session::At::Frame(at.frame),
        at::SONG => session::At::Song(at.frame),
        other => panic!("no time has kind {other}"),
    }
}

fn queued(result: Result<u64, PerformanceError>) -> Answer {
    match result {
        Ok(number) => Answer::Queued(number),
        Err(PerformanceError::QueueFull) => Answer::Refused(15),
        Err(other) => panic!("the Rust refuses: {other}"),
    }
}

fn state_number(transport: TransportState) -> u32 {
    match transport {
        TransportState::Stopped => state::STOPPED,
        TransportState::Playing => state::PLAYING,
        TransportState::Paused => state::PAUSED,
    }
}

fn transport_state(number: u32) -> TransportState {
    match number {
        state::STOPPED => TransportState::Stopped,
        state::PLAYING => TransportState::Playing,
        state::PAUSED => TransportState::Paused,
        other => panic!("no state has number {other}"),
    }
}

fn loop_numbers(range: Option<(u64, u64)>) -> Loop {
    match range {
        None => NO_LOOP,
        Some((start, end)) => Loop { set: 1, start, end },
    }
}
