//! Our side: the proved library, through its static library, with the stores that a host lends it.

use std::mem;

use threshreed::raw::{self, Command, Handle};

use crate::clip;
use crate::dice::Dice;
use crate::script::{Answer, CAPTURE, Call, Material, POOL, QUEUE, Standing, snapshot_numbers};

/// What the pool holds where no clip lies, and a ring's store where no frame does: heard at once, if it is ever read.
const UNLOADED: f32 = 7.0;

/// A session and its stores. Between calls all of it may be read.
pub struct Ours {
    pub session: raw::Session,
    pub queue: Vec<u64>,
    pub capture: Vec<u64>,
    pub pool: Vec<f32>,
    pub ring: raw::Ring,
    /// The ring's.
    pub store: Vec<f32>,
    /// The records that the last stop of capture gave.
    pub list: Vec<u64>,
    /// The snapshot taken last, or one laid in its place.
    pub snapshot: Option<raw::Snapshot>,
}

/// A ring in which nothing waits.
const EMPTY: raw::Ring = raw::Ring { head: 0, tail: 0 };

/// A record as it lies in a store: frame, number, kind, and two words that the kind reads.
pub type Row = [u64; 5];

/// A handle in one word of a record.
pub fn handle_word(clip: Handle) -> u64 {
    u64::from(clip.slot) << 32 | u64::from(clip.serial)
}

impl Ours {
    pub fn open(mode: u32, rate: u32, song: Material) -> (Ours, Answer) {
        let (mut ours, answer) = Ours::open_on(mode, rate, &song.samples(), song.extent);
        ours.spoil(song, &answer);
        (ours, answer)
    }

    /// A session on a song of these samples.
    pub fn open_on(mode: u32, rate: u32, samples: &[f32], extent: u64) -> (Ours, Answer) {
        let settings = raw::Settings {
            rate,
            mode,
            queue: QUEUE,
            capture: CAPTURE,
            pool: POOL,
        };
        let queue = vec![0; QUEUE * 5];
        let capture = vec![0; CAPTURE * 5];
        let mut pool = vec![UNLOADED; POOL as usize * 2];
        let opened = raw::open(settings, &queue, &capture, &mut pool, samples, rate, extent);
        let ours = Ours {
            session: opened.session,
            queue,
            capture,
            pool,
            ring: EMPTY,
            store: vec![UNLOADED; 3],
            list: Vec::new(),
            snapshot: None,
        };
        (ours, answer(opened.refusal, Answer::Loaded(opened.handle)))
    }

    pub fn play(&mut self, call: &Call) -> Answer {
        match call {
            Call::Open(_) => panic!("the session is open"),
            Call::Load(clip) => {
                let rate = self.session.settings.rate;
                let answer = self.load(&clip.samples(), clip.kind, clip.extent, rate);
                self.spoil(*clip, &answer);
                answer
            }
            Call::Retire(clip) => self.retire(*clip),
            Call::Submit(command, at) => self.submit(*command, *at),
            Call::Transition(frame, at) => self.transition(*frame, *at),
            Call::Block(frames) => self.block(*frames),
            Call::StartCapture => self.start_capture(),
            Call::StopCapture => self.stop_capture(),
            Call::Replay => self.replay(),
            Call::Snapshot => self.snapshot(),
            Call::Apply => self.apply(),
        }
    }

    /// Loads a clip of these samples.
    pub fn load(&mut self, samples: &[f32], kind: u32, extent: u64, rate: u32) -> Answer {
        let loaded = raw::load(
            self.session,
            &self.queue,
            &self.capture,
            &mut self.pool,
            samples,
            kind,
            extent,
            rate,
        );
        self.session = loaded.session;
        answer(loaded.refusal, Answer::Loaded(loaded.handle))
    }

    /// Writes over a clip where it was loaded.
    fn spoil(&mut self, clip: Material, loaded: &Answer) {
        if let Answer::Loaded(handle) = loaded {
            let start = 2 * self.clip(*handle).start as usize;
            for (place, sample) in clip.spoils() {
                self.pool[start + place] = sample;
            }
        }
    }

    fn retire(&mut self, clip: Handle) -> Answer {
        let retired = raw::retire(self.session, &self.queue, &self.capture, clip);
        self.session = retired.session;
        answer(retired.refusal, Answer::Done)
    }

    fn submit(&mut self, command: Command, at: raw::At) -> Answer {
        let submitted = raw::submit(
            self.session,
            &mut self.queue,
            &mut self.capture,
            command,
            at,
        );
        self.session = submitted.session;
        answer(submitted.refusal, Answer::Queued(submitted.number))
    }

    fn transition(&mut self, frame: u64, at: raw::At) -> Answer {
        let submitted =
            raw::transition(self.session, &mut self.queue, &mut self.capture, frame, at);
        self.session = submitted.session;
        answer(submitted.refusal, Answer::Queued(submitted.number))
    }

    fn block(&mut self, frames: usize) -> Answer {
        let mut out = vec![f32::NAN; frames * 2];
        let made = raw::block(
            self.session,
            &self.queue,
            &self.capture,
            &self.pool,
            &mut out,
        );
        self.session = made.session;
        answer(made.refusal, Answer::made(&out, made.passes))
    }

    /// An empty ring over a store of so many samples.
    pub fn lend_ring(&mut self, samples: usize) {
        self.ring = EMPTY;
        self.store = vec![UNLOADED; samples];
    }

    /// Pumps frames into the ring, and answers as a block of those that it makes.
    pub fn pump(&mut self, frames: usize) -> Answer {
        let first = self.ring.tail;
        let pumped = raw::pump(
            self.session,
            &self.queue,
            &self.capture,
            &self.pool,
            self.ring,
            &mut self.store,
            frames,
        );
        assert_eq!(pumped.refusal, 0, "a pump is refused");
        self.session = pumped.session;
        self.ring = pumped.ring;
        let places = (0..2 * pumped.frames).map(|n| (first + n) % self.store.len());
        let made: Vec<f32> = places.map(|place| self.store[place]).collect();
        Answer::made(&made, pumped.passes)
    }

    /// Drains the ring into a block of so many samples. Gives the block's bits, and how many frames were taken.
    pub fn drain(&mut self, samples: usize) -> (Vec<u32>, usize) {
        let mut out = vec![f32::NAN; samples];
        let drained = raw::drain(self.ring, &self.store, &mut out);
        assert_eq!(drained.refusal, 0, "a drain is refused");
        self.ring = drained.ring;
        (out.into_iter().map(f32::to_bits).collect(), drained.frames)
    }

    /// How many samples wait in the ring.
    pub fn held(&self) -> usize {
        let samples = self.store.len();
        (self.ring.tail + samples - self.ring.head) % samples
    }

    /// How many frames the ring takes now.
    pub fn room(&self) -> usize {
        (self.store.len() - 1 - self.held()) / 2
    }

    /// Makes a block again from where it began, in pieces of any length: the samples and the session are the same,
    /// and the passes add up. Gives the passes of each piece. A block writes no store, so that the session alone goes
    /// back.
    pub fn cut(
        &mut self,
        begun: raw::Session,
        frames: usize,
        whole: &Answer,
        cuts: &mut Dice,
    ) -> Vec<u64> {
        let ended = mem::replace(&mut self.session, begun);
        let (mut samples, mut passes) = (Vec::new(), Vec::new());
        while samples.len() < 2 * frames {
            let left = frames - samples.len() / 2;
            let piece = cuts.from(0, left as u64);
            match self.block(piece as usize) {
                Answer::Made(bits, made) => {
                    samples.extend(bits);
                    passes.push(made);
                }
                other => panic!("a piece of a block answers {other:?}"),
            }
        }
        let pieces = Answer::Made(samples, passes.iter().sum());
        assert!(pieces == *whole, "a cut block answers otherwise");
        assert!(self.session == ended, "a cut block ends otherwise");
        passes
    }

    fn start_capture(&mut self) -> Answer {
        let started = raw::start_capture(self.session, &self.queue, &self.capture);
        self.session = started.session;
        answer(started.refusal, Answer::Done)
    }

    fn stop_capture(&mut self) -> Answer {
        let mut list = vec![0; CAPTURE * 5];
        let stopped = raw::stop_capture(self.session, &self.queue, &self.capture, &mut list);
        self.session = stopped.session;
        list.truncate(stopped.copied * 5);
        let records = list.as_chunks().0.to_vec();
        self.list = list;
        answer(stopped.refusal, Answer::Records(records))
    }

    fn replay(&mut self) -> Answer {
        let replayed = raw::replay(self.session, &mut self.queue, &self.capture, &self.list);
        self.session = replayed.session;
        answer(replayed.refusal, Answer::Replayed(replayed.report))
    }

    fn snapshot(&mut self) -> Answer {
        let snapped = raw::snapshot(self.session, &self.queue, &self.capture);
        self.session = snapped.session;
        let taken = snapped.snapshot;
        self.snapshot = Some(taken);
        let numbers = snapshot_numbers(taken.position, taken.state, taken.gain, taken.looped);
        answer(snapped.refusal, numbers)
    }

    fn apply(&mut self) -> Answer {
        let applied = raw::apply_snapshot(
            self.session,
            &self.queue,
            &self.capture,
            self.snapshot.expect("a snapshot was taken"),
        );
        self.session = applied.session;
        answer(applied.refusal, Answer::Done)
    }

    /// Read off the session, its counts by the metrics call.
    pub fn standing(&self) -> Standing {
        let metered = raw::metrics(self.session, &self.queue, &self.capture);
        assert_eq!(metered.refusal, 0, "the metrics are refused");
        let metrics = metered.metrics;
        Standing {
            position: self.session.position,
            state: self.session.state,
            looped: self.session.looped,
            target: self.session.master.target.to_bits(),
            clock: self.session.clock,
            rendered: metrics.rendered,
            queued: self.session.queued,
            executed: metrics.executed,
            dropped: metrics.dropped,
            deepest: metrics.deepest,
            swaps: metrics.swaps,
            fired: metrics.fired,
        }
    }

    /// The queued records, the first due first. In the store it lies last.
    pub fn waiting(&self) -> impl Iterator<Item = &Row> {
        let live = self.queue.as_chunks().0[..self.session.queued].iter();
        live.rev()
    }

    /// The records of the running capture.
    pub fn captured(&self) -> &[Row] {
        let live = match self.session.capturing {
            1 => self.session.captured,
            _ => 0,
        };
        &self.capture.as_chunks().0[..live]
    }

    /// The frame of the first queued record.
    pub fn first_due(&self) -> Option<u64> {
        self.waiting().next().map(|row| row[0])
    }

    /// Whether it is to be executed before the next frame.
    pub fn is_due(&self) -> bool {
        self.first_due().is_some_and(|at| at <= self.session.clock)
    }

    /// The voices that sound.
    pub fn voices(&self) -> &[raw::Voice] {
        &self.session.voices.table[..self.session.voices.count]
    }

    /// How many frames a voice has left.
    pub fn left(&self, voice: &raw::Voice) -> u64 {
        self.clip(voice.handle).frames - voice.head as u64 / 2
    }

    /// Whether a frame of a clip has a pattern that reads as +0.0.
    pub fn is_silenced(&self, handle: Handle, frame: u64) -> bool {
        let clip = self.clip(handle);
        let place = 2 * (clip.start + frame) as usize;
        let silenced = |x: &f32| clip::heard(*x).to_bits() != x.to_bits();
        frame < clip.frames && self.pool[place..place + 2].iter().any(silenced)
    }

    /// The clip of a live handle.
    pub fn clip(&self, handle: Handle) -> &raw::Clip {
        &self.session.clips[handle.slot as usize]
    }
}

/// What a call answers, if it is not refused.
fn answer(refusal: u32, given: Answer) -> Answer {
    match refusal {
        0 => given,
        _ => Answer::Refused(refusal),
    }
}
