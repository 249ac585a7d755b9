//! Each refusal number at a call that gives it, and that a refused call changes nothing.

mod common;

use common::{ByHand, PAIR, RATE};
use threshreed::Refusal::*;
use threshreed::{
    At, Command, LoopRange, Metrics, Refusal, Report, Ring, Session, Snapshot, Song, SongFrame,
    State, Stinger, Stores, WORDS, raw,
};

fn song() -> Song<'static> {
    Song::new(&PAIR, RATE)
}

fn stinger() -> Stinger<'static> {
    Stinger {
        samples: &PAIR,
        rate: RATE,
    }
}

type Small = Stores<20, 1, 40>;

fn open(stores: &mut Small) -> Session<'_> {
    stores.open(RATE, song()).unwrap()
}

fn now(session: &mut Session, command: Command) -> Result<u64, Refusal> {
    session.submit(command, At::Immediate)
}

fn looped(start: u64, end: u64) -> Command {
    let (start, end) = (SongFrame(start), SongFrame(end));
    Command::Loop(LoopRange { start, end })
}

#[test]
fn opening() {
    let open = |rate, words, samples, song| {
        let (mut queue, mut pool) = (vec![0; words], vec![0.0; samples]);
        Session::open(rate, &mut queue, &mut [], &mut pool, song).err()
    };
    let lasting = |length| Song {
        length: SongFrame(length),
        ..song()
    };
    assert_eq!(open(RATE, 5, 2, song()), None);
    assert_eq!(open(RATE, 6, 2, song()), Some(NotWellFormed));
    assert_eq!(open(RATE, 5, 3, song()), Some(PoolLength));
    let clip = |samples| Song::new(samples, RATE);
    assert_eq!(open(RATE, 5, 2, clip(&[0.5; 3])), Some(OddSamples));
    assert_eq!(open(RATE, 5, 2, clip(&[])), Some(NoSamples));
    assert_eq!(open(RATE, 5, 2, clip(&[17.0; 2])), Some(BadSample));
    assert_eq!(open(7_999, 5, 2, song()), Some(OutOfRange));
    assert_eq!(open(192_001, 5, 2, song()), Some(OutOfRange));
    assert_eq!(open(RATE, 0, 2, song()), Some(OutOfRange));
    assert_eq!(open(RATE, 5 * 4_097, 2, song()), Some(OutOfRange));
    assert_eq!(open(RATE, 5, 0, song()), Some(OutOfRange));
    assert_eq!(open(RATE, 5, 2, lasting(0)), Some(OutOfRange));
    assert_eq!(open(RATE, 5, 2, lasting((1 << 40) + 1)), Some(OutOfRange));
    assert_eq!(open(44_100, 5, 2, song()), Some(WrongRate));
    assert_eq!(open(RATE, 5, 2, clip(&[0.5; 4])), Some(NoRoom));
}

/// An unknown mode is an opening number out of its range, which an opening weighs before all else.
#[test]
fn an_unknown_mode() {
    let open = |mode, words, samples, song: Song| {
        let settings = raw::Settings {
            rate: RATE,
            mode,
            queue: 1,
            capture: 0,
            pool: 1,
        };
        let (queue, mut pool) = (vec![0; words], vec![9.0; samples]);
        let (clip, length) = (song.samples, song.length.0);
        let opened = raw::open(settings, &queue, &[], &mut pool, clip, song.rate, length);
        assert!(opened.refusal == 0 || pool == vec![9.0; samples]);
        opened.refusal
    };
    let clip = |samples| Song::new(samples, RATE);
    for (number, words, samples, song) in [
        (0, 5, 2, song()),
        (1, 6, 2, song()),
        (2, 5, 3, song()),
        (3, 5, 2, clip(&[0.5; 3])),
        (5, 5, 2, clip(&[])),
        (6, 5, 2, clip(&[17.0; 2])),
        (13, 5, 2, Song::new(&PAIR, 44_100)),
        (10, 5, 2, clip(&[0.5; 4])),
    ] {
        let answers = [0, 1, 2, u32::MAX].map(|mode| open(mode, words, samples, song));
        assert_eq!(answers, [number, number, 7, 7]);
    }
}

#[test]
fn opening_again() {
    let mut stores = Small::new();
    let mut session = open(&mut stores);
    now(&mut session, Command::Play).unwrap();
    assert_eq!(stores.open(7_999, song()).err(), Some(OutOfRange));
    assert_eq!(open(&mut stores).queue_depth(), 0);
}

#[test]
fn loading() {
    let mut stores = Small::new();
    let mut session = open(&mut stores);
    let mut load = |samples: &[f32], rate| session.load_song(Song::new(samples, rate)).err();
    assert_eq!(load(&[0.5], RATE), Some(OddSamples));
    assert_eq!(load(&[], RATE), Some(NoSamples));
    for bad in [f32::NAN, f32::INFINITY, 16.5, -16.5] {
        assert_eq!(load(&[0.0, bad], RATE), Some(BadSample));
    }
    assert_eq!(load(&PAIR, 7_999), Some(OutOfRange));
    assert_eq!(load(&[0.5; 80], RATE), Some(NoRoom));
    for _ in 1..32 {
        assert_eq!(load(&PAIR, RATE), None);
    }
    assert_eq!(load(&PAIR, RATE), Some(SlotsUsed));
    assert_eq!(session.load_stinger(stinger()), Err(SlotsUsed));
}

#[test]
fn blocks() {
    let mut stores = Small::new();
    let mut session = open(&mut stores);
    now(&mut session, Command::Play).unwrap();
    let mut out = [9.0; 3];
    assert_eq!(session.block(&mut out), Err(OddSamples));
    assert_eq!(out, [9.0; 3]);
    assert_eq!(session.block(&mut []), Ok(0));
    assert_eq!(session.queue_depth(), 1);
}

/// The order of these refusals, and that they change nothing: `tests/ring.rs`.
#[test]
fn rings() {
    let mut stores = Small::new();
    let mut session = open(&mut stores);
    let mut ring = Ring::<2>::new();
    assert_eq!(ring.pump(&mut session, 1), Err(BadRing));
    assert_eq!(ring.drain(&mut [9.0; 2]), Err(BadRing));
}

#[test]
fn submissions() {
    let mut stores = Small::new();
    let mut session = open(&mut stores);
    let bell = session.load_stinger(stinger()).unwrap();
    let slow = session.load_song(Song::new(&PAIR, 44_100)).unwrap();
    let first = session.song();
    for gain in [f32::NAN, f32::INFINITY, f32::NEG_INFINITY] {
        assert_eq!(now(&mut session, Command::Gain(gain)), Err(BadGain));
    }
    for senseless in [looped(5, 5), looped(6, 5), looped(u64::MAX, 0)] {
        assert_eq!(now(&mut session, senseless), Err(SenselessLoop));
    }
    let loud = Command::Stinger(bell, 16.5);
    assert_eq!(now(&mut session, loud), Err(BadGain));
    assert_eq!(now(&mut session, Command::Swap(bell)), Err(WrongKind));
    let sung = Command::Stinger(first, 1.0);
    assert_eq!(now(&mut session, sung), Err(WrongKind));
    assert_eq!(now(&mut session, Command::Swap(slow)), Err(WrongRate));
    session.retire(slow).unwrap();
    assert_eq!(now(&mut session, Command::Swap(slow)), Err(Stale));

    session.start_capture().unwrap();
    now(&mut session, Command::Play).unwrap();
    assert_eq!(now(&mut session, Command::Play), Err(CaptureFull));
    assert_eq!(now(&mut session, looped(5, 5)), Err(SenselessLoop));
    session.stop_capture(&mut [0; WORDS]).unwrap();

    for _ in 0..16 {
        now(&mut session, Command::Stinger(bell, 1.0)).unwrap();
    }
    let one_more = Command::Stinger(bell, 1.0);
    assert_eq!(now(&mut session, one_more), Err(VoicesTaken));

    for _ in 17..20 {
        now(&mut session, Command::Play).unwrap();
    }
    assert_eq!(now(&mut session, looped(5, 5)), Err(SenselessLoop));
    assert_eq!(session.metrics().unwrap().dropped, 0);
    assert_eq!(now(&mut session, Command::Play), Err(QueueFull));
    assert_eq!(
        session.transition(SongFrame(0), At::Immediate),
        Err(QueueFull)
    );
    let expected = Metrics {
        rendered: 0,
        executed: 0,
        dropped: 2,
        deepest: 20,
        swaps: 0,
        fired: 0,
    };
    assert_eq!(session.metrics(), Ok(expected));
}

#[test]
fn retiring() {
    let mut stores = Small::new();
    let mut session = open(&mut stores);
    assert_eq!(session.retire(session.song()), Err(Held));
    let bell = session.load_stinger(stinger()).unwrap();
    now(&mut session, Command::Stinger(bell, 1.0)).unwrap();
    assert_eq!(session.retire(bell), Err(Held));
    session.block(&mut [0.0; 4]).unwrap();
    assert_eq!(session.retire(bell), Ok(()));
    assert_eq!(session.retire(bell), Err(Stale));
}

#[test]
fn snapshots() {
    let mut stores = Small::new();
    let mut session = open(&mut stores);
    for gain in [-0.5, 2.5, f32::NAN] {
        let snapshot = Snapshot {
            position: SongFrame(0),
            state: State::Playing,
            gain,
            looped: None,
        };
        assert_eq!(session.apply_snapshot(snapshot), Err(BadGain));
    }
    assert_eq!(session.state(), State::Stopped);
}

#[test]
fn captures_and_replays() {
    let mut stores = Small::new();
    let mut session = open(&mut stores);
    session.start_capture().unwrap();
    now(&mut session, Command::Play).unwrap();
    assert_eq!(session.stop_capture(&mut [0; 4]), Err(ListTooShort));
    let mut list = [0; WORDS];
    assert_eq!(session.stop_capture(&mut list), Ok(1));

    // The list's kind 11 is none, its slot 31 has no clip, its loop is senseless.
    let list = [
        [0, 1, 11, 0, 0],
        [0, 2, 9, 31 << 32, 0],
        [0, 3, 6, 5, 5],
        list,
    ];
    let expected = Report {
        taken: 1,
        full: 0,
        skipped: 3,
    };
    assert_eq!(session.replay(list.as_flattened()), Ok(expected));
}

/// The refusal and the session of each answer.
macro_rules! answers {
    ($($call:expr),* $(,)?) => {[$({
        let answered = $call;
        (answered.refusal, answered.session)
    }),*]};
}

impl ByHand {
    /// Opens a session and changes it.
    fn with(change: impl FnOnce(&mut raw::Session)) -> ByHand {
        let mut opened = ByHand::open();
        change(&mut opened.session);
        opened
    }

    /// A block of one frame.
    fn frame(&self) -> u32 {
        let mut out = [9.0; 2];
        let answered = self.block(&mut out);
        if answered.refusal != 0 {
            assert_eq!(answered.passes, 0);
            assert_eq!(answered.session, self.session);
            assert_eq!(out, [9.0; 2]);
        }
        answered.refusal
    }

    /// Each call but the opening, of this session; the clip is one to retire.
    fn every_call(&mut self, clip: raw::Handle) -> [(u32, raw::Session); 12] {
        let (s, q, c, p) = (
            self.session,
            &mut self.queue,
            &mut self.capture,
            &mut self.pool,
        );
        let play = raw::Command {
            kind: 1,
            gain: f32::NAN,
            clip,
            frame: 0,
            end: 0,
        };
        let now = raw::At { kind: 1, frame: 0 };
        let snapped = raw::snapshot(s, q, c);
        answers![
            raw::load(s, q, c, p, &PAIR, 1, 1, RATE),
            raw::retire(s, q, c, clip),
            raw::submit(s, q, c, play, now),
            raw::transition(s, q, c, 0, now),
            raw::replay(s, q, c, &[]),
            raw::block(s, q, c, p, &mut [9.0; 2]),
            raw::pump(s, q, c, p, raw::Ring { head: 0, tail: 0 }, &mut [9.0; 3], 1),
            raw::start_capture(s, q, c),
            raw::stop_capture(s, q, c, &mut []),
            snapped,
            raw::apply_snapshot(s, q, c, snapped.snapshot),
            raw::metrics(s, q, c),
        ]
    }

    fn load(&mut self, kind: u32) -> u32 {
        let loaded = raw::load(
            self.session,
            &self.queue,
            &self.capture,
            &mut self.pool,
            &PAIR,
            kind,
            1,
            RATE,
        );
        loaded.refusal
    }

    fn submit(&mut self, kind: u32, at: u32) -> u32 {
        let command = raw::Command {
            kind,
            gain: 1.0,
            clip: self.session.song,
            frame: 0,
            end: 0,
        };
        let submitted = raw::submit(
            self.session,
            &mut self.queue,
            &mut self.capture,
            command,
            raw::At { kind: at, frame: 0 },
        );
        submitted.refusal
    }

    fn apply(&self, state: u32, set: u32) -> u32 {
        let snapshot = raw::Snapshot {
            position: 0,
            state,
            gain: 1.0,
            looped: raw::Loop {
                set,
                start: 0,
                end: 1,
            },
        };
        let answered = raw::apply_snapshot(self.session, &self.queue, &self.capture, snapshot);
        answered.refusal
    }
}

#[test]
fn what_is_spent() {
    let end = 1 << 62;
    assert_eq!(ByHand::with(|s| s.clock = end - 1).frame(), 0);
    assert_eq!(ByHand::with(|s| s.clock = end).frame(), ClockSpent.number());
    assert_eq!(ByHand::with(|s| s.last = u32::MAX - 1).load(2), 0);
    assert_eq!(
        ByHand::with(|s| s.last = u32::MAX).load(2),
        SerialsSpent.number()
    );
    assert_eq!(ByHand::with(|s| s.number = u64::MAX - 1).submit(1, 1), 0);
    assert_eq!(
        ByHand::with(|s| s.number = u64::MAX).submit(1, 1),
        NumbersSpent.number()
    );
}

#[test]
fn a_session_that_is_not_well_formed() {
    let changes: [fn(&mut raw::Session); 8] = [
        |s| s.settings.mode = 2,
        |s| s.settings.mode = u32::MAX,
        |s| s.state = 3,
        |s| s.looped.set = 2,
        |s| s.capturing = 2,
        |s| s.clips[0].kind = 0,
        |s| s.position = 2,
        |s| s.queued = usize::MAX,
    ];
    for change in changes {
        let mut opened = ByHand::with(change);
        assert_eq!(opened.frame(), NotWellFormed.number());
        let (session, queue, pool) = (opened.session, opened.queue, opened.pool);
        let refused = [(NotWellFormed.number(), session); 12];
        assert_eq!(opened.every_call(session.song), refused);
        assert_eq!((opened.queue, opened.pool), (queue, pool));
    }
}

/// Well formed does not ask for sense: a senseless loop that lies in the queue is executed, and does nothing.
#[test]
fn a_session_with_a_senseless_loop() {
    let mut opened = ByHand::with(|s| (s.queued, s.number) = (1, 1));
    opened.queue[..WORDS].copy_from_slice(&[0, 1, 6, 5, 5]);
    let answered = opened.block(&mut [0.0; 2]);
    assert_eq!(answered.refusal, 0);
    assert_eq!(answered.session.counters.executed, 1);
    assert_eq!(answered.session.looped.set, 0);
}

/// Nothing of an unused slot is looked at, its kind as little as the rest.
#[test]
fn unused_slots_that_hold_anything() {
    let mut opened = ByHand::open();
    let (q, c, p) = (&opened.queue, &opened.capture, &mut opened.pool);
    let loaded = raw::load(opened.session, q, c, p, &PAIR, 2, 0, RATE);
    for kind in [0, 1, 2, 3, u32::MAX] {
        opened.session = loaded.session;
        for clip in &mut opened.session.clips[2..] {
            // The song's serial and room, a length below its frames, no rate.
            *clip = raw::Clip {
                serial: 1,
                kind,
                extent: 0,
                start: 0,
                frames: u64::MAX,
                rate: 0,
            };
        }
        let answers = opened.every_call(loaded.handle);
        assert_eq!(answers.map(|x| x.0), [0; 12], "kind {kind}");
    }
}

#[test]
fn an_argument_that_names_no_case() {
    let mut opened = ByHand::open();
    assert_eq!([1, 2].map(|kind| opened.load(kind)), [0, 0]);
    assert_eq!([0, 3].map(|kind| opened.load(kind)), [255, 255]);
    assert_eq!([1, 9].map(|kind| opened.submit(kind, 1)), [0, 0]);
    assert_eq!(
        [0, 5, 11, u32::MAX].map(|kind| opened.submit(kind, 1)),
        [255; 4]
    );
    assert_eq!([0, 4].map(|at| opened.submit(1, at)), [255, 255]);
    assert_eq!(opened.apply(2, 1), 0);
    assert_eq!(
        [(3, 0), (0, 2)].map(|(x, y)| opened.apply(x, y)),
        [255, 255]
    );
    let mut bad = ByHand::with(|s| s.state = 3);
    assert_eq!([bad.load(3), bad.submit(5, 1), bad.apply(3, 0)], [1; 3]);
}
