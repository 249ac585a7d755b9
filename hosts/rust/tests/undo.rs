//! Snapshots one after the other, as an undo button applies them, in both modes: what a session tells after them, and
//! how it sounds from there.

#[path = "common/noise.rs"]
mod noise;

use noise::noise;
use threshreed::{
    At, ClockFrame, Command, LoopRange, Metrics, Mode, Refusal, Session, Snapshot, Song, SongFrame,
    State, Stinger, Stores,
};

const RATE: u32 = 48_000;

/// The length of each song.
const LENGTH: usize = 32;

const MODES: [Mode; 2] = [Mode::AsTono, Mode::House];

type Small = Stores<8, 0, 256>;

/// The second song plays in a loop from 0 to 10 that has come round three times, last from past its end, so that as tono
/// it sounds behind the playhead. The first is its tail, a bell sounds, the master rides, and a play waits.
fn begun(stores: &mut Small, mode: Mode) -> Session<'_> {
    let room = noise(1, LENGTH);
    let mut session = stores.open_in(mode, RATE, Song::new(&room, RATE)).unwrap();
    let hall = session.load_song(Song::new(&noise(2, LENGTH), RATE));
    let bell = session.load_stinger(Stinger {
        samples: &noise(3, 150),
        rate: RATE,
    });
    let frame = |n| At::Frame(ClockFrame(n));
    for (command, at) in [
        (Command::Swap(hall.unwrap()), At::Immediate),
        (Command::Loop(range(0, 10)), At::Immediate),
        (Command::Stinger(bell.unwrap(), 0.5), At::Immediate),
        (Command::Gain(0.25), frame(5)),
        (Command::Seek(SongFrame(13)), frame(20)),
        (Command::Play, frame(40)),
    ] {
        session.submit(command, at).unwrap();
    }
    session.block(&mut [0.0; 2 * 25]).unwrap();
    assert_eq!((session.position(), session.laps()), (SongFrame(8), 3));
    session
}

fn range(start: u64, end: u64) -> LoopRange {
    LoopRange {
        start: SongFrame(start),
        end: SongFrame(end),
    }
}

/// All that a session tells, and the bits of its next blocks.
#[derive(Debug, PartialEq)]
struct Told {
    control: Snapshot,
    laps: u64,
    clock: ClockFrame,
    queued: usize,
    metrics: Metrics,
    passes: u64,
    heard: Vec<u32>,
}

/// What is told after these snapshots.
fn after(mode: Mode, snapshots: &[Snapshot]) -> Told {
    let mut stores = Small::new();
    let mut session = begun(&mut stores, mode);
    for snapshot in snapshots {
        let expected = match (0.0..=2.0).contains(&snapshot.gain) {
            true => Ok(()),
            false => Err(Refusal::BadGain),
        };
        assert_eq!(session.apply_snapshot(*snapshot), expected);
    }
    let mut told = Told {
        control: session.snapshot().unwrap(),
        laps: session.laps(),
        clock: session.clock(),
        queued: session.queue_depth(),
        metrics: session.metrics().unwrap(),
        passes: 0,
        heard: Vec::new(),
    };
    for frames in [1, 7, 64] {
        let mut out = vec![9.0; 2 * frames];
        told.passes += session.block(&mut out).unwrap();
        told.heard.extend(out.into_iter().map(f32::to_bits));
    }
    told
}

fn snapshot(position: u64, state: State, gain: f32, looped: Option<LoopRange>) -> Snapshot {
    Snapshot {
        position: SongFrame(position),
        state,
        gain,
        looped,
    }
}

/// Snapshots whose loop is none or fits. The first is as the session stands. At 27 the position is past the loop, where
/// the modes sound apart.
fn fitting() -> [Snapshot; 5] {
    [
        snapshot(8, State::Playing, 0.25, Some(range(0, 10))),
        snapshot(5, State::Playing, 1.0, None),
        snapshot(27, State::Playing, 0.3, Some(range(10, 14))),
        snapshot(32, State::Paused, 2.0, Some(range(0, 32))),
        snapshot(u64::MAX, State::Stopped, 0.0, None),
    ]
}

/// Snapshots whose loop does not fit: past the length, empty, turned round.
fn unfit() -> [Snapshot; 3] {
    [
        snapshot(12, State::Playing, 0.7, Some(range(0, 33))),
        snapshot(9, State::Paused, 1.0, Some(range(9, 9))),
        snapshot(0, State::Stopped, 1.5, Some(range(20, 4))),
    ]
}

/// Snapshots that are refused.
fn refused() -> [Snapshot; 3] {
    [-1.0, 2.5, f32::NAN].map(|gain| snapshot(3, State::Paused, gain, None))
}

fn any() -> impl Iterator<Item = Snapshot> {
    fitting().into_iter().chain(unfit()).chain(refused())
}

#[test]
fn twice_is_once() {
    for mode in MODES {
        for s in any() {
            assert_eq!(after(mode, &[s, s]), after(mode, &[s]));
        }
    }
}

#[test]
fn the_last_is_as_alone() {
    for mode in MODES {
        for t in fitting() {
            let alone = after(mode, &[t]);
            assert_eq!((alone.control.looped, alone.laps), (t.looped, 0));
            for s in any() {
                assert_eq!(after(mode, &[s, t]), alone);
            }
        }
    }
}

/// The loop that the first one set or cleared remains, and the rest is the last one's: as the last with the first's loop.
#[test]
fn a_loop_that_does_not_fit_leaves_the_first_ones() {
    for mode in MODES {
        for t in unfit() {
            for s in fitting() {
                let told = after(mode, &[s, t]);
                assert_eq!((told.control.looped, told.laps), (s.looped, 0));
                let looped = s.looped;
                assert_eq!(told, after(mode, &[Snapshot { looped, ..t }]));
            }
        }
    }
}

/// If the first one's does not fit either, or it is refused, the session's own remains, with its laps.
#[test]
fn a_loop_that_does_not_fit_leaves_the_laps() {
    for mode in MODES {
        for t in unfit() {
            let alone = after(mode, &[t]);
            assert_eq!(alone.control.looped, Some(range(0, 10)));
            assert_eq!(alone.laps, 3);
            for s in unfit().into_iter().chain(refused()) {
                assert_eq!(after(mode, &[s, t]), alone);
            }
        }
    }
}

/// The sound that the tests above compare is another after another snapshot, and in the other mode.
#[test]
fn snapshots_are_heard() {
    let heard = |mode, t| after(mode, &[t]).heard;
    let [_, _, past_loop, ..] = fitting();
    assert_ne!(
        heard(Mode::AsTono, past_loop),
        heard(Mode::House, past_loop)
    );
    for mode in MODES {
        for (s, t) in fitting().into_iter().zip(unfit()) {
            assert_ne!(heard(mode, s), heard(mode, t));
        }
    }
}
