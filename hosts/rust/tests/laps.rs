//! How often a loop has come round: the passes that a block answers, and the laps that the session keeps.

mod common;

use common::{ByHand, RATE};
use threshreed::{
    At, ClockFrame, Command, LoopRange, Session, Snapshot, Song, SongFrame, Stores, raw,
};

type Small = Stores<8, 0, 64>;

/// A song of 32 frames, playing from the start in a loop.
fn looping(stores: &mut Small, start: u64, end: u64) -> Session<'_> {
    let mut session = stores.open(RATE, Song::new(&[0.5; 64], RATE)).unwrap();
    now(&mut session, looped(start, end));
    now(&mut session, Command::Play);
    session
}

fn looped(start: u64, end: u64) -> Command {
    let (start, end) = (SongFrame(start), SongFrame(end));
    Command::Loop(LoopRange { start, end })
}

fn now(session: &mut Session, command: Command) {
    session.submit(command, At::Immediate).unwrap();
}

/// Submits a command so many frames from now.
fn later(session: &mut Session, frames: u64, command: Command) {
    let at = At::Frame(ClockFrame(session.clock().0 + frames));
    session.submit(command, at).unwrap();
}

/// The passes of a block.
fn passes(session: &mut Session, frames: usize) -> u64 {
    session.block(&mut vec![9.0; 2 * frames]).unwrap()
}

#[test]
fn a_loop_comes_round() {
    let mut stores = Small::new();
    let mut session = looping(&mut stores, 2, 5);
    assert_eq!(passes(&mut session, 4), 0);
    assert_eq!(passes(&mut session, 1), 1);
    assert_eq!(passes(&mut session, 0), 0);
    assert_eq!(session.laps(), 1);
    assert_eq!(passes(&mut session, 7), 2);
    assert_eq!(session.laps(), 3);
    assert_eq!(session.position(), SongFrame(3));
}

#[test]
fn a_loop_of_one_frame_comes_round_each_frame() {
    let mut stores = Small::new();
    let mut session = looping(&mut stores, 0, 1);
    assert_eq!(passes(&mut session, 9), 9);
    assert_eq!(session.laps(), 9);
}

/// Loop 10..14: from 14 and from 27 rule a passes once, however far past the end; from 17 it goes to 13, and rule b
/// passes in the same frame.
#[test]
fn a_position_past_the_loop() {
    for (position, expected) in [(14, 1), (27, 1), (17, 2)] {
        let mut stores = Small::new();
        let mut session = looping(&mut stores, 10, 14);
        now(&mut session, Command::Seek(SongFrame(position)));
        assert_eq!(passes(&mut session, 1), expected, "from {position}");
        assert_eq!(session.laps(), expected);
    }
}

#[test]
fn what_leaves_the_laps() {
    let mut stores = Small::new();
    let mut session = looping(&mut stores, 2, 4);
    assert_eq!(passes(&mut session, 8), 3);
    for command in [
        Command::Pause,
        Command::Gain(0.5),
        looped(2, 33),
        Command::Play,
        Command::Seek(SongFrame(2)),
        Command::Stop,
    ] {
        now(&mut session, command);
        assert_eq!(passes(&mut session, 1), 0, "{command:?}");
        assert_eq!(session.laps(), 3, "{command:?}");
    }
    // A snapshot's loop that does not fit is not set.
    let kept = session.snapshot().unwrap();
    let (start, end) = (SongFrame(2), SongFrame(33));
    let past = Snapshot {
        looped: Some(LoopRange { start, end }),
        ..kept
    };
    session.apply_snapshot(past).unwrap();
    assert_eq!(session.snapshot(), Ok(kept));
    assert_eq!(session.laps(), 3);
    assert!(session.block(&mut [0.0; 3]).is_err());
    assert_eq!(session.laps(), 3);
}

#[test]
fn what_sets_the_laps_back() {
    let mut stores = Small::new();
    let mut session = looping(&mut stores, 2, 4);
    let hall = session.load_song(Song::new(&[0.25; 64], RATE)).unwrap();
    assert_eq!(passes(&mut session, 8), 3);
    // A block answers the passes before a command and after it.
    later(&mut session, 2, looped(2, 4));
    assert_eq!(passes(&mut session, 6), 3);
    assert_eq!(session.laps(), 2);
    later(&mut session, 2, Command::ClearLoop);
    assert_eq!(passes(&mut session, 6), 1);
    assert_eq!(session.laps(), 0);

    now(&mut session, looped(0, 2));
    now(&mut session, Command::Seek(SongFrame(0)));
    assert_eq!(passes(&mut session, 4), 2);
    let kept = session.snapshot().unwrap();
    for looped in [kept.looped, None] {
        assert_eq!(session.laps(), 2);
        let snapshot = Snapshot { looped, ..kept };
        session.apply_snapshot(snapshot).unwrap();
        assert_eq!(session.laps(), 0);
        session.apply_snapshot(kept).unwrap();
        assert_eq!(passes(&mut session, 4), 2);
    }

    later(&mut session, 4, Command::Swap(hall));
    assert_eq!(passes(&mut session, 6), 2);
    assert_eq!(session.laps(), 0);
}

#[test]
fn the_passes_of_a_cut_block_add_up() {
    let play = |lengths: &[usize]| -> (u64, u64) {
        let mut stores = Small::new();
        let mut session = looping(&mut stores, 1, 4);
        later(&mut session, 5, looped(0, 2));
        let answered = lengths.iter().map(|&n| passes(&mut session, n)).sum();
        (answered, session.laps())
    };
    let whole = play(&[12]);
    assert_eq!(whole, (5, 4));
    assert_eq!(play(&[4, 0, 8]), whole);
    assert_eq!(play(&[1; 12]), whole);
}

/// At 2^64 - 1 the laps stop, and a block answers its passes.
#[test]
fn laps_that_have_stopped() {
    let mut opened = ByHand::open();
    opened.session.state = 1;
    opened.session.looped = raw::Loop {
        set: 1,
        start: 0,
        end: 1,
    };
    for (left, then) in [(4, 1), (3, 0), (2, 0), (0, 0)] {
        opened.session.laps = u64::MAX - left;
        let blocked = opened.block(&mut [9.0; 6]);
        assert_eq!((blocked.refusal, blocked.passes), (0, 3));
        assert_eq!(blocked.session.laps, u64::MAX - then);
    }
}
