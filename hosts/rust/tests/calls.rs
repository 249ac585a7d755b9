//! Each call of a session, by what is heard and read after it.

use std::sync::Mutex;

use threshreed::{
    At, ClockFrame, Command, Handle, LoopRange, Metrics, Mode, Refusal, Report, Session, Snapshot,
    Song, SongFrame, State, Stinger, Stores, WORDS,
};

const RATE: u32 = 48_000;

type Small = Stores<8, 8, 4_096>;

/// A song whose frame `n` has the pair (n + 1, -(n + 1)) / 4,096.
fn numbered(frames: usize) -> Vec<f32> {
    (0..frames).flat_map(|n| [level(n), -level(n)]).collect()
}

fn level(n: usize) -> f32 {
    (n + 1) as f32 / 4_096.0
}

fn steady(frames: usize, level: f32) -> Vec<f32> {
    vec![level; 2 * frames]
}

/// Opens on a song and plays it at once.
fn playing<'a>(stores: &'a mut Small, song: &[f32]) -> Session<'a> {
    let mut session = stores.open(RATE, Song::new(song, RATE)).unwrap();
    session.submit(Command::Play, At::Immediate).unwrap();
    session
}

/// The left side of a block.
fn heard(session: &mut Session, frames: usize) -> Vec<f32> {
    let mut out = vec![9.0; 2 * frames];
    session.block(&mut out).unwrap();
    out.chunks(2).map(|pair| pair[0]).collect()
}

fn frame(n: u64) -> At {
    At::Frame(ClockFrame(n))
}

fn looped(start: u64, end: u64) -> LoopRange {
    LoopRange {
        start: SongFrame(start),
        end: SongFrame(end),
    }
}

fn bell(session: &mut Session, frames: usize, level: f32) -> Handle {
    let samples = steady(frames, level);
    let stinger = Stinger {
        samples: &samples,
        rate: RATE,
    };
    session.load_stinger(stinger).unwrap()
}

#[test]
fn opening_is_stopped_at_0_with_gain_1() {
    let mut stores = Small::new();
    let session = stores.open(RATE, Song::new(&numbered(4), RATE)).unwrap();
    assert_eq!(session.mode(), Mode::AsTono);
    assert_eq!(session.clock(), ClockFrame(0));
    assert_eq!(session.position(), SongFrame(0));
    assert_eq!(session.state(), State::Stopped);
    assert_eq!(session.loop_range(), None);
    assert_eq!(session.laps(), 0);
    assert_eq!(session.master_gain(), 1.0);
    assert_eq!(session.queue_depth(), 0);
    assert!(session.is_live(session.song()));
    assert_eq!(
        format!("{session:?}"),
        "Session { clock: ClockFrame(0), state: Stopped, position: SongFrame(0), queued: 0, .. }"
    );
}

#[test]
fn a_static_holds_stores() {
    static STORES: Mutex<Small> = Mutex::new(Stores::new());
    let mut stores = STORES.lock().unwrap();
    let mut session = playing(&mut stores, &numbered(2));
    assert_eq!(heard(&mut session, 1), [level(0)]);
}

#[test]
fn a_song_plays_to_its_end_and_stops() {
    let mut stores = Small::new();
    let mut session = playing(&mut stores, &[0.5, -0.5, 0.25, 0.25]);
    let mut out = [9.0; 8];
    session.block(&mut out).unwrap();
    assert_eq!(out, [0.5, -0.5, 0.25, 0.25, 0.0, 0.0, 0.0, 0.0]);
    assert_eq!(session.position(), SongFrame(2));
    assert_eq!(session.state(), State::Stopped);
    assert_eq!(session.clock(), ClockFrame(4));
}

#[test]
fn a_song_may_be_longer_than_its_samples() {
    let mut stores = Small::new();
    let song = Song {
        length: SongFrame(3),
        ..Song::new(&[0.5, 0.5], RATE)
    };
    let mut session = stores.open(RATE, song).unwrap();
    session.submit(Command::Play, At::Immediate).unwrap();
    assert_eq!(heard(&mut session, 2), [0.5, 0.0]);
    assert_eq!(session.state(), State::Playing);
    assert_eq!(heard(&mut session, 1), [0.0]);
    assert_eq!(session.state(), State::Stopped);
}

#[test]
fn pause_play_stop_and_seek() {
    let mut stores = Small::new();
    let mut session = playing(&mut stores, &numbered(16));
    session.submit(Command::Pause, frame(2)).unwrap();
    session.submit(Command::Play, frame(3)).unwrap();
    session
        .submit(Command::Seek(SongFrame(9)), frame(4))
        .unwrap();
    session.submit(Command::Stop, frame(5)).unwrap();
    assert_eq!(session.queue_depth(), 5);
    let [a, b, c, d] = [level(0), level(1), level(2), level(9)];
    assert_eq!(heard(&mut session, 6), [a, b, 0.0, c, d, 0.0]);
    assert_eq!(session.position(), SongFrame(0));
    assert_eq!(session.state(), State::Stopped);
    assert_eq!(session.queue_depth(), 0);
}

#[test]
fn a_loop_comes_round_and_a_song_frame_with_it() {
    let mut stores = Small::new();
    let mut session = playing(&mut stores, &numbered(16));
    let range = looped(1, 3);
    session.submit(Command::Loop(range), At::Immediate).unwrap();
    let expected = [0, 1, 2, 1, 2].map(level);
    assert_eq!(heard(&mut session, 5), expected);
    assert_eq!(session.loop_range(), Some(range));
    assert_eq!(session.position(), SongFrame(1));

    // At frame 2 of the song it leaves the loop, then plays on.
    session
        .submit(Command::ClearLoop, At::Song(SongFrame(2)))
        .unwrap();
    assert_eq!(heard(&mut session, 3), [1, 2, 3].map(level));
    assert_eq!(session.loop_range(), None);

    // A loop past the song's end is not set, but for one that a swap to a longer song comes before.
    let past = Command::Loop(looped(1, 17));
    session.submit(past, At::Immediate).unwrap();
    heard(&mut session, 1);
    assert_eq!(session.loop_range(), None);
    let longer = session.load_song(Song::new(&numbered(17), RATE)).unwrap();
    session
        .submit(Command::Swap(longer), At::Immediate)
        .unwrap();
    session.submit(past, At::Immediate).unwrap();
    heard(&mut session, 1);
    assert_eq!(session.loop_range(), Some(looped(1, 17)));
}

#[test]
fn gain_is_reached_in_256_frames() {
    let mut stores = Small::new();
    let mut session = playing(&mut stores, &steady(1_024, 0.5));
    session.submit(Command::Gain(0.0), At::Immediate).unwrap();
    let out = heard(&mut session, 300);
    assert_eq!(out[0], 0.5 * 255.0 / 256.0);
    assert_eq!(out[254], 0.5 / 256.0);
    assert_eq!(out[255..], [0.0; 45]);
    session.submit(Command::Gain(7.0), At::Immediate).unwrap();
    heard(&mut session, 1);
    assert_eq!(session.master_gain(), 2.0);
}

#[test]
fn a_swap_fades_the_old_song_out_in_1_024_frames() {
    let mut stores = Small::new();
    let mut session = playing(&mut stores, &steady(1_536, 0.5));
    let old = session.song();
    let new = session
        .load_song(Song::new(&steady(2_048, 0.25), RATE))
        .unwrap();
    session.submit(Command::Swap(new), frame(8)).unwrap();
    assert_eq!(heard(&mut session, 7), [0.5; 7]);
    let out = heard(&mut session, 1_026);
    assert_eq!(out[0], 0.5);
    for (k, &sample) in (1..=1_024).zip(&out[1..]) {
        assert_eq!(sample, 0.25 + 0.5 * (1_024 - k) as f32 / 1_024.0);
    }
    assert_eq!(out[1_025], 0.25);
    assert_eq!(session.song(), new);
    session.retire(old).unwrap();
}

#[test]
fn a_stinger_sounds_over_a_stopped_song() {
    let mut stores = Small::new();
    let mut session = stores.open(RATE, Song::new(&numbered(4), RATE)).unwrap();
    let bell = bell(&mut session, 4, 1.0);
    let command = Command::Stinger(bell, 1.0);
    session.submit(command, frame(1)).unwrap();
    assert_eq!(heard(&mut session, 6), [0.0, 1.0, 1.0, 1.0, 1.0, 0.0]);
}

#[test]
fn a_retired_handle_stays_stale_when_its_slot_is_taken_again() {
    let mut stores = Small::new();
    let mut session = stores.open(RATE, Song::new(&numbered(4), RATE)).unwrap();
    let first = bell(&mut session, 4, 1.0);
    session.retire(first).unwrap();
    let second = bell(&mut session, 4, 0.5);
    assert_ne!(first, second);
    assert!(!session.is_live(first));
    assert!(session.is_live(second));
    for command in [Command::Stinger(first, 1.0), Command::Swap(first)] {
        assert_eq!(session.submit(command, At::Immediate), Err(Refusal::Stale));
    }
    assert_eq!(session.retire(first), Err(Refusal::Stale));
    assert_eq!(session.retire(second), Ok(()));
}

#[test]
fn a_transition_takes_the_place_of_the_one_before() {
    let mut stores = Small::new();
    let mut session = playing(&mut stores, &numbered(16));
    session.transition(SongFrame(8), frame(1)).unwrap();
    session.transition(SongFrame(12), frame(2)).unwrap();
    assert_eq!(session.queue_depth(), 2);
    assert_eq!(heard(&mut session, 3), [0, 1, 12].map(level));
}

#[test]
fn a_captured_tour_replays_to_the_same_samples() {
    let mut stores = Small::new();
    let mut session = stores.open(RATE, Song::new(&numbered(16), RATE)).unwrap();
    let bell = bell(&mut session, 2, 0.5);
    session.start_capture().unwrap();
    session.submit(Command::Play, frame(1)).unwrap();
    session
        .submit(Command::Stinger(bell, 0.25), frame(4))
        .unwrap();
    session.transition(SongFrame(9), frame(6)).unwrap();
    let mut list = [99; 4 * WORDS];
    assert_eq!(session.stop_capture(&mut list), Ok(3));
    assert_eq!(list[..WORDS], [1, 1, 1, 0, 0]);
    assert_eq!(list[3 * WORDS..], [99; WORDS]);
    let sounded = heard(&mut session, 10);

    let mut stores = Small::new();
    let mut again = stores.open(RATE, Song::new(&numbered(16), RATE)).unwrap();
    self::bell(&mut again, 2, 0.5);
    let report = again.replay(&list).unwrap();
    let expected = Report {
        taken: 3,
        full: 0,
        skipped: 1,
    };
    assert_eq!(report, expected);
    assert_eq!(heard(&mut again, 10), sounded);

    // Off, it copies nothing.
    assert_eq!(again.stop_capture(&mut []), Ok(0));
}

#[test]
fn a_snapshot_brings_position_state_gain_and_loop_back() {
    let mut stores = Small::new();
    let mut session = playing(&mut stores, &numbered(16));
    session
        .submit(Command::Loop(looped(2, 8)), At::Immediate)
        .unwrap();
    session.submit(Command::Gain(0.5), At::Immediate).unwrap();
    heard(&mut session, 3);
    let kept = session.snapshot().unwrap();
    let expected = Snapshot {
        position: SongFrame(3),
        state: State::Playing,
        gain: 0.5,
        looped: Some(looped(2, 8)),
    };
    assert_eq!(kept, expected);

    session.submit(Command::Stop, At::Immediate).unwrap();
    session.submit(Command::ClearLoop, At::Immediate).unwrap();
    heard(&mut session, 1);
    session.apply_snapshot(kept).unwrap();
    assert_eq!(session.snapshot(), Ok(kept));
    assert_eq!(session.clock(), ClockFrame(4));
    assert_eq!(heard(&mut session, 1), [level(3) * 0.5]);

    let paused = Snapshot {
        state: State::Paused,
        looped: None,
        ..kept
    };
    session.apply_snapshot(paused).unwrap();
    assert_eq!(session.state(), State::Paused);
    assert_eq!(session.loop_range(), None);
}

#[test]
fn metrics_count_what_was_done() {
    let mut stores = Small::new();
    let mut session = playing(&mut stores, &numbered(16));
    let hall = session.load_song(Song::new(&numbered(8), RATE)).unwrap();
    let bell = bell(&mut session, 2, 0.5);
    for command in [Command::Swap(hall), Command::Stinger(bell, 1.0)] {
        session.submit(command, At::Immediate).unwrap();
    }
    heard(&mut session, 5);
    let expected = Metrics {
        rendered: 5,
        executed: 3,
        dropped: 0,
        deepest: 3,
        swaps: 1,
        fired: 1,
    };
    assert_eq!(session.metrics(), Ok(expected));
}

#[test]
fn blocks_of_any_length_make_the_same_sound() {
    let play = |lengths: &[usize]| -> Vec<f32> {
        let mut stores = Small::new();
        let mut session = playing(&mut stores, &numbered(16));
        let bell = bell(&mut session, 3, 0.5);
        session
            .submit(Command::Stinger(bell, 1.0), frame(2))
            .unwrap();
        session
            .submit(Command::Seek(SongFrame(9)), frame(4))
            .unwrap();
        lengths
            .iter()
            .flat_map(|&n| heard(&mut session, n))
            .collect()
    };
    let whole = play(&[12]);
    assert_eq!(play(&[4, 0, 8]), whole);
    assert_eq!(play(&[1; 12]), whole);
}
