//! Where the Rust differs from document 01, each at its smallest input, on the Rust and through the static
//! library. Each test is an entry of docs/DIFFERENCES.md.

mod common;

use std::panic::{AssertUnwindSafe, catch_unwind};

use common::{RATE, heard, left, now, numbered, started, steady, submit};
use compare::ours::Ours;
use compare::runtime::AudioSource;
use compare::runtime::ramp::Tween;
use compare::runtime::ring::{Pump, Renderer, spsc};
use compare::script::{
    Answer, Call, Material, NOW, POOL, SONG, STINGER, at_frame, kind, mode, plain,
};
use compare::session::{
    At, PerformanceError, PerformanceSnapshot, Session, Song, Stinger, Submission,
};
use compare::theirs::Theirs;
use threshreed::raw::{self, Command, Handle, Report, Snapshot};

// ---- our side

/// The samples of a clip whose every frame is this sample on both sides.
fn steadily(sample: f32, frames: usize) -> Vec<f32> {
    vec![sample; frames * 2]
}

/// The samples of a clip whose frame i sounds as i/64.
fn numberedly(frames: u32) -> Vec<f32> {
    (0..2 * frames).map(|n| (n / 2) as f32 / 64.0).collect()
}

/// Our session over a song of these samples, as long as they are.
fn ours(samples: &[f32]) -> Ours {
    ours_in(mode::AS_TONO, samples)
}

fn ours_in(mode: u32, samples: &[f32]) -> Ours {
    let (ours, answer) = Ours::open_on(mode, RATE, samples, samples.len() as u64 / 2);
    assert!(matches!(answer, Answer::Loaded(_)));
    ours
}

fn loaded(ours: &mut Ours, samples: &[f32], kind: u32, rate: u32) -> Handle {
    match ours.load(samples, kind, samples.len() as u64 / 2, rate) {
        Answer::Loaded(handle) => handle,
        other => panic!("{other:?}"),
    }
}

fn taken(ours: &mut Ours, command: Command) {
    let answer = ours.play(&Call::Submit(command, NOW));
    assert!(matches!(answer, Answer::Queued(_)), "{answer:?}");
}

fn refused(ours: &mut Ours, command: Command) -> u32 {
    match ours.play(&Call::Submit(command, NOW)) {
        Answer::Refused(number) => number,
        other => panic!("{other:?}"),
    }
}

/// The left side of our next block.
fn sounded(ours: &mut Ours, frames: usize) -> Vec<f32> {
    match ours.play(&Call::Block(frames)) {
        Answer::Made(bits, _) => left(&bits.into_iter().map(f32::from_bits).collect::<Vec<_>>()),
        other => panic!("{other:?}"),
    }
}

fn swap_to(clip: Handle) -> Command {
    Command {
        clip,
        ..plain(kind::SWAP)
    }
}

fn sound(clip: Handle, gain: f32) -> Command {
    Command {
        clip,
        gain,
        ..plain(kind::STINGER)
    }
}

fn gain(gain: f32) -> Command {
    Command {
        gain,
        ..plain(kind::GAIN)
    }
}

fn seek(frame: u64) -> Command {
    Command {
        frame,
        ..plain(kind::SEEK)
    }
}

fn looped(start: u64, end: u64) -> Command {
    Command {
        frame: start,
        end,
        ..plain(kind::LOOP)
    }
}

/// The Rust's next frame reads a slice that its clip does not have.
fn panics(mut session: Session) {
    let block = catch_unwind(AssertUnwindSafe(|| session.block(1)));
    let told = block.expect_err("the block panics");
    let told = told.downcast_ref::<String>().expect("a panic says why");
    assert!(told.contains("out of range for slice"), "{told}");
}

// ---- the entries

#[test]
fn a_clip_is_a_handle() {
    let song = steady(0.5, 2);
    let mut session = Session::open(&steady(0.0, 1));
    now(&mut session, [Submission::Swap(song.clone())]);
    drop(song);
    assert_eq!(left(&session.block(1)), [0.5]);
    let foreign = Song::new(44_100, &[(0.5, 0.5)], 1);
    let answer = session.submit(Submission::Swap(foreign), At::Immediate);
    assert!(matches!(answer, Err(PerformanceError::BadProgram(_))));

    let mut ours = ours(&steadily(0.0, 1));
    let song = loaded(&mut ours, &steadily(0.5, 2), SONG, RATE);
    assert_eq!(ours.play(&Call::Retire(song)), Answer::Done);
    assert_eq!(refused(&mut ours, swap_to(song)), 11);
    let stinger = loaded(&mut ours, &steadily(0.5, 2), STINGER, RATE);
    assert_eq!(stinger.slot, song.slot);
    assert_eq!(refused(&mut ours, swap_to(song)), 11);
    assert_eq!(refused(&mut ours, swap_to(stinger)), 12);
    let foreign = loaded(&mut ours, &steadily(0.5, 1), SONG, 44_100);
    assert_eq!(refused(&mut ours, swap_to(foreign)), 13);
}

#[test]
fn seventeen_stingers_sound() {
    let mut session = Session::open(&steady(0.0, 1));
    for _ in 0..17 {
        let stinger = Stinger::new(RATE, &[(0.0625, 0.0625)]);
        now(&mut session, [Submission::Stinger(stinger, 1.0)]);
    }
    assert_eq!(left(&session.block(1)), [17.0 * 0.0625]);

    let mut ours = ours(&steadily(0.0, 1));
    let stinger = loaded(&mut ours, &steadily(0.0625, 1), STINGER, RATE);
    for _ in 0..16 {
        taken(&mut ours, sound(stinger, 1.0));
    }
    assert_eq!(refused(&mut ours, sound(stinger, 1.0)), 17);
    assert_eq!(sounded(&mut ours, 1), [1.0]);
}

#[test]
fn a_capture_has_no_end() {
    let mut session = Session::open(&steady(0.0, 1));
    session.start_capture();
    for _ in 0..4_097 {
        now(&mut session, [Submission::ClearLoop]);
        session.block(1);
    }
    assert_eq!(session.stop_capture().len(), 4_097);

    let mut ours = ours(&steadily(0.0, 1));
    ours.play(&Call::StartCapture);
    for _ in 0..4_096 {
        taken(&mut ours, plain(kind::CLEAR_LOOP));
        sounded(&mut ours, 1);
    }
    assert_eq!(refused(&mut ours, plain(kind::CLEAR_LOOP)), 16);
}

#[test]
fn a_song_read_past_its_clip_panics() {
    let commands = [Submission::Seek(2), Submission::Play];
    panics(started(&steady(0.5, 1), commands));

    let mut ours = ours(&steadily(0.5, 1));
    taken(&mut ours, seek(2));
    taken(&mut ours, plain(kind::PLAY));
    assert_eq!(sounded(&mut ours, 1), [0.0]);
    assert_eq!(ours.session.cursor, 2);
}

#[test]
fn a_tail_read_past_its_clip_panics() {
    let commands = [Submission::Seek(2), Submission::Swap(steady(0.0, 1))];
    panics(started(&steady(0.5, 1), commands));

    let mut ours = ours(&steadily(0.5, 1));
    let next = loaded(&mut ours, &steadily(0.0, 1), SONG, RATE);
    taken(&mut ours, seek(2));
    taken(&mut ours, swap_to(next));
    assert_eq!(sounded(&mut ours, 1), [0.0]);
    assert_eq!(ours.session.tail.cursor, 2);
}

#[test]
fn a_lagging_cursor_sounds_on_to_the_end_of_a_slice() {
    let commands = [
        Submission::Loop(0, 3),
        Submission::Seek(4),
        Submission::Play,
    ];
    let mut whole = started(&numbered(4), commands.clone());
    submit(&mut whole, Submission::ClearLoop, At::Frame(1));
    assert_eq!(heard(&whole.block(4)), [0.0, 1.0, 2.0, 3.0]);

    let mut cut = started(&numbered(4), commands);
    submit(&mut cut, Submission::ClearLoop, At::Frame(1));
    assert_eq!(heard(&cut.block(3)), [0.0, 1.0, 2.0]);
    assert_eq!(heard(&cut.block(1)), [0.0]);
    assert_eq!(cut.snapshot(), whole.snapshot());

    // In house mode the cursor does not lag, and the song's last frame sounds.
    for (mode, expected) in [
        (mode::AS_TONO, [0.0, 1.0, 2.0, 0.0]),
        (mode::HOUSE, [1.0, 2.0, 3.0, 0.0]),
    ] {
        for blocks in [vec![4], vec![3, 1]] {
            let mut ours = ours_in(mode, &numberedly(4));
            for command in [looped(0, 3), seek(4), plain(kind::PLAY)] {
                taken(&mut ours, command);
            }
            ours.play(&Call::Submit(plain(kind::CLEAR_LOOP), at_frame(1)));
            let frames: Vec<f32> = blocks.iter().flat_map(|n| sounded(&mut ours, *n)).collect();
            assert_eq!(frames, expected.map(|frame| frame / 64.0));
        }
    }
}

#[test]
fn a_gain_of_minus_zero_is_kept() {
    let minus_zero = PerformanceSnapshot {
        master_gain: -0.0,
        ..Session::open(&steady(0.0, 1)).snapshot()
    };
    let mut session = started(&steady(0.0, 1), [Submission::Gain(-0.0)]);
    session.block(1);
    assert!(session.snapshot().master_gain.is_sign_negative());
    let mut session = Session::open(&steady(0.0, 1));
    session.apply(&minus_zero);
    assert!(session.snapshot().master_gain.is_sign_negative());

    let mut ours = ours(&steadily(0.0, 1));
    taken(&mut ours, gain(-0.0));
    sounded(&mut ours, 1);
    assert_eq!(ours.session.master.target.to_bits(), 0);
    ours.play(&Call::Snapshot);
    ours.snapshot = ours.snapshot.map(|x| Snapshot { gain: -0.0, ..x });
    assert_eq!(ours.play(&Call::Apply), Answer::Done);
    assert_eq!(ours.session.master.target.to_bits(), 0);
}

/// A transition to bar 3, submitted in a song with one frame to a bar, due in one with two.
#[test]
fn a_bar_is_resolved_when_it_is_executed() {
    let slow = steady(0.0, 16).with_beats_of(2);
    let mut session = started(&steady(0.0, 16), [Submission::Swap(slow)]);
    assert_eq!(session.transition(3, At::Frame(1)), Ok(2));
    session.block(1);
    assert_eq!(session.position(), 6);

    let mut ours = ours(&steadily(0.0, 16));
    let slow = loaded(&mut ours, &steadily(0.0, 16), SONG, RATE);
    taken(&mut ours, swap_to(slow));
    ours.play(&Call::Transition(3, at_frame(1)));
    sounded(&mut ours, 1);
    assert_eq!(ours.session.position, 3);
}

#[test]
fn any_sample_is_played() {
    let song = Song::new(RATE, &[(f32::NAN, 17.0)], 1);
    let out = started(&song, [Submission::Play]).block(1);
    assert!(out[0].is_nan());
    assert_eq!(out[1], 17.0);

    let (_, answer) = Ours::open_on(mode::AS_TONO, RATE, &[f32::NAN, 0.0], 1);
    assert_eq!(answer, Answer::Refused(6));
    let mut ours = ours(&steadily(0.5, 2));
    let answer = ours.load(&[0.0, 17.0], STINGER, 1, RATE);
    assert_eq!(answer, Answer::Refused(6));
    ours.pool[..4].copy_from_slice(&[f32::NAN, f32::NAN, 17.0, 17.0]);
    taken(&mut ours, plain(kind::PLAY));
    assert_eq!(sounded(&mut ours, 2), [0.0, 0.0]);
}

/// Only our side is shown: no script brings the Rust's private counts to their ends.
#[test]
fn counts_have_an_end() {
    let mut late = ours(&steadily(0.0, 1));
    late.session.clock = 1 << 62;
    assert_eq!(late.play(&Call::Block(1)), Answer::Refused(4));
    late.session.clock -= 1;
    assert_eq!(sounded(&mut late, 1), [0.0]);

    let mut spent = ours(&steadily(0.0, 1));
    spent.session.number = u64::MAX - 1;
    let answer = spent.play(&Call::Submit(plain(kind::PLAY), NOW));
    assert_eq!(answer, Answer::Queued(u64::MAX));
    assert_eq!(refused(&mut spent, plain(kind::PLAY)), 18);

    spent.session.last = u32::MAX;
    let answer = spent.load(&steadily(0.0, 1), STINGER, 0, RATE);
    assert_eq!(answer, Answer::Refused(9));
}

#[test]
fn any_gain_of_a_snapshot_is_applied() {
    let mut session = started(&steady(0.5, 1), [Submission::Play]);
    session.apply(&PerformanceSnapshot {
        master_gain: 3.0,
        ..session.snapshot()
    });
    assert_eq!(left(&session.block(1)), [1.5]);

    let mut ours = ours(&steadily(0.5, 1));
    ours.play(&Call::Snapshot);
    ours.snapshot = ours.snapshot.map(|x| Snapshot { gain: 3.0, ..x });
    assert_eq!(ours.play(&Call::Apply), Answer::Refused(14));
}

#[test]
fn any_gain_is_taken() {
    let commands = [Submission::Play, Submission::Gain(f32::NAN)];
    let mut session = started(&steady(0.5, 2), commands);
    assert!(session.block(1)[0].is_nan());

    let stinger = Stinger::new(RATE, &[(1.0, 1.0); 96]);
    let mut session = started(&steady(0.0, 1), [Submission::Stinger(stinger, 17.0)]);
    assert_eq!(left(&session.block(96))[95], 17.0);

    let mut ours = ours(&steadily(0.5, 2));
    let stinger = loaded(&mut ours, &steadily(1.0, 96), STINGER, RATE);
    assert_eq!(refused(&mut ours, gain(f32::NAN)), 14);
    assert_eq!(refused(&mut ours, gain(f32::INFINITY)), 14);
    assert_eq!(refused(&mut ours, sound(stinger, 17.0)), 14);
}

#[test]
fn a_senseless_loop_is_taken() {
    for (start, end) in [(5, 5), (6, 5)] {
        let mut session = Session::open(&steady(0.5, 8));
        session.start_capture();
        now(&mut session, [Submission::Loop(start, end)]);
        let records = session.stop_capture();
        session.replay(&records);
        session.block(1);
        assert_eq!(session.metrics().commands_executed, 2);
        assert_eq!(session.loop_range(), None);

        let mut ours = ours(&steadily(0.5, 8));
        assert_eq!(refused(&mut ours, looped(start, end)), 22);
        ours.list = vec![0, 1, u64::from(kind::LOOP), start, end];
        let skipped = Report {
            taken: 0,
            full: 0,
            skipped: 1,
        };
        assert_eq!(ours.play(&Call::Replay), Answer::Replayed(skipped));
    }
}

#[test]
fn a_length_below_the_frames_is_taken() {
    let song = Song::new(RATE, &[(0.5, 0.5), (0.25, 0.25)], 1);
    let mut session = started(&song, [Submission::Play]);
    assert_eq!(left(&session.block(2)), [0.5, 0.25]);
    assert_eq!(session.position(), 1);

    let samples = [0.5, 0.5, 0.25, 0.25];
    let (_, answer) = Ours::open_on(mode::AS_TONO, RATE, &samples, 1);
    assert_eq!(answer, Answer::Refused(7));
    let answer = ours(&samples).load(&samples, SONG, 1, RATE);
    assert_eq!(answer, Answer::Refused(7));
}

#[test]
fn any_number_of_any_clips_is_taken() {
    let mut session = started(&Song::new(RATE, &[], 0), [Submission::Play]);
    assert_eq!(left(&session.block(1)), [0.0]);
    let songs: Vec<Song> = (0..40).map(|n| steady(n as f32 / 64.0, 1_000)).collect();
    for song in &songs {
        submit(&mut session, Submission::Swap(song.clone()), At::Frame(1));
    }
    session.block(1_100);
    assert_eq!(session.metrics().swaps, 40);

    let mut ours = ours(&steadily(0.0, 1));
    let mut load = |samples: &[f32], rate| ours.load(samples, STINGER, 0, rate);
    assert_eq!(load(&[], RATE), Answer::Refused(5));
    assert_eq!(load(&[0.0], RATE), Answer::Refused(3));
    assert_eq!(load(&[0.0, 0.0], 7_999), Answer::Refused(7));
    let too_long = steadily(0.0, POOL as usize);
    assert_eq!(load(&too_long, RATE), Answer::Refused(10));
    for _ in 1..32 {
        assert!(matches!(load(&[0.0, 0.0], RATE), Answer::Loaded(_)));
    }
    assert_eq!(load(&[0.0, 0.0], RATE), Answer::Refused(8));
}

#[test]
fn a_replay_weighs_the_room_alone() {
    let stinger = Submission::Stinger(Stinger::new(RATE, &[(0.0625, 0.0625)]), 1.0);
    let mut session = Session::open(&steady(0.0, 1));
    session.start_capture();
    for _ in 0..16 {
        now(&mut session, [stinger.clone()]);
    }
    let records = session.stop_capture();
    session.replay(&records[..1]);
    assert_eq!(session.queued(), 17);

    let mut ours = ours(&steadily(0.0, 1));
    let stinger = loaded(&mut ours, &steadily(0.0625, 1), STINGER, RATE);
    ours.play(&Call::StartCapture);
    for _ in 0..16 {
        taken(&mut ours, sound(stinger, 1.0));
    }
    ours.play(&Call::StopCapture);
    ours.list.truncate(5);
    let skipped = Report {
        taken: 0,
        full: 0,
        skipped: 1,
    };
    assert_eq!(ours.play(&Call::Replay), Answer::Replayed(skipped));
    assert_eq!(ours.session.queued, 16);
}

/// Only the Rust's side is shown: a session of ours has no such rate.
#[test]
fn a_tween_in_milliseconds_rounds_a_float() {
    let frames = |rate| format!("{:?}", Tween::ms(2.0, rate));
    assert_eq!(frames(10_773_748), format!("{:?}", Tween::frames(21_547)));
    assert_eq!(frames(10_773_749), format!("{:?}", Tween::frames(21_548)));
}

/// A gain of 0.25 at rest, then a swap to silence: what each frame of the tail sounds as.
#[test]
fn a_tail_ignores_the_master() {
    let weight = |frame: usize| (1_023 - frame) as f32 / 1_024.0;
    let as_tono: Vec<f32> = (0..1_024).map(|frame| 0.7 * weight(frame)).collect();
    let house: Vec<f32> = (0..1_024)
        .map(|frame| (0.7 * 0.25) * weight(frame))
        .collect();

    let mut session = started(&steady(0.7, 1_024), [Submission::Gain(0.25)]);
    session.block(256);
    now(&mut session, [Submission::Swap(steady(0.0, 1_024))]);
    assert_eq!(left(&session.block(1_024)), as_tono);

    for (mode, expected) in [(mode::AS_TONO, as_tono), (mode::HOUSE, house)] {
        let mut ours = ours_in(mode, &steadily(0.7, 1_024));
        let silence = loaded(&mut ours, &steadily(0.0, 1_024), SONG, RATE);
        taken(&mut ours, gain(0.25));
        sounded(&mut ours, 256);
        taken(&mut ours, swap_to(silence));
        assert_eq!(sounded(&mut ours, 1_024), expected);
    }
}

/// Loop 10..14 and position 27: the frames that sound.
#[test]
fn rule_a_takes_the_song_to_the_start() {
    let as_tono = [10.0, 11.0, 12.0, 10.0, 11.0];
    let house = [11.0, 12.0, 13.0, 10.0, 11.0];

    let commands = [
        Submission::Loop(10, 14),
        Submission::Seek(27),
        Submission::Play,
    ];
    let mut session = started(&numbered(32), commands);
    let before = session.passes();
    assert_eq!(heard(&session.block(5)), as_tono);
    assert_eq!((session.position(), session.passes() - before), (12, 2));

    for (mode, expected) in [(mode::AS_TONO, as_tono), (mode::HOUSE, house)] {
        let mut ours = ours_in(mode, &numberedly(32));
        for command in [looped(10, 14), seek(27), plain(kind::PLAY)] {
            taken(&mut ours, command);
        }
        let out: Vec<f32> = expected
            .iter()
            .flat_map(|frame| [frame / 64.0; 2])
            .collect();
        assert_eq!(ours.play(&Call::Block(5)), Answer::made(&out, 2));
        assert_eq!(ours.session.position, 12);
    }
}

/// The Rust's session behind a ring.
fn ring(frames: usize) -> (Pump<Theirs>, Renderer) {
    let (theirs, _) = Theirs::open(RATE, Material::song(1, 1));
    spsc(theirs, frames)
}

/// An empty ring, and a block of one frame.
#[test]
fn a_drain_answers_half_the_block() {
    let (_, mut renderer) = ring(1);
    let mut out = [9.0; 2];
    assert_eq!((renderer.fill(&mut out), out), (1, [0.0; 2]));

    let mut ours = ours(&steadily(0.0, 1));
    assert_eq!(ours.drain(2), (vec![0; 2], 0));
}

/// The least ring of the Rust's has room for a frame, and none is too large.
#[test]
fn a_ring_has_any_size() {
    for (asked, room) in [(0, 1), (32_768, 32_768)] {
        assert_eq!(ring(asked).0.pump(40_000), room);
    }

    let Ours {
        session,
        queue,
        capture,
        pool,
        ring,
        ..
    } = ours(&steadily(0.0, 1));
    for (samples, number) in [(2, 23), (3, 0), (65_536, 0), (65_537, 23)] {
        let (mut store, mut out) = (vec![0.0; samples], [9.0; 2]);
        let pumped = raw::pump(session, &queue, &capture, &pool, ring, &mut store, 1);
        let drained = raw::drain(ring, &store, &mut out);
        assert_eq!((pumped.refusal, drained.refusal), (number, number));
    }
}
