//! Document 01's numbers, and what a porter gets wrong, run on the Rust. Above each test stands the
//! sentence that it runs.

mod common;

use common::{RATE, heard, left, now, numbered, started, steady, submit};
use compare::session::{
    At, COMMAND_QUEUE_CAP, PerformanceError, PerformanceSnapshot, Session, Song, Stinger,
    Submission, TransportState,
};

/// The tail's weight after so many ticks.
fn weight(ticks: usize) -> f32 {
    (1024 - ticks) as f32 / 1024.0
}

/// 'Opening loads the first song, stopped at 0, gain 1.0.'
#[test]
fn opening() {
    let session = Session::open(&numbered(8));
    let snapshot = PerformanceSnapshot {
        position: 0,
        state: TransportState::Stopped,
        master_gain: 1.0,
        loop_range: None,
    };
    assert_eq!(session.snapshot(), snapshot);
    assert_eq!(session.clock(), 0);
}

/// 'Two commands at 8, clock 0: a block of 8 executes one, of 0 none, then of 1 the other first.'
#[test]
fn two_commands_at_eight_over_three_blocks() {
    let mut session = Session::open(&numbered(16));
    submit(&mut session, Submission::Play, At::Frame(8));
    submit(&mut session, Submission::Seek(3), At::Frame(8));

    assert_eq!(heard(&session.block(8)), [0.0; 8]);
    assert_eq!(session.metrics().commands_executed, 1);
    assert_eq!(session.state(), TransportState::Playing);
    assert_eq!(session.position(), 0);

    assert_eq!(session.block(0), []);
    assert_eq!(session.metrics().commands_executed, 1);

    assert_eq!(heard(&session.block(1)), [3.0]);
    assert_eq!(session.metrics().commands_executed, 2);
    assert_eq!(session.position(), 4);
}

/// 'A block of 9 executes both.'
#[test]
fn two_commands_at_eight_in_one_block() {
    let mut session = Session::open(&numbered(16));
    submit(&mut session, Submission::Play, At::Frame(8));
    submit(&mut session, Submission::Seek(3), At::Frame(8));
    assert_eq!(heard(&session.block(9))[8], 3.0);
    assert_eq!(session.metrics().commands_executed, 2);
}

/// 'Song (0.5, -0.5), (0.25, 0.25), length 2, Play at 0, block of 4: those pairs, four zeros;
/// position 2, Stopped.'
#[test]
fn a_song_of_two_frames() {
    let song = Song::new(RATE, &[(0.5, -0.5), (0.25, 0.25)], 2);
    let mut session = started(&song, [Submission::Play]);
    let out = session.block(4);
    assert_eq!(out, [0.5, -0.5, 0.25, 0.25, 0.0, 0.0, 0.0, 0.0]);
    assert_eq!(session.position(), 2);
    assert_eq!(session.state(), TransportState::Stopped);
}

/// 'Past the clip it gives +0.0 and stays', up to a length that exceeds the clip's frames.
#[test]
fn a_length_beyond_the_clip() {
    let song = Song::new(RATE, &[(0.5, 0.5), (0.25, 0.25)], 5);
    let mut session = started(&song, [Submission::Play]);
    assert_eq!(left(&session.block(4)), [0.5, 0.25, 0.0, 0.0]);
    assert_eq!(session.state(), TransportState::Playing);
    assert_eq!(left(&session.block(4)), [0.0; 4]);
    assert_eq!(session.position(), 5);
    assert_eq!(session.state(), TransportState::Stopped);
}

/// 'Gain 0 at rest: first frame 255/256, so 0.5 sounds as 0.498046875.' And it lands after 256.
#[test]
fn gain_zero_at_rest() {
    let mut session = started(&steady(0.5, 300), [Submission::Play, Submission::Gain(0.0)]);
    let out = left(&session.block(257));
    assert_eq!(out[0], 0.5 * 255.0 / 256.0);
    assert_eq!(out[254], 0.5 / 256.0);
    assert_eq!(out[255..], [0.0, 0.0]);
}

/// 'Gain: clamped to 0..2.'
#[test]
fn gain_is_clamped() {
    let mut session = started(&steady(0.5, 300), [Submission::Gain(3.0)]);
    session.block(1);
    assert_eq!(session.snapshot().master_gain, 2.0);
    now(&mut session, [Submission::Gain(-1.0)]);
    session.block(1);
    assert_eq!(session.snapshot().master_gain, 0.0);
}

/// 'With a loop, at end, position and cursor become start.'
#[test]
fn a_loop_comes_round() {
    let mut session = started(&numbered(16), [Submission::Loop(2, 4), Submission::Play]);
    let out = session.block(7);
    assert_eq!(heard(&out), [0.0, 1.0, 2.0, 3.0, 2.0, 3.0, 2.0]);
    assert_eq!(session.position(), 3);
}

/// 'Loop 10..14: position 27 goes to 11, cursor 10.' One frame further they stand at 12 and 11.
#[test]
fn rule_a_parts_cursor_and_position() {
    let mut session = started(
        &numbered(32),
        [
            Submission::Loop(10, 14),
            Submission::Seek(27),
            Submission::Play,
        ],
    );
    assert_eq!(heard(&session.block(1)), [10.0]);
    assert_eq!(session.position(), 12);
    assert_eq!(heard(&session.block(4)), [11.0, 12.0, 10.0, 11.0]);
    assert_eq!(session.position(), 12);
}

/// 'Position 14 goes to 10.'
#[test]
fn rule_a_at_the_loop_end() {
    let mut session = started(
        &numbered(32),
        [
            Submission::Loop(10, 14),
            Submission::Seek(14),
            Submission::Play,
        ],
    );
    assert_eq!(heard(&session.block(1)), [10.0]);
    assert_eq!(session.position(), 11);
}

/// Rule a needs 'Playing' and a frame: between blocks a position may stand past the loop's end.
#[test]
fn a_position_past_the_loop_waits_for_a_frame() {
    let mut session = started(
        &numbered(32),
        [Submission::Loop(10, 14), Submission::Seek(27)],
    );
    session.block(1);
    assert_eq!(session.position(), 27);
    submit(&mut session, Submission::Play, At::Frame(2));
    session.block(1);
    assert_eq!(session.state(), TransportState::Playing);
    assert_eq!(session.position(), 27);
}

/// 'Loop(s, e): set if s < e <= length, else nothing.'
#[test]
fn a_loop_that_does_not_fit_leaves_the_old_one() {
    let mut session = started(
        &numbered(16),
        [
            Submission::Loop(2, 16),
            Submission::Loop(3, 17),
            Submission::Loop(5, 5),
        ],
    );
    session.block(1);
    assert_eq!(session.loop_range(), Some((2, 16)));
    now(&mut session, [Submission::ClearLoop]);
    session.block(1);
    assert_eq!(session.loop_range(), None);
}

/// The clock frame that a song frame becomes at clock 500, from this position and loop.
fn deadline(position: u64, loop_range: Option<(u64, u64)>, song_frame: u64) -> u64 {
    let mut session = Session::open(&steady(0.0, 1000));
    session.block(500);
    session.apply(&PerformanceSnapshot {
        position,
        state: TransportState::Paused,
        master_gain: 1.0,
        loop_range,
    });
    session.start_capture();
    submit(&mut session, Submission::Play, At::Song(song_frame));
    session.stop_capture()[0].at_frame
}

/// 'Clock 500, position 100: song frame 130 gives 530; 90 gives 500; 90 with loop 80..120 gives 530;
/// 79 with it gives 500. At position 120, 90 gives 500.'
#[test]
fn deadlines() {
    assert_eq!(deadline(100, None, 130), 530);
    assert_eq!(deadline(100, None, 90), 500);
    assert_eq!(deadline(100, Some((80, 120)), 90), 530);
    assert_eq!(deadline(100, Some((80, 120)), 79), 500);
    assert_eq!(deadline(120, Some((80, 120)), 90), 500);
}

/// 't >= p gives clock + t - p', before the loop is looked at.
#[test]
fn a_deadline_ahead_does_not_look_at_the_loop() {
    assert_eq!(deadline(100, Some((80, 120)), 130), 530);
}

/// 'Held at 2^64 - 1.'
#[test]
fn a_deadline_is_held() {
    assert_eq!(deadline(100, None, u64::MAX), u64::MAX);
}

/// 'The tail's weight goes from 1 to 0 in 1,024 frames, so ... after k ticks it is exactly
/// (1024 - k)/1024.' The tail 'ignores ... g': the master stands at 0.
#[test]
fn the_weights_of_a_swap() {
    let mut session = Session::open(&steady(1.0, 1100));
    session.apply(&PerformanceSnapshot {
        master_gain: 0.0,
        state: TransportState::Playing,
        ..session.snapshot()
    });
    now(&mut session, [Submission::Swap(steady(1.0, 1100))]);
    let out = left(&session.block(1030));
    for (frame, sample) in out[..1024].iter().enumerate() {
        assert_eq!(*sample, weight(frame + 1));
    }
    assert_eq!(out[0], 1023.0 / 1024.0);
    assert_eq!(out[1024..], [0.0; 6]);
    assert_eq!(session.metrics().swaps, 1);
}

/// 'Swap: the old song becomes the tail, replacing any tail, the new one plays from 0 with no loop.'
/// So it does from Stopped, where the tail too starts at 1023/1024.
#[test]
fn a_swap_of_a_stopped_song() {
    let mut session = started(
        &steady(1.0, 1100),
        [Submission::Loop(2, 4), Submission::Swap(steady(0.0, 1100))],
    );
    assert_eq!(left(&session.block(2)), [weight(1), weight(2)]);
    assert_eq!(session.state(), TransportState::Playing);
    assert_eq!(session.position(), 2);
    assert_eq!(session.loop_range(), None);

    now(&mut session, [Submission::Swap(steady(0.0, 1100))]);
    assert_eq!(left(&session.block(2)), [0.0, 0.0]);
    assert_eq!(session.position(), 2);
}

/// The tail 'ignores loop, pause and g'.
#[test]
fn a_pause_with_a_tail_sounding() {
    let mut session = started(&steady(1.0, 1100), [Submission::Swap(steady(0.25, 1100))]);
    assert_eq!(
        left(&session.block(2)),
        [0.25 + weight(1), 0.25 + weight(2)]
    );
    now(&mut session, [Submission::Pause]);
    assert_eq!(left(&session.block(2)), [weight(3), weight(4)]);
    assert_eq!(session.position(), 2);
    now(&mut session, [Submission::Play]);
    assert_eq!(left(&session.block(1)), [0.25 + weight(5)]);
}

/// 'Stop (cursor 0)': Stopped, position 0, loop kept.
#[test]
fn stop_keeps_the_loop() {
    let mut session = started(&numbered(16), [Submission::Loop(2, 4), Submission::Play]);
    session.block(3);
    now(&mut session, [Submission::Stop]);
    assert_eq!(heard(&session.block(2)), [0.0, 0.0]);
    assert_eq!(session.state(), TransportState::Stopped);
    assert_eq!(session.position(), 0);
    assert_eq!(session.loop_range(), Some((2, 4)));
    now(&mut session, [Submission::Play]);
    assert_eq!(heard(&session.block(3)), [0.0, 1.0, 2.0]);
}

/// 'Play; Pause': a pause from Stopped gives Paused, and a play at the end makes one frame and stops.
#[test]
fn pause_from_stopped_and_play_at_the_end() {
    let mut session = started(&numbered(16), [Submission::Pause, Submission::Seek(16)]);
    session.block(1);
    assert_eq!(session.state(), TransportState::Paused);
    submit(&mut session, Submission::Play, At::Frame(2));
    session.block(1);
    assert_eq!(session.state(), TransportState::Playing);
    session.block(1);
    assert_eq!(session.state(), TransportState::Stopped);
    assert_eq!(session.position(), 16);
}

/// The frames over which a stinger goes from 1.0 to its gain at this rate.
fn declick(rate: u32) -> usize {
    let song = Song::new(rate, &[(0.0, 0.0)], 1);
    let stinger = Stinger::new(rate, &[(1.0, 1.0); 200]);
    let mut session = started(&song, [Submission::Stinger(stinger, 0.0)]);
    let out = left(&session.block(200));
    let landed = out.iter().position(|sample| *sample == 0.0);
    landed.expect("the ramp lands within the stinger") + 1
}

/// 'Declick: 44,100 gives 88; 44,250 gives 89; 48,000 gives 96.'
#[test]
fn the_declick() {
    assert_eq!(declick(44_100), 88);
    assert_eq!(declick(44_250), 89);
    assert_eq!(declick(48_000), 96);
}

/// 'A voice leaves after its last frame', the master does not ride it, and its 'gain below 0 is 0'.
#[test]
fn a_stinger_over_a_silent_master() {
    let mut session = Session::open(&steady(1.0, 300));
    session.apply(&PerformanceSnapshot {
        master_gain: 0.0,
        ..session.snapshot()
    });
    let stinger = Stinger::new(RATE, &[(0.5, 0.5); 97]);
    now(
        &mut session,
        [
            Submission::Play,
            Submission::Stinger(stinger.clone(), 1.0),
            Submission::Stinger(stinger, -1.0),
        ],
    );
    let out = left(&session.block(99));
    assert_eq!(out[95..], [0.5, 0.5, 0.0, 0.0]);
    assert_eq!(session.metrics().stingers_fired, 2);
}

/// 'Replay takes records in order at their frames, without capture and without raising the deepest
/// depth'; the next submission counts what was replayed.
#[test]
fn replay_does_not_raise_the_deepest_depth() {
    let mut session = Session::open(&numbered(16));
    session.start_capture();
    submit(&mut session, Submission::Play, At::Frame(2));
    submit(&mut session, Submission::Seek(3), At::Frame(2));
    let records = session.stop_capture();
    assert_eq!(session.metrics().queue_depth_max, 2);

    let mut again = Session::open(&numbered(16));
    again.start_capture();
    again.replay(&records);
    assert_eq!(again.queued(), 2);
    assert_eq!(again.metrics().queue_depth_max, 0);
    assert_eq!(submit(&mut again, Submission::ClearLoop, At::Immediate), 3);
    assert_eq!(again.metrics().queue_depth_max, 3);
    assert_eq!(again.stop_capture().len(), 1);
    assert_eq!(again.block(5), session.block(5));
    assert_eq!(again.position(), session.position());
}

/// 'Snapshot: position, state, master target, loop. Applying: gain at once.'
#[test]
fn a_snapshot_takes_the_target() {
    let mut session = started(
        &steady(0.5, 300),
        [Submission::Play, Submission::Gain(0.25)],
    );
    let riding = left(&session.block(10))[9];
    assert!(riding > 0.25);
    let snapshot = session.snapshot();
    assert_eq!(snapshot.master_gain, 0.25);
    session.apply(&snapshot);
    assert_eq!(left(&session.block(1)), [0.125]);
    assert_eq!(session.position(), 11);
}

/// Applying: 'position = min(snapshot's, length), cursor the same. Clock, queue, tail and voices stay.'
#[test]
fn a_snapshot_of_a_later_place() {
    let mut session = Session::open(&numbered(16));
    submit(&mut session, Submission::Seek(3), At::Frame(6));
    session.block(4);
    session.apply(&PerformanceSnapshot {
        position: 99,
        state: TransportState::Playing,
        master_gain: 1.0,
        loop_range: None,
    });
    assert_eq!(session.position(), 16);
    assert_eq!(session.clock(), 4);
    assert_eq!(session.queued(), 1);
    assert_eq!(heard(&session.block(2)), [0.0, 0.0]);
    assert_eq!(session.position(), 3);
}

/// 'Setting: step = (target - value) / frames': in mid-ride it starts from the value now, 256 anew.
#[test]
fn a_gain_in_mid_ride() {
    let mut session = started(&steady(1.0, 600), [Submission::Play, Submission::Gain(0.0)]);
    assert_eq!(left(&session.block(128))[127], 0.5);
    now(&mut session, [Submission::Gain(1.0)]);
    let out = left(&session.block(256));
    assert_eq!(out[0], 0.5 + 0.5 / 256.0);
    assert_eq!(out[254..], [1.0 - 0.5 / 256.0, 1.0]);
}

/// 'The call first takes out every queued Transition and its capture record; a replayed one takes out
/// none.'
#[test]
fn a_transition_replaces_those_that_wait() {
    let mut session = started(&numbered(16), [Submission::Play]);
    session.start_capture();
    submit(&mut session, Submission::Seek(5), At::Frame(2));
    assert_eq!(session.transition(7, At::Frame(3)), Ok(3));
    assert_eq!(session.transition(9, At::Frame(4)), Ok(4));
    let records = session.stop_capture();
    let numbers: Vec<u64> = records.iter().map(|record| record.seq).collect();
    assert_eq!(numbers, [2, 4]);
    assert_eq!(heard(&session.block(6)), [0.0, 1.0, 5.0, 6.0, 9.0, 10.0]);

    let mut again = started(&numbered(16), [Submission::Play]);
    assert_eq!(again.transition(7, At::Frame(3)), Ok(2));
    again.replay(&records);
    assert_eq!(heard(&again.block(6)), [0.0, 1.0, 5.0, 7.0, 9.0, 10.0]);
}

/// '4,096 queued are accepted; the next gets 15', 'dropped count + 1', and takes no number.
#[test]
fn a_full_queue() {
    let mut session = Session::open(&numbered(16));
    for number in 1..=4096 {
        assert_eq!(submit(&mut session, Submission::Play, At::Frame(1)), number);
    }
    assert_eq!(COMMAND_QUEUE_CAP, 4096);
    let refused = session.submit(Submission::Play, At::Frame(1));
    assert_eq!(refused, Err(PerformanceError::QueueFull));
    assert_eq!(session.metrics().commands_dropped, 1);
    session.block(2);
    assert_eq!(session.queued(), 0);
    assert_eq!(submit(&mut session, Submission::Play, At::Immediate), 4097);
}
