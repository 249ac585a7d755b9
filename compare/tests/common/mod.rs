//! Clips, sessions and readings that the tests have in common.

use compare::session::{At, Session, Song, Submission};

pub const RATE: u32 = 48_000;

/// A song whose every frame is this sample on both sides.
pub fn steady(sample: f32, frames: usize) -> Song {
    Song::new(RATE, &vec![(sample, sample); frames], frames as u64)
}

/// A song whose frame i sounds as i/64.
pub fn numbered(frames: u32) -> Song {
    let pairs: Vec<_> = (0..frames)
        .map(|i| (i as f32 / 64.0, i as f32 / 64.0))
        .collect();
    Song::new(RATE, &pairs, frames as u64)
}

/// The frames of a numbered song that a block has sounded.
pub fn heard(out: &[f32]) -> Vec<f32> {
    left(out).iter().map(|sample| sample * 64.0).collect()
}

/// The left side of a block; every clip here has both sides alike.
pub fn left(out: &[f32]) -> Vec<f32> {
    assert!(out.chunks(2).all(|pair| pair[0] == pair[1]));
    out.iter().copied().step_by(2).collect()
}

pub fn submit(session: &mut Session, submission: Submission, at: At) -> u64 {
    session.submit(submission, at).expect("the queue has room")
}

/// Submits commands for the next frame, in this order.
pub fn now<const N: usize>(session: &mut Session, submissions: [Submission; N]) {
    for submission in submissions {
        submit(session, submission, At::Immediate);
    }
}

/// A session over this song in which these commands are due at once.
pub fn started<const N: usize>(song: &Song, submissions: [Submission; N]) -> Session {
    let mut session = Session::open(song);
    now(&mut session, submissions);
    session
}
