//! Document 02's Q-10: snapshots that are applied one after the other, as an undo button applies them. Any snapshots
//! may be, also ones that were never taken. The laws are looked at in a session as it stands, and leave it there.

use threshreed::raw::{self, Loop, Session, Snapshot};

use crate::dice::Dice;
use crate::domain;
use crate::ours::Ours;
use crate::script::{NO_LOOP, state};

/// How the laws may be met, in the order in which they are counted.
pub const LAWS: [&str; 7] = [
    "a snapshot twice as once",
    "a refused snapshot twice as once",
    "a snapshot that is refused, after another as alone",
    "a snapshot after another as alone",
    "a snapshot after a refused one as alone",
    "a loop that remains as another snapshot left it",
    "a loop that remains with its laps",
];

/// Which of them were.
pub type Met = [bool; LAWS.len()];

/// Gains outside the domain of the comparison: -0.0, and those that are refused.
const OUTSIDE: [f32; 7] = [
    -0.0,
    -f32::from_bits(1),
    -1.0,
    2.0_f32.next_up(),
    f32::INFINITY,
    f32::NEG_INFINITY,
    f32::NAN,
];

/// Any snapshot.
pub fn any(ours: &Ours, dice: &mut Dice) -> Snapshot {
    let inside = inside(ours, dice);
    match dice.one_in(8) {
        true => Snapshot {
            gain: dice.pick(&OUTSIDE),
            ..inside
        },
        false => inside,
    }
}

/// A snapshot inside the domain of the comparison. Each part of it may be as it stands.
pub fn inside(ours: &Ours, dice: &mut Dice) -> Snapshot {
    Snapshot {
        position: position(ours, dice),
        state: dice.pick(&[state::STOPPED, state::PLAYING, state::PAUSED]),
        gain: match dice.below(4) {
            0 => dice.pick(&[0.0, 1.0, 2.0]),
            1 => ours.session.master.target,
            _ => dice.below(2_000) as f32 / 1_000.0,
        },
        looped: looped(ours, dice),
    }
}

/// Or it is in the clip, at its end, beside the loop's end, past the length, or past any.
fn position(ours: &Ours, dice: &mut Dice) -> u64 {
    let Session {
        position,
        looped,
        song,
        ..
    } = ours.session;
    let clip = ours.clip(song);
    match dice.below(8) {
        0 => position,
        1 | 2 => dice.below(clip.frames),
        3 => clip.frames,
        4 | 5 => (looped.end + dice.below(8)).saturating_sub(4),
        6 => clip.extent + dice.below(100),
        _ => dice.pick(&[1 << 40, 1 << 62, u64::MAX]),
    }
}

/// Or it is none, past the length, senseless, up to the length, or a short one in the clip.
fn looped(ours: &Ours, dice: &mut Dice) -> Loop {
    let Session { looped, song, .. } = ours.session;
    let clip = ours.clip(song);
    let start = dice.below(clip.frames);
    let end = match dice.below(8) {
        0 => return looped,
        1 => return NO_LOOP,
        2 => dice.pick(&[clip.extent + 1, u64::MAX]),
        3 => dice.from(0, start),
        4 => clip.extent,
        _ => (start + dice.from(1, 50)).min(clip.frames),
    };
    Loop { set: 1, start, end }
}

/// Whether a snapshot's loop is none, or fits the song that plays.
pub fn loop_fits(ours: &Ours, looped: Loop) -> bool {
    let extent = ours.clip(ours.session.song).extent;
    looped.set == 0 || domain::fits(looped.start, looped.end, extent)
}

/// Panics unless the laws of two snapshots hold where a session of ours stands: s twice is s once; t is accepted or
/// refused after s as alone; an accepted t after s is t alone, but for the loop and its laps where t's loop does not
/// fit, which are those that s left.
pub fn laws(ours: &Ours, s: Snapshot, t: Snapshot) -> Met {
    let apply =
        |session, snapshot| raw::apply_snapshot(session, &ours.queue, &ours.capture, snapshot);
    let first = apply(ours.session, s);
    assert!(apply(first.session, s) == first, "twice is not once: {s:?}");

    let alone = apply(ours.session, t);
    let last = apply(first.session, t);
    assert_eq!(
        last.refusal, alone.refusal,
        "{t:?} after {s:?} is weighed otherwise"
    );
    let fits = loop_fits(ours, t.looped);
    let Session { looped, laps, .. } = first.session;
    let (expected, law) = match alone.refusal {
        0 if fits => (alone.session, "as alone"),
        0 => {
            let remains = Session {
                looped,
                laps,
                ..alone.session
            };
            (remains, "as alone with the loop that was left")
        }
        _ => (first.session, "as if it were not there"),
    };
    assert!(last.session == expected, "{t:?} after {s:?} is not {law}");

    let (taken, accepted) = (first.refusal == 0, alone.refusal == 0);
    [
        taken,
        !taken,
        !accepted,
        accepted && fits && taken,
        accepted && fits && !taken,
        accepted && !fits && looped != ours.session.looped,
        accepted && !fits && laps > 0,
    ]
}
