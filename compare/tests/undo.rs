//! Document 02's Q-10: snapshots applied one after the other, as tono on both sides and in house mode on ours. Above
//! each test stands the sentence that it runs.

use compare::both::Both;
use compare::ours::Ours;
use compare::script::{
    Answer, Call, Material, NO_LOOP, NOW, RATE, at_frame, kind, mode, plain, state,
};
use threshreed::raw::{Command, Handle, Loop, Session, Snapshot};

/// The length of each song.
const LENGTH: u64 = 32;

/// A session as tono on both sides, and the same on ours in house mode.
struct Sides {
    both: Both,
    house: Ours,
}

impl Sides {
    /// The second song plays in a loop from 0 to 10 that has come round three times, by rule a at last, so that as tono
    /// its cursor is behind. The first is its tail, a bell sounds, the master rides, a capture runs, and a play waits.
    fn begun() -> Sides {
        let mut sides = Sides {
            both: Both::open(0, RATE, Material::song(LENGTH, 1), false).unwrap(),
            house: Ours::open(mode::HOUSE, RATE, Material::song(LENGTH, 1)).0,
        };
        let swap = Command {
            clip: Handle { slot: 1, serial: 2 },
            ..plain(kind::SWAP)
        };
        let round = Command {
            end: 10,
            ..plain(kind::LOOP)
        };
        let past = Command {
            frame: 13,
            ..plain(kind::SEEK)
        };
        let bell = Command {
            clip: Handle { slot: 2, serial: 3 },
            gain: 0.5,
            ..plain(kind::STINGER)
        };
        let ride = Command {
            gain: 0.25,
            ..plain(kind::GAIN)
        };
        for call in [
            Call::Load(Material::song(LENGTH, 2)),
            Call::Load(Material::stinger(200, 3)),
            Call::StartCapture,
            Call::Submit(swap, NOW),
            Call::Submit(round, NOW),
            Call::Submit(bell, NOW),
            Call::Submit(ride, at_frame(5)),
            Call::Submit(past, at_frame(20)),
            Call::Submit(plain(kind::PLAY), at_frame(40)),
            Call::Block(25),
        ] {
            sides.play(&call);
        }
        for (session, cursor) in sides.sessions().into_iter().zip([5, 8]) {
            assert_eq!((session.position, session.cursor), (8, cursor));
            assert_eq!(session.laps, 3);
        }
        sides
    }

    /// What a call answers as tono and in house mode.
    fn play(&mut self, call: &Call) -> [Answer; 2] {
        [self.both.play(call).unwrap(), self.house.play(call)]
    }

    fn apply(mut self, snapshot: Snapshot) -> Sides {
        self.both.lay(snapshot);
        self.house.snapshot = Some(snapshot);
        assert_eq!(self.play(&Call::Apply), [Answer::Done, Answer::Done]);
        self
    }

    /// Applies one whose gain is refused, on our side alone: the Rust takes any.
    fn refuse(mut self, snapshot: Snapshot) -> Sides {
        for ours in [&mut self.both.ours, &mut self.house] {
            ours.snapshot = Some(snapshot);
            assert_eq!(ours.play(&Call::Apply), Answer::Refused(14));
        }
        self
    }

    fn sessions(&self) -> [Session; 2] {
        [self.both.ours.session, self.house.session]
    }
}

/// Panics unless two sessions are the same in each mode, and sound the same in the next blocks.
fn same(mut a: Sides, mut b: Sides) {
    assert_eq!(a.sessions(), b.sessions());
    for frames in [1, 7, 64] {
        assert_eq!(a.play(&Call::Block(frames)), b.play(&Call::Block(frames)));
    }
    assert_eq!(a.sessions(), b.sessions());
}

fn snapshot(position: u64, state: u32, gain: f32, looped: Loop) -> Snapshot {
    Snapshot {
        position,
        state,
        gain,
        looped,
    }
}

fn looped(start: u64, end: u64) -> Loop {
    Loop { set: 1, start, end }
}

/// Snapshots whose loop is none or fits. The first is as the session stands. At 27 rule a comes next, and the cursors of
/// the modes part.
fn fitting() -> [Snapshot; 6] {
    [
        snapshot(8, state::PLAYING, 0.25, looped(0, 10)),
        snapshot(5, state::PLAYING, 1.0, NO_LOOP),
        snapshot(27, state::PLAYING, 0.3, looped(10, 14)),
        snapshot(LENGTH, state::PAUSED, 2.0, looped(0, LENGTH)),
        snapshot(LENGTH + 8, state::STOPPED, 0.0, NO_LOOP),
        snapshot(u64::MAX, state::STOPPED, 0.5, looped(31, 32)),
    ]
}

/// Snapshots whose loop does not fit: past the length, empty, turned round.
fn unfit() -> [Snapshot; 3] {
    [
        snapshot(12, state::PLAYING, 0.7, looped(0, LENGTH + 1)),
        snapshot(9, state::PAUSED, 1.0, looped(9, 9)),
        snapshot(0, state::STOPPED, 1.5, looped(20, 4)),
    ]
}

/// 'Applying one twice equals applying it once.'
#[test]
fn twice_is_once() {
    for s in fitting().into_iter().chain(unfit()) {
        same(Sides::begun().apply(s).apply(s), Sides::begun().apply(s));
    }
}

/// 'Applying s and then an accepted t equals applying t alone where t's loop is none or fits the current song.' 'Laps
/// follow Q-3': it was set or cleared.
#[test]
fn the_last_is_as_alone() {
    for t in fitting() {
        for s in fitting().into_iter().chain(unfit()) {
            let both = Sides::begun().apply(s).apply(t);
            for session in both.sessions() {
                assert_eq!((session.looped, session.laps), (t.looped, 0));
            }
            same(both, Sides::begun().apply(t));
        }
    }
}

/// 'Where t's loop doesn't fit, s's result for the loop remains.' 'Laps follow Q-3': s set or cleared the loop. All else
/// is as by t alone, so that both are as t with the loop of s.
#[test]
fn the_loop_of_the_first_remains() {
    for t in unfit() {
        for s in fitting() {
            let both = Sides::begun().apply(s).apply(t);
            let remains = |session| Session {
                looped: s.looped,
                laps: 0,
                ..session
            };
            let alone = Sides::begun().apply(t).sessions();
            assert_eq!(both.sessions(), alone.map(remains));
            let t_with_loop = Snapshot {
                looped: s.looped,
                ..t
            };
            same(both, Sides::begun().apply(t_with_loop));
        }
    }
}

/// The same where the loop of s does not fit either: the session's own remains. 'Laps follow Q-3': a loop that isn't
/// taken leaves them.
#[test]
fn a_loop_remains_with_its_laps() {
    for t in unfit() {
        for s in unfit() {
            let both = Sides::begun().apply(s).apply(t);
            for session in both.sessions() {
                assert_eq!((session.looped, session.laps), (looped(0, 10), 3));
            }
            same(both, Sides::begun().apply(t));
        }
    }
}

/// 'An accepted t': one that is refused is so after any s, and before or after another it is as if it were not there.
#[test]
fn a_refused_one_changes_nothing() {
    for gain in [-1.0, 2.5, f32::INFINITY, f32::NAN] {
        let refused = snapshot(3, state::PAUSED, gain, NO_LOOP);
        let begun = || Sides::begun().refuse(refused);
        same(begun().refuse(refused), Sides::begun());
        for s in fitting().into_iter().chain(unfit()) {
            same(begun().apply(s), Sides::begun().apply(s));
            same(
                Sides::begun().apply(s).refuse(refused),
                Sides::begun().apply(s),
            );
        }
    }
}
