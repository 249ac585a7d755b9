//! Document 02's Q-3: the passes of a loop, on both sides, and the laps that our session keeps of them. Above each test
//! stands the sentence that it runs.

use compare::both::Both;
use compare::script::{Call, Material, NOW, RATE, at_frame, kind, plain};
use threshreed::raw::{Command, Handle};

/// The length of each song.
const LENGTH: u64 = 32;

/// Both sides, playing from a position in a loop.
fn looping(start: u64, end: u64, position: u64) -> Both {
    let mut both = Both::open(0, RATE, Material::song(LENGTH, 1), false).unwrap();
    let seek = Command {
        frame: position,
        ..plain(kind::SEEK)
    };
    for command in [looped(start, end), seek, plain(kind::PLAY)] {
        both.play(&Call::Submit(command, NOW)).unwrap();
    }
    both
}

fn looped(start: u64, end: u64) -> Command {
    Command {
        frame: start,
        end,
        ..plain(kind::LOOP)
    }
}

/// The passes of a block, which both sides tell.
fn passes(both: &mut Both, frames: usize) -> u64 {
    both.play(&Call::Block(frames)).unwrap().passes()
}

/// 'How many times the playhead passed from loop end to start, rule a of 01 counting as one.' So two in the frame in
/// which it goes from 17 to 13, and on to 14.
#[test]
fn rule_a_counts_as_one() {
    for (position, expected) in [(13, 1), (14, 1), (17, 2), (27, 1), (29, 2)] {
        let mut both = looping(10, 14, position);
        assert_eq!(passes(&mut both, 1), expected, "from {position}");
        assert_eq!(both.ours.session.laps, expected);
    }
    let mut both = looping(3, 4, 31);
    assert_eq!(passes(&mut both, 5), 6);
}

/// 'Designers change lighting after the third pass.'
#[test]
fn the_third_pass() {
    let mut both = looping(0, 10, 0);
    assert_eq!(passes(&mut both, 29), 2);
    assert_eq!(both.ours.session.laps, 2);
    assert_eq!(passes(&mut both, 1), 1);
    assert_eq!(both.ours.session.laps, 3);
}

/// 'A block reports the passes made in it, resets aside. Setting or clearing a loop ... and a swap make it 0; a loop
/// that isn't taken leaves it.'
#[test]
fn what_sets_the_laps_back() {
    let swap = Command {
        clip: Handle { slot: 1, serial: 2 },
        ..plain(kind::SWAP)
    };
    for (command, told, laps) in [
        (looped(0, 10), 4, 2),
        (plain(kind::CLEAR_LOOP), 2, 0),
        (swap, 2, 0),
        (looped(0, 33), 4, 4),
    ] {
        let mut both = looping(0, 10, 0);
        both.play(&Call::Load(Material::song(LENGTH, 2))).unwrap();
        both.play(&Call::Submit(command, at_frame(20))).unwrap();
        assert_eq!(passes(&mut both, 42), told, "{command:?}");
        assert_eq!(both.ours.session.laps, laps, "{command:?}");
    }
}

/// 'Setting or clearing a loop, by command or snapshot.' Before the first frame there is none.
#[test]
fn a_snapshot_sets_the_laps_back() {
    for (before, told) in [(0, 2), (5, 3)] {
        let mut both = looping(0, 10, 0);
        passes(&mut both, before);
        both.play(&Call::Snapshot).unwrap();
        assert_eq!(passes(&mut both, 25), told);
        assert_eq!(both.ours.session.laps, told);
        both.play(&Call::Apply).unwrap();
        assert_eq!(both.ours.session.laps, 0);
    }
}
