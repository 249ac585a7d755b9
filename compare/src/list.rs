//! The fixed list of the Rust's answers, `crates/answers/data/answers`: some hundred short sessions, for a
//! reader that has neither cargo nor tono at hand.
//!
//! It is made by playing the generator's short sessions of seeds 0 and on, on both sides. Each call is a
//! line: what is asked `|` what the Rust answered `|` how the Rust then stood (see [`crate::script`]). The
//! first line is the number of sessions, and the last is 0.
//!
//! Beside it lies a list of one session with mistakes in it, `crates/answers/data/mistaken`: a reader that
//! cannot find them would agree with any list.

use std::path::PathBuf;

use threshreed::raw::{Command, Handle};

use crate::both::{Both, Difference};
use crate::generator::{self, Size};
use crate::reached::Reached;
use crate::script::{Call, Material, NOW, RATE, at_frame, kind, plain};

/// How many sessions the list has.
pub const SESSIONS: u64 = 200;

/// More bytes than this it must not have.
pub const MOST_BYTES: usize = 500_000;

/// The kinds of call are numbered from 1.
const KINDS: usize = 11;

fn data() -> PathBuf {
    PathBuf::from(env!("CARGO_MANIFEST_DIR")).join("../crates/answers/data")
}

pub fn path() -> PathBuf {
    data().join("answers")
}

pub fn mistaken_path() -> PathBuf {
    data().join("mistaken")
}

/// The list, and what its sessions reach.
pub fn written() -> Result<(String, Reached), Difference> {
    let mut list = format!("{SESSIONS}\n");
    let mut reached = Reached::default();
    for seed in 0..SESSIONS {
        let played = generator::play(seed, Size::Short, true)?;
        list += &played.lines;
        reached += played.reached;
    }
    list += "0\n";
    Ok((list, reached))
}

/// The list with mistakes: one session, with one number wrong in the first line of each kind of call.
pub fn mistaken() -> Result<String, Difference> {
    let mut both = Both::open(0, RATE, Material::song(300, 1), true)?;
    for call in every_call() {
        both.play(&call)?;
    }
    let mut lines: Vec<String> = both.into_lines().lines().map(str::to_string).collect();
    for kind in 1..=KINDS {
        let asks = format!("{kind} ");
        let line = lines.iter_mut().find(|line| line.starts_with(&asks));
        let line = line.expect("the session makes every call");
        *line = with_mistake(line, kind);
    }
    Ok(format!("1\n{}\n0\n", lines.join("\n")))
}

/// Every call but the opening.
fn every_call() -> [Call; 14] {
    let bell = Handle { slot: 1, serial: 2 };
    let looped = Command {
        frame: 20,
        end: 90,
        ..plain(kind::LOOP)
    };
    let ring = Command {
        clip: bell,
        gain: 0.5,
        ..plain(kind::STINGER)
    };
    [
        Call::Load(Material::stinger(30, 2)),
        Call::StartCapture,
        Call::Submit(plain(kind::PLAY), NOW),
        Call::Submit(looped, NOW),
        Call::Submit(ring, at_frame(16)),
        Call::Transition(40, at_frame(32)),
        Call::Block(64),
        Call::StopCapture,
        Call::Snapshot,
        Call::Replay,
        Call::Block(64),
        Call::Apply,
        Call::Retire(bell),
        Call::Block(64),
    ]
}

/// The lowest bit is turned over of the answer's last number, or, if nothing is answered, of the state's
/// number at the kind's place.
fn with_mistake(line: &str, kind: usize) -> String {
    let mut words: Vec<&str> = line.split(' ').collect();
    let bar = words.iter().rposition(|word| *word == "|");
    let bar = bar.expect("a bar stands before the state");
    // No answer is an empty word.
    let place = match words[bar - 1] {
        "" => bar + kind,
        _ => bar - 1,
    };
    let number: u64 = words[place].parse().expect("a line has numbers");
    let wrong = (number ^ 1).to_string();
    words[place] = &wrong;
    words.join(" ")
}
