//! Document 02's Q-1: turns of pumps and drains through a ring, on ours and on tono's. The sessions are the generator's,
//! whose frames go through the ring; other dice decide its size, the drains, and pumps of any portion.

use std::fmt;
use std::ops::AddAssign;

use threshreed::raw::{Ring, Session};

use crate::both::Difference;
use crate::dice::Dice;
use crate::generator::{Player, Size, Way};
use crate::ours::Ours;
use crate::reached::{add, count, never};
use crate::script::Answer;

/// How many turns the gate plays, from seed 0.
pub const GATE: u64 = 100_000;

/// The frames for which tono's largest ring has room whose store ours can have too.
const LARGEST: u64 = 32_767;

/// The situations, in the order in which they are counted.
const NAMES: [&str; 17] = [
    "pumps of no frame",
    "pumps that make all of what is asked",
    "pumps that make a part of it",
    "pumps into a full ring",
    "pumps of a frame that lies over the store's end",
    "pumps up to the store's end",
    "pumps that execute commands",
    "pumps with passes",
    "pumps into a ring for one frame",
    "pumps over the end of the largest store",
    "drains of no sample",
    "drains of an odd block",
    "drains that take a whole block",
    "underruns",
    "underruns of an empty ring",
    "drains of a frame that lies over the store's end",
    "drains that empty the ring",
];

/// The first so many of them are of a pump.
const PUMPS: usize = 10;

/// How often each situation was reached, and counts of the turns, of the frames that went in and came out, of the samples
/// that were not silent, and of the commands.
#[derive(Clone, Copy, Default)]
pub struct Turns {
    situations: [u64; NAMES.len()],
    sessions: u64,
    pumps: u64,
    drains: u64,
    pumped: u64,
    drained: u64,
    sounding: u64,
    submitted: u64,
    executed: u64,
}

/// Plays sessions from this seed on until there were so many turns, up to the first difference.
pub fn run(first: u64, count: u64) -> Result<Turns, Difference> {
    let mut turns = Turns::default();
    let mut seed = first;
    while turns.count() < count {
        turns += play(seed, count - turns.count())?;
        seed += 1;
    }
    Ok(turns)
}

/// Plays the session of this seed, in at most so many turns. All that is pumped is drained in the end.
fn play(seed: u64, most: u64) -> Result<Turns, Difference> {
    let mut dice = Dice::new(seed + (1 << 33));
    let frames = frames(&mut dice);
    let mut player = Player::open(seed, Size::Long, Way::Pumps(frames as usize), false)?;
    player.begin()?;
    let last = dice.from(20, 400).min(most) - 1;
    while player.turns().count() < last {
        let goes_on = match dice.below(8) {
            0..=3 => player.step()?,
            4 => player.block(dice.from(0, 2 * frames) as usize)?,
            _ => {
                player.drain(samples(&mut dice, frames))?;
                true
            }
        };
        if !goes_on {
            break;
        }
    }
    player.drain(2 * frames as usize + 1)?;
    let (turns, session) = (player.turns(), player.ours().session);
    assert_eq!(turns.pumped, turns.drained, "a frame is lost");
    Ok(Turns {
        sessions: 1,
        submitted: session.number,
        executed: session.counters.executed,
        ..*turns
    })
}

/// For how many frames a ring has room: mostly few.
fn frames(dice: &mut Dice) -> u64 {
    match dice.below(32) {
        0..=3 => 1,
        4..=13 => dice.from(2, 8),
        14..=23 => dice.from(9, 100),
        24..=30 => dice.from(101, 1_024),
        _ => LARGEST,
    }
}

/// How many samples a callback asks for: mostly whole frames.
fn samples(dice: &mut Dice, frames: u64) -> usize {
    let asked = match dice.below(8) {
        0 => 2 * dice.below(4),
        1 => dice.below(4 * frames + 4),
        2 => 2 * (frames + 1),
        _ => 2 * dice.from(1, frames),
    };
    asked as usize
}

/// Whether one of so many frames from a place on lies over the end of a store.
fn over_end(place: usize, frames: usize, samples: usize) -> bool {
    let left = samples - place;
    left % 2 == 1 && 2 * frames > left
}

impl Turns {
    /// How many turns there were.
    pub fn count(&self) -> u64 {
        self.pumps + self.drains
    }

    /// Looks at a pump: the frames asked for, what it answers, the session and the ring before it, and our side after it.
    pub fn see_pump(
        &mut self,
        asked: usize,
        answer: &Answer,
        session: &Session,
        ring: Ring,
        ours: &Ours,
    ) {
        let (made, samples) = (answer.frames(), ours.store.len());
        let executed = ours.session.counters.executed - session.counters.executed;
        let mut seen = [false; NAMES.len()];
        seen[..PUMPS].copy_from_slice(&[
            asked == 0,
            0 < asked && made == asked,
            0 < made && made < asked,
            made == 0 && asked > 0,
            over_end(ring.tail, made, samples),
            made > 0 && ours.ring.tail == 0,
            executed > 0,
            answer.passes() > 0,
            made > 0 && samples == 3,
            samples as u64 == 2 * LARGEST + 1 && ours.ring.tail < ring.tail,
        ]);
        count(&mut self.situations, &seen);
        self.pumps += 1;
        self.pumped += made as u64;
    }

    /// Looks at a drain: the block's bits, the frames taken, the ring before it, and our side after it.
    pub fn see_drain(&mut self, bits: &[u32], taken: usize, ring: Ring, ours: &Ours) {
        let asked = bits.len() / 2;
        let mut seen = [false; NAMES.len()];
        seen[PUMPS..].copy_from_slice(&[
            bits.is_empty(),
            bits.len() % 2 == 1,
            0 < asked && taken == asked,
            0 < taken && taken < asked,
            taken == 0 && asked > 0,
            over_end(ring.head, taken, ours.store.len()),
            0 < taken && ours.held() == 0,
        ]);
        count(&mut self.situations, &seen);
        self.drains += 1;
        self.drained += taken as u64;
        self.sounding += bits.iter().filter(|bits| **bits != 0).count() as u64;
    }

    /// The situations that were never reached.
    pub fn missing(&self) -> Vec<&'static str> {
        never(&NAMES, &self.situations)
    }
}

impl AddAssign for Turns {
    fn add_assign(&mut self, more: Turns) {
        add(&mut self.situations, &more.situations);
        self.sessions += more.sessions;
        self.pumps += more.pumps;
        self.drains += more.drains;
        self.pumped += more.pumped;
        self.drained += more.drained;
        self.sounding += more.sounding;
        self.submitted += more.submitted;
        self.executed += more.executed;
    }
}

impl fmt::Display for Turns {
    fn fmt(&self, f: &mut fmt::Formatter<'_>) -> fmt::Result {
        let counts = [
            (self.sessions, "sessions"),
            (self.pumps, "pumps"),
            (self.drains, "drains"),
            (self.pumped, "frames pumped"),
            (self.drained, "frames drained"),
            (self.sounding, "samples that were not silent"),
            (self.submitted, "commands submitted"),
            (self.executed, "commands executed"),
        ];
        let named = self.situations.into_iter().zip(NAMES);
        for (count, name) in counts.into_iter().chain(named) {
            writeln!(f, "{count:>10}  {name}")?;
        }
        Ok(())
    }
}
