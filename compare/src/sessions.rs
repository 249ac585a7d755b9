//! Many sessions, one after another.

use crate::both::Difference;
use crate::generator::{self, Size};
use crate::reached::Reached;

/// How many sessions the gate plays, from seed 0.
pub const GATE: u64 = 2_000;

/// Plays the sessions of these seeds and counts what they reached, up to the first difference.
pub fn run(first: u64, count: u64) -> Result<Reached, Difference> {
    let mut reached = Reached::default();
    for seed in first..first + count {
        reached += generator::play(seed, Size::Long, false)?.reached;
    }
    Ok(reached)
}
