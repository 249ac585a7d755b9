//! Plays random turns of pumps and drains on both sides. Prints how often each situation was reached, or the first
//! difference: `cargo run --release --bin turns -- 100000 [first seed]`.

use std::process::ExitCode;

use compare::tell::tell;
use compare::turns::{self, Turns};

fn main() -> ExitCode {
    tell("turns", turns::GATE, turns::run, Turns::missing)
}
