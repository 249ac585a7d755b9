//! Plays random sessions on both sides, and on ours in house mode. Prints how often each situation was reached, or the
//! first difference: `cargo run --release --bin sessions -- 20000 [first seed]`.

use std::process::ExitCode;

use compare::reached::Reached;
use compare::sessions;
use compare::tell::tell;

fn main() -> ExitCode {
    tell("sessions", sessions::GATE, sessions::run, Reached::missing)
}
