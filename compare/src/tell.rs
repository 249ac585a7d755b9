//! What the programs of random play print.

use std::env;
use std::fmt::Display;
use std::process::ExitCode;
use std::time::Instant;

use crate::both::Difference;

/// Plays as much as the first argument says, else as the gate, from the seed that the second one names on, else from 0.
/// Prints how often each situation was reached, or the first difference.
pub fn tell<R: Display>(
    what: &str,
    gate: u64,
    run: impl FnOnce(u64, u64) -> Result<R, Difference>,
    missing: impl FnOnce(&R) -> Vec<&'static str>,
) -> ExitCode {
    let mut arguments = env::args().skip(1).map(|argument| {
        let number: u64 = argument.parse().expect("an argument is a number");
        number
    });
    let count = arguments.next().unwrap_or(gate);
    let first = arguments.next().unwrap_or(0);
    let started = Instant::now();
    let reached = match run(first, count) {
        Ok(reached) => reached,
        Err(difference) => {
            println!("{difference}");
            return ExitCode::FAILURE;
        }
    };
    println!("{count} {what} from seed {first}, no difference");
    print!("{reached}");
    println!("{:.1} seconds", started.elapsed().as_secs_f64());
    let missing = missing(&reached);
    for name in &missing {
        println!("never reached: {name}");
    }
    match missing.is_empty() {
        true => ExitCode::SUCCESS,
        false => ExitCode::FAILURE,
    }
}
