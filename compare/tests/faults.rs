//! The comparison can see: each fault that is planted into a copy of tono's files is found by the sessions
//! that the gate plays, one of the ring by its turns. A fault is built into a target folder of its own.

use std::env;
use std::path::Path;
use std::process::{Command, Stdio};
use std::thread;
use std::time::{Duration, Instant};

use compare::faults::{FAULTS, Fault};
use compare::{sessions, turns};

/// How many faults are built and played at a time.
const AT_A_TIME: usize = 2;

/// How long the sessions of a fault may take.
const AT_MOST: Duration = Duration::from_secs(60);

#[test]
fn every_fault_is_found() {
    let found: Vec<Option<u64>> = thread::scope(|scope| {
        let lane = |lane| FAULTS.iter().skip(lane).step_by(AT_A_TIME);
        let lanes: Vec<_> = (0..AT_A_TIME)
            .map(|n| scope.spawn(move || lane(n).map(sessions_needed).collect::<Vec<_>>()))
            .collect();
        let mut lanes: Vec<_> = lanes
            .into_iter()
            .map(|lane| lane.join().expect("the lane ends").into_iter())
            .collect();
        (0..FAULTS.len())
            .map(|n| {
                lanes[n % AT_A_TIME]
                    .next()
                    .expect("the lane has its faults")
            })
            .collect()
    });
    for (fault, needed) in FAULTS.iter().zip(&found) {
        match needed {
            Some(needed) => println!("{needed:>6} sessions  {}", fault.name),
            None => println!("     not found  {}", fault.name),
        }
    }
    assert!(found.iter().all(Option::is_some), "a fault is not found");
}

/// The program that finds a fault, and how much of it the gate plays.
fn program(fault: &Fault) -> (&'static str, u64) {
    match fault.edits[0].file {
        "ring" => ("turns", turns::GATE),
        _ => ("sessions", sessions::GATE),
    }
}

/// How many sessions it takes to find a fault; none if the gate's do not.
fn sessions_needed(fault: &Fault) -> Option<u64> {
    let built = cargo("build", fault).output().expect("cargo can be run");
    let errors = String::from_utf8_lossy(&built.stderr);
    assert!(built.status.success(), "{errors}");

    let (_, gate) = program(fault);
    let told = told(cargo("run", fault).args(["--", &gate.to_string()]));
    let seed = told.strip_prefix("session ")?.split(',').next()?;
    Some(seed.parse::<u64>().expect("a seed is a number") + 1)
}

/// A command of cargo's over a program with a fault planted. Cargo gives way to the program that it runs.
fn cargo(command: &str, fault: &Fault) -> Command {
    let mut cargo = Command::new(env::var("CARGO").expect("cargo runs the tests"));
    cargo
        .args([command, "--profile", "fault", "--bin", program(fault).0])
        .args([
            "--manifest-path",
            concat!(env!("CARGO_MANIFEST_DIR"), "/Cargo.toml"),
        ])
        .arg("--target-dir")
        .arg(Path::new(env!("CARGO_TARGET_TMPDIR")).join(fault.name))
        .env("TONO_FAULT", fault.name);
    cargo
}

/// What a program tells. It is ended if it takes too long, since a fault may never end.
fn told(program: &mut Command) -> String {
    program.stdout(Stdio::piped()).stderr(Stdio::null());
    let mut playing = program.spawn().expect("the program can be run");
    let started = Instant::now();
    while playing.try_wait().expect("it can be asked").is_none() {
        if started.elapsed() > AT_MOST {
            playing.kill().expect("it can be ended");
        }
        thread::sleep(Duration::from_millis(10));
    }
    let output = playing.wait_with_output().expect("it has ended");
    String::from_utf8_lossy(&output.stdout).into_owned()
}
