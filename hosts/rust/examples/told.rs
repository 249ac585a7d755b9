//! Tells what each command did: when it was submitted, the frame that it was due at, when it was executed, and what the
//! session reads after the block of one frame that executed it.

use threshreed::{
    At, ClockFrame, Command, LoopRange, Refusal, Session, Song, SongFrame, Stinger, Stores, WORDS,
};

const RATE: u32 = 8_000;

/// A command that is submitted: its words, the clock then, and the frame that it is due at.
struct Told {
    words: String,
    submitted: u64,
    due: u64,
    number: u64,
}

/// Submits a command, and finds the frame that it is due at in its captured record.
fn tell(session: &mut Session, told: &mut Vec<Told>, command: Command, at: At) {
    let words = format!("{command:?} {at:?}");
    let mut record = [0; WORDS];
    let answer = session
        .start_capture()
        .and_then(|()| session.submit(command, at))
        .and_then(|number| session.stop_capture(&mut record).map(|_| number));
    match answer {
        Ok(number) => told.push(Told {
            words,
            submitted: session.clock().0,
            due: record[0],
            number,
        }),
        Err(refusal) => println!("{words}\n    refused: {refusal}"),
    }
}

fn read(session: &Session) -> String {
    let looped = match session.loop_range() {
        None => "no loop".to_string(),
        Some(LoopRange { start, end }) => {
            format!("loop {} to {}, laps {}", start.0, end.0, session.laps())
        }
    };
    format!(
        "{:?} at {}, gain {}, {looped}, {} queued",
        session.state(),
        session.position().0,
        session.master_gain(),
        session.queue_depth()
    )
}

fn main() -> Result<(), Refusal> {
    let song: Vec<f32> = (0..2 * 64).map(|n| n as f32 / 256.0).collect();
    let mut stores = Stores::<16, 1, 1_024>::new();
    let mut session = stores.open(RATE, Song::new(&song, RATE))?;
    let hall = session.load_song(Song::new(&song, RATE))?;
    let bell = session.load_stinger(Stinger {
        samples: &song[..16],
        rate: RATE,
    })?;

    let at = |n| At::Frame(ClockFrame(n));
    let range = LoopRange {
        start: SongFrame(8),
        end: SongFrame(12),
    };
    let script = [
        (0, Command::Play, At::Immediate),
        (0, Command::Loop(range), at(4)),
        (0, Command::Gain(0.5), At::Song(SongFrame(10))),
        (0, Command::Stinger(bell, 1.0), at(10)),
        (14, Command::Pause, At::Song(SongFrame(9))),
        (14, Command::Swap(bell), At::Immediate),
        (20, Command::Seek(SongFrame(30)), at(3)),
        (20, Command::ClearLoop, At::Immediate),
        (22, Command::Play, at(24)),
        (22, Command::Swap(hall), at(28)),
        (22, Command::Stop, at(40)),
    ];

    let mut told = Vec::new();
    for clock in 0..48 {
        for (_, command, due) in script.into_iter().filter(|step| step.0 == clock) {
            tell(&mut session, &mut told, command, due);
        }
        let before = session.metrics()?.executed;
        let mut out = [0.0; 2];
        session.block(&mut out)?;
        let executed = session.metrics()?.executed - before;

        // The first by frame and number have gone.
        told.sort_by_key(|x: &Told| (x.due, x.number));
        for x in told.drain(..executed as usize) {
            println!("{}", x.words);
            println!(
                "    number {}, submitted at {}, due at {}, executed at {}",
                x.number,
                x.submitted,
                x.due,
                x.due.max(clock)
            );
            println!("    then {}", read(&session));
        }
    }
    Ok(())
}
