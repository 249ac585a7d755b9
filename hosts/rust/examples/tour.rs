//! A tour of two minutes through three rooms, written as a WAV file: `tour FILE [BARS]`. It tells after how many bars
//! the lights change, which is when a loop has come round for the third time, and what the whole tour did. After it
//! comes one threshold twice, while the guide speaks: as tono, where the old room bursts through, and in house mode.
//!
//! The pool has room for two rooms and the bell: the third room comes where the first one was.

mod rooms;

use std::error::Error;
use std::sync::Mutex;

use rooms::{BAR, BEAT, BLOCK, RATE, ROOM, Wav, bars, of_song, on, play};
use threshreed::{
    At, ClockFrame, Command, Mode, Refusal, Session, Song, SongFrame, Stinger, Stores, WORDS,
};

const BARS: usize = 60;
const THRESHOLD: usize = 4;

type Rooms = Stores<64, 64, { 2 * ROOM + BAR }>;

static STORES: Mutex<Rooms> = Mutex::new(Stores::new());

/// From the porch into the hall in a mode: the guide turns the score down for her words, and steps over when a note of
/// the porch has just been struck.
fn cross(
    mode: Mode,
    stores: &mut Rooms,
    porch: &[f32],
    hall: &[f32],
    wav: &mut Wav,
) -> Result<(), Box<dyn Error>> {
    let mut session = stores.open_in(mode, RATE, Song::new(porch, RATE))?;
    let hall = session.load_song(Song::new(hall, RATE))?;
    session.submit(Command::Play, At::Immediate)?;
    session.submit(Command::Gain(0.25), on(1, 0))?;
    let struck = At::Frame(ClockFrame((3 * BAR + 240) as u64));
    session.submit(Command::Swap(hall), struck)?;
    for _ in 0..THRESHOLD * BAR / BLOCK {
        play(&mut session, BLOCK, wav)?;
    }
    Ok(())
}

fn main() -> Result<(), Box<dyn Error>> {
    let mut arguments = std::env::args().skip(1);
    let path = arguments.next().ok_or("tour FILE [BARS]")?;
    let last = arguments.next().map_or(Ok(BARS), |n| n.parse())?.min(BARS);

    let porch_clip = rooms::porch();
    let hall_clip = rooms::hall();
    let cellar_clip = rooms::cellar();
    let bell_clip = rooms::bell();

    let mut stores = STORES.lock()?;
    let mut session: Session = stores.open(RATE, Song::new(&porch_clip, RATE))?;
    let porch = session.song();
    let hall = session.load_song(Song::new(&hall_clip, RATE))?;
    let bell = session.load_stinger(Stinger {
        samples: &bell_clip,
        rate: RATE,
    })?;
    let mut ahead = hall;
    let mut bells = [0; 3 * WORDS];
    let mut kept = session.snapshot()?;

    let mut wav = Wav::create(&path, (last + 2 * THRESHOLD) * BAR)?;
    let mut passes = 0;
    for bar in 0..last {
        match bar {
            // The porch, round and round, and somebody at the door.
            0 => {
                session.submit(bars(0, 4), At::Immediate)?;
                session.submit(Command::Play, At::Immediate)?;
                session.submit(Command::Stinger(bell, 0.5), on(4, 1))?;
            }
            // The guide speaks for four bars.
            8 => {
                session.submit(Command::Gain(0.25), on(8, 0))?;
                session.submit(Command::Gain(1.0), on(12, 0))?;
            }
            // Over the threshold into the hall, on the bar.
            15 => {
                session.submit(Command::Swap(ahead), on(16, 0))?;
                session.submit(bars(0, 4), on(16, 0))?;
                session.submit(Command::Stinger(bell, 1.0), on(16, 0))?;
            }
            // The porch goes, the cellar takes its room, and nobody takes the one for the other.
            17 => {
                session.retire(porch)?;
                ahead = session.load_song(Song::new(&cellar_clip, RATE))?;
                let gone = session.submit(Command::Swap(porch), At::Immediate);
                assert_eq!(gone, Err(Refusal::Stale));
            }
            // Three bells on the song's beats, kept as they are submitted.
            20 => {
                session.start_capture()?;
                for beat in 1..4 {
                    let at = At::Song(SongFrame((beat * BEAT) as u64));
                    session.submit(Command::Stinger(bell, 1.0 / (beat + 1) as f32), at)?;
                }
                session.stop_capture(&mut bells)?;
            }
            // The same bells four bars later.
            24 => {
                for record in bells.chunks_mut(WORDS) {
                    record[0] += 4 * BAR as u64;
                }
                assert_eq!(session.replay(&bells)?.taken, 3);
            }
            // On to the third bar; no, at the end of the second to the fourth.
            28 => {
                session.transition(of_song(2), At::Song(of_song(1)))?;
                session.transition(of_song(3), At::Song(of_song(2)))?;
            }
            // Quiet, but for the bell.
            32 => {
                session.submit(Command::Pause, on(32, 0))?;
                session.submit(Command::Stinger(bell, 0.75), on(32, 1))?;
                session.submit(Command::Play, on(34, 0))?;
            }
            36 => kept = session.snapshot()?,
            // Down to the cellar: two bars of it, the last one, and it ends by itself.
            39 => {
                session.submit(Command::Swap(ahead), on(40, 0))?;
                session.submit(bars(0, 2), on(40, 0))?;
                session.submit(Command::ClearLoop, on(44, 0))?;
                session.submit(Command::Seek(of_song(3)), on(44, 0))?;
            }
            // As it was in the hall.
            46 => session.apply_snapshot(kept)?,
            // Back through the hall and out.
            53 => {
                session.submit(Command::Swap(hall), on(54, 0))?;
                session.submit(bars(0, 4), on(54, 0))?;
                for step in 0..4 {
                    let gain = (3 - step) as f32 / 4.0;
                    session.submit(Command::Gain(gain), on(56 + step, 0))?;
                }
                session.submit(Command::Stop, on(59, 2))?;
            }
            _ => {}
        }
        for _ in 0..BAR / BLOCK {
            let more = play(&mut session, BLOCK, &mut wav)?;
            passes += more;
            if more > 0 && session.laps() == 3 {
                println!("lights   change after {} bars", bar + 1);
            }
        }
        eprint!("\rbar {} of {last}", bar + 1);
    }
    eprintln!();

    let metrics = session.metrics()?;
    println!("frames   {}", metrics.rendered);
    println!("executed {}", metrics.executed);
    println!("deepest  {}", metrics.deepest);
    println!("swaps    {}", metrics.swaps);
    println!("bells    {}", metrics.fired);
    println!("passes   {passes}");
    println!("laps     {}", session.laps());

    for mode in [Mode::AsTono, Mode::House] {
        cross(mode, &mut stores, &porch_clip, &hall_clip, &mut wav)?;
    }
    println!("peak     {:.6}", wav.finish()?);
    Ok(())
}
