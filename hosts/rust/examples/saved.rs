//! A walk of 48 seconds that is kept in a file: `saved TOUR WAV` plays it live, heard in WAV, and saves in TOUR what was
//! submitted on the way; `saved TOUR WAV again` replays TOUR, in blocks of other lengths, to the same sound. Of a damaged
//! TOUR it replays what remains.
//!
//! hosts/c/saved.c is the same walk: each plays what the other saved.

mod rooms;

use std::error::Error;
use std::fs;
use std::sync::Mutex;

use rooms::{BAR, BEAT, BLOCK, RATE, ROOM, Wav, bars, of_song, on, play};
use threshreed::{
    At, Command, Handle, Refusal, Report, Session, Song, SongFrame, Stinger, Stores, TourRefusal,
    WORDS, read_tour, salvage, salvage_bytes, salvage_words, tour_bytes, write_tour,
};

const BARS: usize = 24;
/// As many commands as the queue and the capture hold: a replay queues the whole walk at once.
const COMMANDS: usize = 64;

type Rooms = Stores<COMMANDS, COMMANDS, { 3 * ROOM + BAR }>;

static STORES: Mutex<Rooms> = Mutex::new(Stores::new());

struct Clips {
    porch: Handle,
    hall: Handle,
    cellar: Handle,
    bell: Handle,
}

/// Always in this order, so that a clip has the same slot in the session that is saved and in the one that replays.
fn open(stores: &mut Rooms) -> Result<(Session<'_>, Clips), Refusal> {
    let mut session = stores.open(RATE, Song::new(&rooms::porch(), RATE))?;
    let clips = Clips {
        porch: session.song(),
        hall: session.load_song(Song::new(&rooms::hall(), RATE))?,
        cellar: session.load_song(Song::new(&rooms::cellar(), RATE))?,
        bell: session.load_stinger(Stinger {
            samples: &rooms::bell(),
            rate: RATE,
        })?,
    };
    Ok((session, clips))
}

/// What is submitted as a bar begins.
fn begin(bar: usize, session: &mut Session, clips: &Clips) -> Result<(), Refusal> {
    let ring = |gain| Command::Stinger(clips.bell, gain);
    match bar {
        // The porch, round and round, and somebody at the door.
        0 => {
            session.submit(bars(0, 4), At::Immediate)?;
            session.submit(Command::Play, At::Immediate)?;
            session.submit(ring(0.5), on(2, 1))?;
        }
        // The guide speaks for two bars.
        4 => {
            session.submit(Command::Gain(0.25), At::Immediate)?;
            session.submit(Command::Gain(1.0), on(6, 0))?;
        }
        // Over the threshold into the hall, on the bar.
        7 => {
            session.submit(Command::Swap(clips.hall), on(8, 0))?;
            session.submit(bars(0, 4), on(8, 0))?;
            session.submit(ring(1.0), on(8, 0))?;
        }
        // Three bells on the beats of the song's third bar.
        9 => {
            for beat in 1..4 {
                let at = SongFrame((2 * BAR + beat * BEAT) as u64);
                session.submit(ring(1.0 / (beat + 1) as f32), At::Song(at))?;
            }
        }
        // On to the third bar; no, at the end of the second to the fourth. What was withdrawn is not saved.
        12 => {
            session.transition(of_song(2), At::Song(of_song(1)))?;
            session.transition(of_song(3), At::Song(of_song(2)))?;
        }
        // Quiet, but for the bell.
        15 => {
            session.submit(Command::Pause, on(16, 0))?;
            session.submit(ring(0.75), on(16, 1))?;
            session.submit(Command::Play, on(17, 0))?;
        }
        // Down to the cellar: two bars of it, the last one, and it ends by itself.
        17 => {
            session.submit(Command::Swap(clips.cellar), on(18, 0))?;
            session.submit(bars(0, 2), on(18, 0))?;
            session.submit(Command::ClearLoop, on(20, 0))?;
            session.submit(Command::Seek(of_song(3)), on(20, 0))?;
        }
        // The first bar of it is left early. In the replay this transition waits beside the one before.
        18 => {
            session.transition(of_song(1), At::Song(SongFrame(BEAT as u64)))?;
        }
        // Back to the porch and out.
        21 => {
            session.submit(Command::Swap(clips.porch), on(21, 2))?;
            session.submit(Command::Play, on(21, 2))?;
            session.submit(Command::Gain(0.5), on(22, 2))?;
            session.submit(Command::Gain(0.0), on(23, 0))?;
            session.submit(Command::Stop, on(23, 2))?;
        }
        _ => {}
    }
    Ok(())
}

/// Plays the walk live, and saves it.
fn live(tour: &str, wav: &str) -> Result<(), Box<dyn Error>> {
    let mut stores = STORES.lock()?;
    let (mut session, clips) = open(&mut stores)?;
    let mut wav = Wav::create(wav, BARS * BAR)?;
    session.start_capture()?;
    for bar in 0..BARS {
        begin(bar, &mut session, &clips)?;
        for _ in 0..BAR / BLOCK {
            play(&mut session, BLOCK, &mut wav)?;
        }
    }
    let peak = wav.finish()?;

    let mut list = [0; COMMANDS * WORDS];
    let count = session.stop_capture(&mut list)?;
    let mut bytes = [0; tour_bytes(COMMANDS)];
    let length = write_tour(&session.clips(), &list[..count * WORDS], &mut bytes)?;
    fs::write(tour, &bytes[..length])?;
    println!("saved: {count} commands in {length} bytes, peak {peak:.6}");
    Ok(())
}

/// Reads what was saved, or what remains of it.
fn restore(session: &Session, file: &[u8], list: &mut [u64]) -> Result<usize, TourRefusal> {
    read_tour(&session.clips(), file, list).or_else(|refusal| {
        let mut fresh = vec![0; salvage_bytes(file.len())];
        let mut ranges = vec![0; salvage_words(file.len())];
        let salvaged = salvage(file, &mut fresh, &mut ranges)?;
        let count = read_tour(&session.clips(), salvaged.file, list)?;
        println!("saved: {}, {count} commands remain", refusal.fault);
        Ok(count)
    })
}

/// Plays what was saved.
fn again(tour: &str, wav: &str) -> Result<(), Box<dyn Error>> {
    let mut stores = STORES.lock()?;
    let (mut session, _) = open(&mut stores)?;
    let mut list = [0; COMMANDS * WORDS];
    let count = restore(&session, &fs::read(tour)?, &mut list)?;
    let all = Report {
        taken: count,
        full: 0,
        skipped: 0,
    };
    assert_eq!(session.replay(&list[..count * WORDS])?, all);

    let mut wav = Wav::create(wav, BARS * BAR)?;
    let mut left = BARS * BAR;
    for frames in [1, 37, 512, 4_096].into_iter().cycle() {
        let frames = frames.min(left);
        if frames == 0 {
            break;
        }
        play(&mut session, frames, &mut wav)?;
        left -= frames;
    }
    let peak = wav.finish()?;
    println!("saved: {count} commands played again, peak {peak:.6}");
    Ok(())
}

fn main() -> Result<(), Box<dyn Error>> {
    let words: Vec<String> = std::env::args().skip(1).collect();
    let words: Vec<&str> = words.iter().map(String::as_str).collect();
    match words[..] {
        [tour, wav] => live(tour, wav),
        [tour, wav, "again"] => again(tour, wav),
        _ => Err("saved TOUR WAV [again]".into()),
    }
}
