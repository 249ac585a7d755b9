//! Every call on a thread with as little stack as the crate's documentation says.

use std::sync::Mutex;
use std::thread;

use threshreed::{
    At, ClockFrame, Command, DryRunSheet, ListedClip, LoopRange, Mode, Refusal, Ring, Song,
    SongFrame, Stinger, Stores, WORDS, dry_run, read_tour, salvage, salvage_bytes, salvage_words,
    tour_bytes, write_tour,
};

const RATE: u32 = 48_000;

static STORES: Mutex<Stores<64, 64, 1_024>> = Mutex::new(Stores::new());
static RING: Mutex<Ring<127>> = Mutex::new(Ring::new());
static SHEET: Mutex<DryRunSheet> = Mutex::new(DryRunSheet::new());
static CLIP: [f32; 512] = [0.25; 512];

/// The clips that are loaded where the capture stops.
static LIST: [ListedClip; 3] = [listed(0, true), listed(1, true), listed(2, false)];

const fn listed(slot: u32, is_song: bool) -> ListedClip {
    ListedClip {
        slot,
        serial: slot + 1,
        rate: RATE,
        frames: 256,
        length: if is_song { Some(SongFrame(256)) } else { None },
    }
}

/// A session with a command of every kind, as many voices as there can be, a tail and a capture.
fn every_call(mode: Mode) -> Result<(), Refusal> {
    let mut stores = STORES.lock().unwrap();
    let mut session = stores.open_in(mode, RATE, Song::new(&CLIP, RATE))?;
    let hall = session.load_song(Song::new(&CLIP, RATE))?;
    let stinger = Stinger {
        samples: &CLIP,
        rate: RATE,
    };
    let bell = session.load_stinger(stinger)?;
    let spare = session.load_stinger(stinger)?;
    session.start_capture()?;
    let range = LoopRange {
        start: SongFrame(8),
        end: SongFrame(100),
    };
    for command in [
        Command::Play,
        Command::Pause,
        Command::Stop,
        Command::Seek(SongFrame(5)),
        Command::Loop(range),
        Command::ClearLoop,
        Command::Gain(0.5),
        Command::Swap(hall),
        Command::Play,
    ] {
        session.submit(command, At::Song(SongFrame(3)))?;
    }
    for _ in 0..16 {
        session.submit(Command::Stinger(bell, 0.5), At::Frame(ClockFrame(1)))?;
    }
    session.transition(SongFrame(7), At::Immediate)?;
    session.transition(SongFrame(9), At::Immediate)?;
    session.retire(spare)?;
    let mut out = [0.0; 64];
    for _ in 0..4 {
        session.block(&mut out)?;
    }
    let mut ring = RING.lock().unwrap();
    for _ in 0..4 {
        ring.pump(&mut session, 48)?;
        ring.drain(&mut out)?;
    }
    let mut list = [0; 32 * WORDS];
    let copied = session.stop_capture(&mut list)?;
    let mut file = [0; tour_bytes(32)];
    let length = write_tour(&session.clips(), &list[..copied * WORDS], &mut file).unwrap();
    let mut fresh = vec![0; salvage_bytes(length)];
    let mut ranges = vec![0; salvage_words(length)];
    let salvaged = salvage(&file[..length], &mut fresh, &mut ranges).unwrap();
    let read = read_tour(&session.clips(), salvaged.file, &mut list).unwrap();
    let mut sheet = SHEET.lock().unwrap();
    let told = dry_run(mode, &LIST, salvaged.file, &[[675_000, 512]], &mut sheet).unwrap();
    assert_eq!(told.records().len(), read);
    session.replay(&list[..read * WORDS])?;
    let snapshot = session.snapshot()?;
    session.apply_snapshot(snapshot)?;
    session.metrics().map(drop)
}

#[test]
fn a_small_stack_is_enough() {
    for mode in [Mode::AsTono, Mode::House] {
        let small = thread::Builder::new().stack_size(64 * 1024);
        let called = small.spawn(move || every_call(mode)).unwrap();
        assert_eq!(called.join().unwrap(), Ok(()));
    }
}
