//! Both modes: a swap's tail, sample by sample beside plain arithmetic, and a song whose position is past its loop.

#[path = "common/noise.rs"]
mod noise;

use noise::noise;
use threshreed::{
    At, ClockFrame, Command, LoopRange, Mode, Snapshot, Song, SongFrame, Stinger, Stores,
};

const RATE: u32 = 48_000;

/// More frames than a tail has.
const FRAMES: usize = 1_200;

/// Where the master turns to another gain.
const TURN: usize = 300;

/// From a gain to a gain; the first ones rest. Some round every product, one silences the song.
const MASTERS: [(f32, f32); 8] = [
    (1.0, 1.0),
    (0.25, 0.25),
    (0.3, 0.3),
    (0.0, 0.0),
    (1.7, 1.7),
    (1.0, 0.25),
    (0.3, 1.1),
    (2.0, 0.0),
];

/// What blocks of these lengths sound as: from the first frame on a swap, and a bell over it.
fn heard(mode: Mode, (from, to): (f32, f32), lengths: &[usize]) -> Vec<u32> {
    let mut stores = Stores::<8, 0, { 3 * FRAMES }>::new();
    let room = noise(1, FRAMES);
    let mut session = stores.open_in(mode, RATE, Song::new(&room, RATE)).unwrap();
    assert_eq!(session.mode(), mode);
    let hall = session
        .load_song(Song::new(&noise(2, FRAMES), RATE))
        .unwrap();
    let bell = Stinger {
        samples: &noise(3, FRAMES),
        rate: RATE,
    };
    let bell = session.load_stinger(bell).unwrap();
    let opened = session.snapshot().unwrap();
    let resting = Snapshot {
        gain: from,
        ..opened
    };
    session.apply_snapshot(resting).unwrap();
    for command in [Command::Swap(hall), Command::Stinger(bell, 1.0)] {
        session.submit(command, At::Immediate).unwrap();
    }
    if to != from {
        let turn = At::Frame(ClockFrame(TURN as u64));
        session.submit(Command::Gain(to), turn).unwrap();
    }
    let block = |&frames: &usize| {
        let mut out = vec![9.0; 2 * frames];
        session.block(&mut out).unwrap();
        out
    };
    lengths.iter().flat_map(block).map(f32::to_bits).collect()
}

/// The same by the rules: song × g, plus the tail's share, plus the bell.
fn expected((from, to): (f32, f32), share: fn(f32, f32, f32) -> f32) -> Vec<u32> {
    let (room, hall, bell) = (noise(1, FRAMES), noise(2, FRAMES), noise(3, FRAMES));
    let step = (to - from) / 256.0;
    let mut g = from;
    let mut samples = Vec::new();
    for frame in 0..FRAMES {
        g = match frame {
            ..TURN => from,
            _ if frame < TURN + 255 => g + step,
            _ => to,
        };
        let w = 1_023usize.saturating_sub(frame) as f32 / 1_024.0;
        for place in [2 * frame, 2 * frame + 1] {
            let sample = (hall[place] * g + share(room[place], g, w)) + bell[place];
            samples.push(sample.to_bits());
        }
    }
    samples
}

#[test]
fn as_tono_the_tail_ignores_the_master() {
    for master in MASTERS {
        let expected = expected(master, |tail, _, w| tail * w);
        assert_eq!(heard(Mode::AsTono, master, &[FRAMES]), expected);
    }
}

#[test]
fn in_house_mode_the_tail_is_under_the_master() {
    for master in MASTERS {
        let expected = expected(master, |tail, g, w| (tail * g) * w);
        assert_eq!(heard(Mode::House, master, &[FRAMES]), expected);
    }
}

/// What the test above would see: the product in another order.
#[test]
fn the_order_of_the_product_is_heard() {
    for master in [(0.3, 0.3), (1.7, 1.7), (1.0, 0.25), (0.3, 1.1)] {
        let house = expected(master, |tail, g, w| (tail * g) * w);
        assert_ne!(expected(master, |tail, g, w| (tail * w) * g), house);
        assert_ne!(expected(master, |tail, g, w| tail * (g * w)), house);
    }
}

#[test]
fn blocks_of_any_length_make_the_same_sound() {
    for mode in [Mode::AsTono, Mode::House] {
        for master in MASTERS {
            let whole = heard(mode, master, &[FRAMES]);
            let pieces = [TURN, 0, 7, FRAMES - TURN - 7];
            assert_eq!(heard(mode, master, &pieces), whole);
            assert_eq!(heard(mode, master, &[1; FRAMES]), whole);
        }
    }
}

/// Loop 10..14 and position 27, which the first frame takes to 11: which frame of the song sounds, and the position after
/// it. In house mode that is one further, or the loop's start.
#[test]
fn a_song_past_its_loop() {
    let song: Vec<f32> = (0..2 * 32).map(|i| (i / 2) as f32 / 32.0).collect();
    let (start, end) = (SongFrame(10), SongFrame(14));
    for (mode, expected) in [
        (Mode::AsTono, [(10, 12), (11, 13), (12, 10), (10, 11)]),
        (Mode::House, [(11, 12), (12, 13), (13, 10), (10, 11)]),
    ] {
        let mut stores = Stores::<8, 0, 32>::new();
        let mut session = stores.open_in(mode, RATE, Song::new(&song, RATE)).unwrap();
        for command in [
            Command::Loop(LoopRange { start, end }),
            Command::Seek(SongFrame(27)),
            Command::Play,
        ] {
            session.submit(command, At::Immediate).unwrap();
        }
        for (frame, position) in expected {
            let mut out = [9.0; 2];
            session.block(&mut out).unwrap();
            assert_eq!(out, song[2 * frame..][..2]);
            assert_eq!(session.position(), SongFrame(position));
        }
        assert_eq!(session.laps(), 2);
    }
}
