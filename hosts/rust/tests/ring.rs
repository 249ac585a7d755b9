//! Pumps and drains, by the exported functions and by the safe types: each refusal and that it changes nothing, each ring
//! over a small store, and what is heard beside the blocks of the same session.

mod common;
#[path = "common/dice.rs"]
mod dice;
#[path = "common/noise.rs"]
mod noise;

use std::sync::Mutex;

use common::{ByHand, PAIR, RATE};
use dice::Dice;
use noise::noise;
use threshreed::Refusal::{BadRing, ClockSpent, NotWellFormed, PoolLength};
use threshreed::raw::{self, Drained};
use threshreed::{
    At, ClockFrame, Command, LoopRange, Mode, Pumped, Ring, Session, Snapshot, Song, SongFrame,
    Stinger, Stores,
};

/// Where the clock ends.
const END: u64 = 1 << 62;

fn ring(head: usize, tail: usize) -> raw::Ring {
    raw::Ring { head, tail }
}

fn bits(samples: &[f32]) -> Vec<u32> {
    samples.iter().map(|x| x.to_bits()).collect()
}

/// Every ring over so many samples.
fn rings(samples: usize) -> impl Iterator<Item = raw::Ring> {
    (0..samples * samples).map(move |n| ring(n / samples, n % samples))
}

/// How many samples wait in a ring over so many.
fn held(samples: usize, ring: raw::Ring) -> usize {
    (ring.tail + samples - ring.head) % samples
}

impl ByHand {
    /// The song of one frame plays in a loop, and comes round each frame.
    fn playing() -> ByHand {
        let mut opened = ByHand::open();
        opened.session.state = 1;
        opened.session.looped = raw::Loop {
            set: 1,
            start: 0,
            end: 1,
        };
        opened
    }

    fn pump(&self, ring: raw::Ring, store: &mut [f32], frames: usize) -> raw::Pumped {
        let ByHand {
            session,
            queue,
            capture,
            pool,
        } = self;
        raw::pump(*session, queue, capture, pool, ring, store, frames)
    }

    /// The number of a pump of one frame. If it is refused, store, ring and session are as they were.
    fn number(&self, samples: usize, ring: raw::Ring) -> u32 {
        let mut store = vec![9.0; samples];
        let pumped = self.pump(ring, &mut store, 1);
        if pumped.refusal != 0 {
            assert_eq!(store, vec![9.0; samples]);
            let as_it_was = raw::Pumped {
                refusal: pumped.refusal,
                frames: 0,
                passes: 0,
                ring,
                session: self.session,
            };
            assert_eq!(pumped, as_it_was);
        }
        pumped.refusal
    }
}

/// The number of a drain of a block of five samples. If it is refused, block and ring are as they were.
fn drain_number(samples: usize, ring: raw::Ring) -> u32 {
    let mut out = [9.0; 5];
    let drained = raw::drain(ring, &vec![0.5; samples], &mut out);
    if drained.refusal != 0 {
        assert_eq!(out, [9.0; 5]);
        let as_it_was = Drained {
            refusal: drained.refusal,
            frames: 0,
            ring,
        };
        assert_eq!(drained, as_it_was);
    }
    drained.refusal
}

/// 1, then 23, then 2, then 4.
#[test]
fn the_order_of_refusals() {
    let good = ByHand::playing();
    let [mut spoiled, mut spent, mut short] = [(); 3].map(|()| ByHand::playing());
    spent.session.clock = END;
    // Its clip fits a pool of three frames, of which four are lent.
    short.session.settings.pool = 3;
    short.session.clock = END;
    // A state that is none, and all else.
    spoiled.session.state = 3;
    spoiled.session.settings.pool = 3;
    spoiled.session.clock = END;

    let all = [&good, &spent, &short, &spoiled];
    let [one, two, four, bad] =
        [NotWellFormed, PoolLength, ClockSpent, BadRing].map(|refusal| refusal.number());
    for (samples, at) in [
        (0, ring(0, 0)),
        (1, ring(0, 0)),
        (2, ring(0, 0)),
        (2, ring(1, 0)),
        (65_537, ring(0, 0)),
        (65_537, ring(65_536, 65_536)),
        (3, ring(3, 0)),
        (3, ring(0, 3)),
        (3, ring(usize::MAX, usize::MAX)),
        (1_025, ring(1_025, 1_024)),
        (65_536, ring(65_536, 0)),
        (65_536, ring(0, 65_536)),
        (65_536, ring(0, usize::MAX)),
    ] {
        let answers = all.map(|x| x.number(samples, at));
        assert_eq!(answers, [bad, bad, bad, one], "{samples} samples, {at:?}");
        assert_eq!(drain_number(samples, at), bad);
    }
    for (samples, at) in [
        (3, ring(0, 0)),
        (3, ring(2, 2)),
        (1_025, ring(1_024, 4)),
        (65_536, ring(0, 0)),
        (65_536, ring(65_535, 65_533)),
    ] {
        let full = held(samples, at) + 2 >= samples;
        let answers = all.map(|x| x.number(samples, at));
        let clock = if full { 0 } else { four };
        assert_eq!(answers, [0, clock, two, one], "{samples} samples, {at:?}");
        assert_eq!(drain_number(samples, at), 0);
    }
}

/// Every ring over a few samples, near the clock's end: a pump is a block of the frames made, refused where the block is,
/// and pushed from the tail on.
#[test]
fn a_pump_is_a_block_of_the_frames_made() {
    for samples in 3..=9 {
        for at in rings(samples) {
            for asked in [0, 1, 2, 3, usize::MAX] {
                for left in 0..=3 {
                    pump_is_block(samples, at, asked, left);
                }
            }
        }
    }
}

fn pump_is_block(samples: usize, at: raw::Ring, asked: usize, left: u64) {
    let mut opened = ByHand::playing();
    opened.session.clock = END - left;
    let free = samples - 1 - held(samples, at);
    let frames = asked.min(free / 2);
    let mut out = vec![9.0; 2 * frames];
    let made = opened.block(&mut out);
    assert_eq!(made.refusal, if frames as u64 > left { 4 } else { 0 });

    let mut expected = vec![7.0; samples];
    let mut answer = raw::Pumped {
        refusal: made.refusal,
        frames: 0,
        passes: made.passes,
        ring: at,
        session: made.session,
    };
    if made.refusal == 0 {
        for (place, sample) in out.iter().enumerate() {
            expected[(at.tail + place) % samples] = *sample;
        }
        answer.frames = frames;
        answer.ring.tail = (at.tail + 2 * frames) % samples;
    }
    let mut store = vec![7.0; samples];
    let pumped = opened.pump(at, &mut store, asked);
    assert_eq!(pumped, answer, "{asked} asked of {at:?}");
    assert_eq!(store, expected, "{asked} asked of {at:?}");
}

/// Every ring over a few samples, an odd count of them among those that wait: whole frames, then silence.
#[test]
fn a_drain_takes_whole_frames() {
    for samples in 3..=9 {
        let store: Vec<f32> = (1..=samples).map(|n| n as f32).collect();
        for at in rings(samples) {
            for length in 0..=2 * samples {
                let frames = (held(samples, at) / 2).min(length / 2);
                let mut expected = vec![0.0; length];
                for (place, sample) in expected[..2 * frames].iter_mut().enumerate() {
                    *sample = store[(at.head + place) % samples];
                }
                let mut out = vec![-9.0; length];
                let drained = raw::drain(at, &store, &mut out);
                assert_eq!(bits(&out), bits(&expected), "{at:?}");
                let answer = Drained {
                    refusal: 0,
                    frames,
                    ring: ring((at.head + 2 * frames) % samples, at.tail),
                };
                assert_eq!(drained, answer, "{at:?}");
            }
        }
    }
}

/// By hand alone three samples can wait: one frame is taken, one sample is left, and no block takes it.
#[test]
fn three_samples_that_wait() {
    let store = [0.1, 0.2, 0.3, 0.4, 0.5];
    let mut out = [9.0; 5];
    let drained = raw::drain(ring(3, 1), &store, &mut out);
    assert_eq!((drained.frames, drained.ring), (1, ring(0, 1)));
    assert_eq!(bits(&out), bits(&[0.4, 0.5, 0.0, 0.0, 0.0]));
    let drained = raw::drain(drained.ring, &store, &mut out);
    assert_eq!((drained.frames, drained.ring), (0, ring(0, 1)));
    assert_eq!(bits(&out), bits(&[0.0; 5]));
}

type Small = Stores<8, 0, 1_024>;

/// Plays the song of one frame, which stops after it.
fn one_frame(stores: &mut Small) -> Session<'_> {
    let mut session = stores.open(RATE, Song::new(&PAIR, RATE)).unwrap();
    session.submit(Command::Play, At::Immediate).unwrap();
    session
}

#[test]
fn a_ring_of_another_size() {
    static SMALL: Mutex<Ring<2>> = Mutex::new(Ring::new());
    static LARGE: Mutex<Ring<65_537>> = Mutex::new(Ring::new());
    static LEAST: Mutex<Ring<3>> = Mutex::new(Ring::new());
    static MOST: Mutex<Ring<65_536>> = Mutex::new(Ring::new());
    let mut stores = Small::new();
    let mut session = one_frame(&mut stores);
    let mut out = [9.0; 2];
    let pumped = SMALL.lock().unwrap().pump(&mut session, 1);
    assert_eq!(pumped, Err(BadRing));
    let pumped = LARGE.lock().unwrap().pump(&mut session, 1);
    assert_eq!(pumped, Err(BadRing));
    assert_eq!(SMALL.lock().unwrap().drain(&mut out), Err(BadRing));
    assert_eq!(LARGE.lock().unwrap().drain(&mut out), Err(BadRing));
    assert_eq!((out, session.clock()), ([9.0; 2], ClockFrame(0)));

    let made = |frames| Ok(Pumped { frames, passes: 0 });
    let pumped = LEAST.lock().unwrap().pump(&mut session, 40_000);
    assert_eq!(pumped, made(1));
    assert_eq!(LEAST.lock().unwrap().drain(&mut out), Ok(1));
    assert_eq!(out, PAIR);
    let pumped = MOST.lock().unwrap().pump(&mut session, 40_000);
    assert_eq!(pumped, made(32_767));
    assert_eq!(MOST.lock().unwrap().held(), 32_767);
}

#[test]
fn a_full_ring() {
    let (mut stores, mut ring) = (Small::new(), Ring::<8>::new());
    let (mut pump, mut callback) = ring.split(one_frame(&mut stores));
    let made = |frames| Ok(Pumped { frames, passes: 0 });
    assert_eq!(pump.pump(2), made(2));
    // One place always stays empty, and of an even store another.
    assert_eq!(pump.pump(2), made(1));
    assert_eq!(pump.pump(2), made(0));
    assert_eq!((pump.held(), pump.clock()), (3, ClockFrame(3)));
    assert_eq!(callback.drain(&mut [9.0; 2]), Ok(1));
    assert_eq!((pump.held(), callback.held()), (2, 2));
    assert_eq!(pump.pump(usize::MAX), made(1));
    assert_eq!(pump.clock(), ClockFrame(4));
}

/// The asking may be cut where no drain comes between: one that does makes room.
#[test]
fn a_drain_between_two_pumps() {
    let made = |between: bool| {
        let (mut stores, mut ring) = (Small::new(), Ring::<3>::new());
        let (mut pump, mut callback) = ring.split(one_frame(&mut stores));
        let first = pump.pump(1).unwrap().frames;
        if between {
            callback.drain(&mut [9.0; 2]).unwrap();
        }
        first + pump.pump(1).unwrap().frames
    };
    assert_eq!((made(false), made(true)), (1, 2));
}

#[test]
fn an_underrun() {
    let (mut stores, mut ring) = (Small::new(), Ring::<9>::new());
    let (mut pump, mut callback) = ring.split(one_frame(&mut stores));
    let mut out = [-9.0; 5];
    assert_eq!(callback.drain(&mut out), Ok(0));
    assert_eq!(bits(&out), bits(&[0.0; 5]));
    pump.pump(1).unwrap();
    // A block of one sample takes nothing.
    assert_eq!(callback.drain(&mut out[..1]), Ok(0));
    assert_eq!((out[0].to_bits(), callback.held()), (0, 1));
    assert_eq!(callback.drain(&mut out), Ok(1));
    assert_eq!(bits(&out), bits(&[0.5, -0.5, 0.0, 0.0, 0.0]));
    assert_eq!((callback.held(), pump.held()), (0, 0));
}

/// What waits is still there for the next session.
#[test]
fn a_ring_that_is_split_again() {
    let (mut stores, mut ring) = (Small::new(), Ring::<9>::new());
    let (mut pump, _) = ring.split(one_frame(&mut stores));
    pump.pump(1).unwrap();
    assert_eq!(ring.held(), 1);
    let (mut pump, mut callback) = ring.split(one_frame(&mut stores));
    pump.pump(1).unwrap();
    let mut out = [9.0; 4];
    assert_eq!(callback.drain(&mut out), Ok(2));
    assert_eq!(out, [0.5, -0.5, 0.5, -0.5]);
}

/// How many frames are heard below.
const FRAMES: usize = 2_000;

/// A loop that comes round, a bell, a ride, and a swap under a low master to a song past its loop, so that the modes sound
/// otherwise.
fn begun(stores: &mut Small, mode: Mode) -> Session<'_> {
    let room = noise(1, 300);
    let mut session = stores.open_in(mode, RATE, Song::new(&room, RATE)).unwrap();
    let hall = session.load_song(Song::new(&noise(2, 400), RATE)).unwrap();
    let bell = session.load_stinger(Stinger {
        samples: &noise(3, 150),
        rate: RATE,
    });
    let looped = |start, end| {
        let (start, end) = (SongFrame(start), SongFrame(end));
        Command::Loop(LoopRange { start, end })
    };
    for (command, frame) in [
        (Command::Play, 0),
        (looped(5, 40), 0),
        (Command::Stinger(bell.unwrap(), 0.5), 10),
        (Command::Gain(0.25), 20),
        (Command::Swap(hall), 301),
        (looped(3, 10), 302),
        (Command::Seek(SongFrame(33)), 303),
    ] {
        let at = At::Frame(ClockFrame(frame));
        session.submit(command, at).unwrap();
    }
    session
}

/// What is heard, how often a loop came round, and how the session stands then.
type Heard = (Vec<u32>, u64, Snapshot, u64);

/// One block.
fn whole(mode: Mode) -> Heard {
    let mut stores = Small::new();
    let mut session = begun(&mut stores, mode);
    let mut out = vec![9.0; 2 * FRAMES];
    let passes = session.block(&mut out).unwrap();
    let left = session.snapshot().unwrap();
    (bits(&out), passes, left, session.laps())
}

/// Pumps and drains by dice, through a ring of so many samples.
fn portions<const SAMPLES: usize>(mode: Mode, dice: &mut Dice) -> Heard {
    let (mut stores, mut ring) = (Small::new(), Ring::<SAMPLES>::new());
    let (mut pump, mut callback) = ring.split(begun(&mut stores, mode));
    let (mut made, mut passes, mut heard) = (0, 0, Vec::new());
    let most = SAMPLES as u64 + 4;
    while heard.len() < 2 * FRAMES {
        if dice.below(2) == 0 {
            let asked = (dice.below(most) as usize).min(FRAMES - made);
            let free = (SAMPLES - 1) / 2 - pump.held();
            let pumped = pump.pump(asked).unwrap();
            assert_eq!(pumped.frames, asked.min(free));
            made += pumped.frames;
            passes += pumped.passes;
        } else {
            let mut out = vec![-9.0; dice.below(most) as usize];
            let waits = callback.held();
            let taken = callback.drain(&mut out).unwrap();
            assert_eq!(taken, waits.min(out.len() / 2));
            let (sound, silence) = out.split_at(2 * taken);
            heard.extend(bits(sound));
            assert!(silence.iter().all(|x| x.to_bits() == 0));
        }
    }
    let left = pump.snapshot().unwrap();
    (heard, passes, left, pump.laps())
}

/// Through odd stores, over whose end every other round a frame lies, and through even ones.
#[test]
fn portions_are_heard_as_one_block() {
    let mut dice = Dice(0x9E37_79B9_7F4A_7C15);
    for mode in [Mode::AsTono, Mode::House] {
        let block = whole(mode);
        assert!(block.1 > 0);
        for _ in 0..8 {
            assert_eq!(portions::<3>(mode, &mut dice), block);
            assert_eq!(portions::<4>(mode, &mut dice), block);
            assert_eq!(portions::<5>(mode, &mut dice), block);
            assert_eq!(portions::<6>(mode, &mut dice), block);
            assert_eq!(portions::<7>(mode, &mut dice), block);
            assert_eq!(portions::<9>(mode, &mut dice), block);
            assert_eq!(portions::<1_024>(mode, &mut dice), block);
            assert_eq!(portions::<1_025>(mode, &mut dice), block);
        }
    }
    assert_ne!(whole(Mode::AsTono).0, whole(Mode::House).0);
}
