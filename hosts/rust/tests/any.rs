//! Any arguments: long runs of calls made by dice, by a host that keeps its session and by one that changes it by hand.

mod common;
#[path = "common/dice.rs"]
mod dice;

use common::{ByHand, PAIR, RATE};
use dice::Dice;
use threshreed::{
    At, ClockFrame, Command, Handle, LoopRange, Mode, Refusal, Ring, Session, Snapshot, Song,
    SongFrame, State, Stinger, Stores, WORDS, raw, read_tour, tour_bytes, write_tour,
};

impl Dice {
    /// Mostly small, now and then anything.
    fn count(&mut self) -> u64 {
        match self.below(8) {
            0 => self.word(),
            _ => self.below(64),
        }
    }

    /// Mostly a mode, now and then any number.
    fn mode(&mut self) -> u32 {
        match self.below(8) {
            0 => self.count() as u32,
            n => n as u32 % 2,
        }
    }

    /// Mostly a gain, now and then any bits.
    fn gain(&mut self) -> f32 {
        match self.below(8) {
            0 => f32::from_bits(self.word() as u32),
            _ => self.below(9) as f32 / 4.0,
        }
    }

    fn samples(&mut self) -> Vec<f32> {
        (0..self.below(40)).map(|_| self.gain()).collect()
    }

    fn at(&mut self, clock: ClockFrame) -> At {
        match self.below(3) {
            0 => At::Immediate,
            1 => At::Frame(ClockFrame(clock.0.wrapping_add(self.count()))),
            _ => At::Song(SongFrame(self.count())),
        }
    }

    fn range(&mut self) -> LoopRange {
        LoopRange {
            start: SongFrame(self.count()),
            end: SongFrame(self.count()),
        }
    }

    fn of<T: Copy>(&mut self, list: &[T]) -> T {
        list[self.below(list.len() as u64) as usize]
    }

    fn command(&mut self, handles: &[Handle]) -> Command {
        match self.below(9) {
            0 => Command::Pause,
            1 => Command::Stop,
            2 => Command::Seek(SongFrame(self.count())),
            3 => Command::Loop(self.range()),
            4 => Command::ClearLoop,
            5 => Command::Gain(self.gain()),
            6 => Command::Swap(self.of(handles)),
            7 => Command::Stinger(self.of(handles), self.gain()),
            _ => Command::Play,
        }
    }
}

/// The frames that fit the ring of a session.
const RING: usize = 8;

/// One call of a session or of its ring, with any arguments.
fn step(
    session: &mut Session,
    ring: &mut Ring<{ 2 * RING + 1 }>,
    dice: &mut Dice,
    handles: &mut Vec<Handle>,
) -> Result<(), Refusal> {
    let at = dice.at(session.clock());
    match dice.below(14) {
        0 => {
            let samples = dice.samples();
            let song = Song {
                length: SongFrame(dice.count()),
                ..Song::new(&samples, RATE)
            };
            session.load_song(song).map(|x| handles.push(x))
        }
        1 => {
            let samples = dice.samples();
            let stinger = Stinger {
                samples: &samples,
                rate: RATE,
            };
            session.load_stinger(stinger).map(|x| handles.push(x))
        }
        2 => session.retire(dice.of(handles)),
        3 => session.transition(SongFrame(dice.count()), at).map(drop),
        4 => {
            let list: Vec<u64> = (0..dice.below(20)).map(|_| dice.count()).collect();
            session.replay(&list).map(drop)
        }
        5 => session.start_capture(),
        6 => {
            let mut list = vec![0; dice.below(50) as usize];
            let copied = session.stop_capture(&mut list)?;
            save(session, &list[..copied * WORDS]);
            Ok(())
        }
        7 => {
            let snapshot = Snapshot {
                position: SongFrame(dice.count()),
                state: dice.of(&[State::Stopped, State::Playing, State::Paused]),
                gain: dice.gain(),
                looped: dice.of(&[true, false]).then(|| dice.range()),
            };
            session.apply_snapshot(snapshot)
        }
        8 => session.submit(dice.command(handles), at).map(drop),
        9 => {
            let (clock, held, asked) = (session.clock().0, ring.held(), dice.count() as usize);
            let pumped = ring.pump(session, asked)?;
            assert_eq!(pumped.frames, asked.min(RING - held));
            assert_eq!(ring.held(), held + pumped.frames);
            assert!(pumped.passes <= 2 * pumped.frames as u64);
            assert_eq!(session.clock().0, clock + pumped.frames as u64);
            Ok(())
        }
        10 => {
            let mut out = vec![f32::NAN; dice.below(3 * RING as u64) as usize];
            let held = ring.held();
            let taken = ring.drain(&mut out)?;
            assert_eq!(taken, held.min(out.len() / 2));
            assert_eq!(ring.held(), held - taken);
            assert!(out.iter().all(|x| x.is_finite()));
            assert!(out[2 * taken..].iter().all(|x| x.to_bits() == 0));
            Ok(())
        }
        _ => {
            let mut out = vec![f32::NAN; dice.below(80) as usize];
            let clock = session.clock().0;
            let passes = session.block(&mut out)?;
            // At most two a frame.
            assert!(passes <= out.len() as u64);
            assert_eq!(session.clock().0, clock + out.len() as u64 / 2);
            assert!(out.iter().all(|x| x.is_finite()));
            Ok(())
        }
    }
}

/// What a capture kept can be saved as it stops, and is read back as it was.
fn save(session: &Session, list: &[u64]) {
    let mut file = vec![0; tour_bytes(list.len() / WORDS)];
    let mut again = vec![0; list.len()];
    let length = write_tour(&session.clips(), list, &mut file).unwrap();
    let read = read_tour(&session.clips(), &file[..length], &mut again);
    assert_eq!((read, &again[..]), (Ok(list.len() / WORDS), list));
}

/// A host that keeps its session never sees it refused as not well formed.
#[test]
fn calls_with_any_arguments() {
    let mut dice = Dice(0x9E37_79B9_7F4A_7C15);
    let mut seen = [false; 256];
    for _ in 0..50 {
        let mut stores = Stores::<6, 4, 64>::new();
        let mode = dice.of(&[Mode::AsTono, Mode::House]);
        let song = Song::new(&[0.5; 8], RATE);
        let mut session = stores.open_in(mode, RATE, song).unwrap();
        let mut handles = vec![session.song()];
        let mut ring = Ring::new();
        for _ in 0..470 {
            let number = match step(&mut session, &mut ring, &mut dice, &mut handles) {
                Ok(()) => 0,
                Err(refusal) => refusal.number(),
            };
            seen[number as usize] = true;
            assert_eq!(session.metrics().unwrap().rendered, session.clock().0);
            assert_eq!(session.snapshot().unwrap().state, session.state());
            assert!(session.is_live(session.song()));
            assert_eq!(session.mode(), mode);
            assert!(session.loop_range().is_some() || session.laps() == 0);
        }
    }
    // The rest is out of such a host's reach, or asks for larger stores (8, 17) or a second rate (13).
    assert!(seen[0]);
    let numbers = Refusal::ALL.map(Refusal::number).into_iter();
    let unseen: Vec<u32> = numbers.filter(|&n| !seen[n as usize]).collect();
    assert_eq!(unseen, [1, 2, 4, 8, 9, 13, 17, 18, 21, 23, 255]);
}

/// An opening in any mode: 0 and 1 are taken, any other is out of range.
#[test]
fn openings_in_any_mode() {
    let mut dice = Dice(0xD134_2543_DE82_EF95);
    for _ in 0..20_000 {
        let settings = raw::Settings {
            mode: dice.mode(),
            ..ByHand::open().session.settings
        };
        let (queue, mut pool) = ([0; 2 * WORDS], [0.0; 8]);
        let opened = raw::open(settings, &queue, &[], &mut pool, &PAIR, RATE, 1);
        let taken = settings.mode < 2;
        assert_eq!(opened.refusal, if taken { 0 } else { 7 });
        assert_eq!(opened.session.settings == settings, taken);
    }
}

/// A session with any word of it changed is refused or plays; the library touches nothing that it is not lent.
#[test]
fn sessions_changed_by_hand() {
    const WHOLE: usize = size_of::<raw::Session>() / 8;
    let mut dice = Dice(0x2545_F491_4F6C_DD1D);
    let mut refused = 0;
    for _ in 0..20_000 {
        let mut opened = ByHand::open();
        opened.session.settings.mode = dice.mode();
        for _ in 0..1 + dice.below(3) {
            let place = dice.below(WHOLE as u64) as usize;
            let word = dice.count();
            // Every field is a number of 4 or 8 bytes, so that any word can lie anywhere.
            unsafe {
                (&raw mut opened.session)
                    .cast::<u64>()
                    .add(place)
                    .write(word)
            };
        }
        for word in &mut opened.queue {
            *word = dice.count();
        }
        let mut out = [9.0; 3 * 16];
        let answered = opened.block(&mut out[16..32]);
        assert!(answered.refusal <= 4);
        refused += usize::from(answered.refusal == 1);
        assert_eq!(out[..16], [9.0; 16]);
        assert_eq!(out[32..], [9.0; 16]);

        // The block of 8 frames that a ring of 17 samples takes.
        let mut store = [9.0; 3 * 17];
        let ring = raw::Ring { head: 0, tail: 0 };
        let (s, q, c, p) = (opened.session, &opened.queue, &opened.capture, &opened.pool);
        let pumped = raw::pump(s, q, c, p, ring, &mut store[17..34], 8);
        assert_eq!(pumped.refusal, answered.refusal);
        assert_eq!(store[..17], [9.0; 17]);
        assert_eq!(store[34..], [9.0; 17]);
    }
    assert!((1..20_000).contains(&refused));
}

/// A ring of any places over a store of any few samples is refused or plays; the library touches nothing that it is not
/// lent.
#[test]
fn rings_changed_by_hand() {
    let mut dice = Dice(0x5851_F42D_4C95_7F2D);
    let opened = ByHand::open();
    let (s, q, c, p) = (opened.session, &opened.queue, &opened.capture, &opened.pool);
    let mut refused = 0;
    for _ in 0..20_000 {
        let ring = raw::Ring {
            head: dice.count() as usize,
            tail: dice.count() as usize,
        };
        let [samples, length] = [64, 64].map(|n| dice.below(n) as usize);
        let frames = dice.count() as usize;
        let good = samples >= 3 && ring.head.max(ring.tail) < samples;
        let number = if good { 0 } else { Refusal::BadRing.number() };
        refused += usize::from(!good);

        let (mut store, mut out) = ([9.0; 3 * 64], [9.0; 3 * 64]);
        let lent = &mut store[64..64 + samples];
        let pumped = raw::pump(s, q, c, p, ring, lent, frames);
        assert_eq!(pumped.refusal, number);
        assert_eq!(store[..64], [9.0; 64]);
        assert!(store[64 + samples..].iter().all(|x| *x == 9.0));

        let drained = raw::drain(ring, &store[64..64 + samples], &mut out[64..64 + length]);
        assert_eq!(drained.refusal, number);
        assert_eq!(out[..64], [9.0; 64]);
        assert!(out[64 + length..].iter().all(|x| *x == 9.0));
    }
    assert!((1..20_000).contains(&refused));
}
