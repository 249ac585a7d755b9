//! A load or a retirement before a block and after it, in both modes: what each answers, the samples, and the session and
//! the stores that they leave.

#[path = "common/noise.rs"]
mod noise;

use noise::noise;
use threshreed::WORDS;
use threshreed::raw::{self, At, Blocked, Command, Handle, Session, Settings};

const RATE: u32 = 48_000;
const QUEUE: usize = 8;
const POOL: usize = 400;

const SONG: u32 = 1;
const STINGER: u32 = 2;

/// Kinds of commands.
const LOOP: u32 = 6;
const GAIN: u32 = 8;
const SWAP: u32 = 9;
const FIRE: u32 = 10;

/// How long a swap's tail sounds.
const TAIL: usize = 1_024;

/// A session with its stores.
#[derive(Clone)]
struct Stand {
    session: Session,
    queue: Vec<u64>,
    capture: Vec<u64>,
    pool: Vec<f32>,
}

/// A call between two blocks.
#[derive(Clone, Debug)]
enum Call {
    /// Samples, kind, extent, rate.
    Load(Vec<f32>, u32, u64, u32),
    Retire(Handle),
}

/// What a call and a block answered, the samples that were heard, and what is left.
#[derive(Debug, PartialEq)]
struct Told {
    refusal: u32,
    handle: Option<Handle>,
    played: (u32, u64),
    heard: Vec<u32>,
    session: Session,
    queue: Vec<u64>,
    capture: Vec<u64>,
    pool: Vec<u32>,
}

fn bits(samples: &[f32]) -> Vec<u32> {
    samples.iter().map(|x| x.to_bits()).collect()
}

impl Stand {
    fn call(&mut self, call: &Call) -> (u32, Option<Handle>) {
        match call {
            Call::Load(samples, kind, extent, rate) => {
                let loaded = raw::load(
                    self.session,
                    &self.queue,
                    &self.capture,
                    &mut self.pool,
                    samples,
                    *kind,
                    *extent,
                    *rate,
                );
                self.session = loaded.session;
                (loaded.refusal, Some(loaded.handle))
            }
            Call::Retire(clip) => {
                let retired = raw::retire(self.session, &self.queue, &self.capture, *clip);
                self.session = retired.session;
                (retired.refusal, None)
            }
        }
    }

    fn block(&mut self, out: &mut [f32]) -> Blocked {
        let made = raw::block(self.session, &self.queue, &self.capture, &self.pool, out);
        self.session = made.session;
        made
    }

    /// Submits a command of a kind for a clock frame. Of the fields the kind takes what it uses.
    fn submit(&mut self, kind: u32, clip: Handle, at: u64) {
        let command = Command {
            kind,
            gain: 0.5,
            clip,
            frame: 2,
            end: 9,
        };
        let at = At { kind: 2, frame: at };
        let submitted = raw::submit(
            self.session,
            &mut self.queue,
            &mut self.capture,
            command,
            at,
        );
        assert_eq!(submitted.refusal, 0);
        self.session = submitted.session;
    }

    fn told(self, (refusal, handle): (u32, Option<Handle>), made: Blocked, out: &[f32]) -> Told {
        Told {
            refusal,
            handle,
            played: (made.refusal, made.passes),
            heard: bits(out),
            session: self.session,
            queue: self.queue,
            capture: self.capture,
            pool: bits(&self.pool),
        }
    }

    /// A call, and then a block of so many samples.
    fn before(&self, call: &Call, samples: usize) -> Told {
        let (mut stand, mut out) = (self.clone(), vec![9.0; samples]);
        let said = stand.call(call);
        let made = stand.block(&mut out);
        stand.told(said, made, &out)
    }

    /// The block, and then the call.
    fn after(&self, call: &Call, samples: usize) -> Told {
        let (mut stand, mut out) = (self.clone(), vec![9.0; samples]);
        let made = stand.block(&mut out);
        let said = stand.call(call);
        stand.told(said, made, &out)
    }
}

/// The clips of a session that has begun.
struct Clips {
    /// The tail.
    porch: Handle,
    /// The song that plays, in a loop.
    hall: Handle,
    /// A voice.
    bell: Handle,
    /// Named by a swap that waits.
    cellar: Handle,
    /// Held by nothing.
    free: Handle,
    /// Retired.
    gone: Handle,
}

/// A tail, a voice, a loop, a ride, and a swap that waits for clock frame 50. The pool has a hole of 30 frames.
fn begun(mode: u32) -> (Stand, Clips) {
    let settings = Settings {
        rate: RATE,
        mode,
        queue: QUEUE,
        capture: 0,
        pool: POOL as u64,
    };
    let (queue, capture) = (vec![0; QUEUE * WORDS], vec![]);
    let mut pool = vec![7.0; 2 * POOL];
    let opened = raw::open(
        settings,
        &queue,
        &capture,
        &mut pool,
        &noise(1, 60),
        RATE,
        60,
    );
    assert_eq!(opened.refusal, 0);
    let mut stand = Stand {
        session: opened.session,
        queue,
        capture,
        pool,
    };
    let mut load = |seed, frames: usize, kind| {
        let call = Call::Load(noise(seed, frames), kind, frames as u64, RATE);
        let (refusal, handle) = stand.call(&call);
        assert_eq!(refusal, 0);
        handle.unwrap()
    };
    let gone = load(2, 30, STINGER);
    let clips = Clips {
        porch: opened.handle,
        hall: load(3, 64, SONG),
        bell: load(4, 40, STINGER),
        cellar: load(5, 64, SONG),
        free: load(6, 20, STINGER),
        gone,
    };
    assert_eq!(stand.call(&Call::Retire(gone)).0, 0);
    stand.submit(SWAP, clips.hall, 0);
    stand.submit(LOOP, clips.hall, 0);
    stand.submit(FIRE, clips.bell, 5);
    stand.submit(GAIN, clips.bell, 5);
    stand.submit(SWAP, clips.cellar, 50);
    assert_eq!(stand.block(&mut [0.0; 2 * 16]).refusal, 0);
    (stand, clips)
}

/// Samples of a block: none, a frame, past where the voice ends, past where the tail does, and an odd count, which is
/// refused.
const BLOCKS: [usize; 5] = [0, 2, 2 * 80, 2 * (80 + TAIL), 7];

#[test]
fn a_load_gives_the_same_in_either_place() {
    for mode in [0, 1] {
        let (stand, _) = begun(mode);
        let free = POOL - 60 - 30 - 64 - 40 - 64 - 20;
        let accepted = [
            Call::Load(noise(7, 30), STINGER, 0, RATE),
            Call::Load(noise(7, 31), SONG, 99, 44_100),
            Call::Load(noise(7, free), SONG, free as u64, RATE),
        ];
        let refused = [
            (Call::Load(vec![0.5; 3], SONG, 1, RATE), 3),
            (Call::Load(vec![], STINGER, 0, RATE), 5),
            (Call::Load(vec![f32::NAN; 2], STINGER, 0, RATE), 6),
            (Call::Load(noise(7, 4), SONG, 3, RATE), 7),
            (Call::Load(noise(7, free + 1), STINGER, 0, RATE), 10),
        ];
        let calls = accepted.map(|call| (call, 0)).into_iter().chain(refused);
        for (call, refusal) in calls {
            for samples in BLOCKS {
                let told = stand.before(&call, samples);
                assert_eq!(told.refusal, refusal);
                assert_eq!(told, stand.after(&call, samples), "{call:?}");
            }
        }
    }
}

#[test]
fn a_retirement_that_is_accepted_before_gives_the_same_in_either_place() {
    for mode in [0, 1] {
        let (stand, clips) = begun(mode);
        for samples in BLOCKS {
            let call = Call::Retire(clips.free);
            let told = stand.before(&call, samples);
            assert_eq!(told.refusal, 0);
            assert_eq!(told, stand.after(&call, samples));
        }
    }
}

/// The voice's clip is free after 80 frames, the tail's where the next swap takes its place. Where a clip is held in
/// both places, or is stale, the two are the same; the sound always is.
#[test]
fn a_retirement_that_is_accepted_after_alone_does_not() {
    for mode in [0, 1] {
        let (stand, clips) = begun(mode);
        for (clip, samples, answers) in [
            (clips.bell, 2, [19, 19]),
            (clips.bell, 2 * 80, [19, 0]),
            (clips.porch, 2 * 30, [19, 19]),
            (clips.porch, 2 * 80, [19, 0]),
            (clips.hall, 2 * 80, [19, 19]),
            (clips.hall, 2 * (80 + TAIL), [19, 0]),
            (clips.cellar, 2 * 80, [19, 19]),
            (clips.gone, 2 * 80, [11, 11]),
        ] {
            let call = Call::Retire(clip);
            let (before, after) = (stand.before(&call, samples), stand.after(&call, samples));
            assert_eq!([before.refusal, after.refusal], answers);
            assert_eq!(before.heard, after.heard);
            assert_eq!(before == after, answers[0] == answers[1]);
        }
    }
}

/// Whichever comes first takes the lower slot, and what lies under the first handle is another clip.
#[test]
fn two_loads_do_not_commute() {
    let (stand, _) = begun(0);
    let [bell, gong] = [7, 8].map(|seed| Call::Load(noise(seed, 4), STINGER, 0, RATE));
    let [(one, first), (other, its)] = [[&bell, &gong], [&gong, &bell]].map(|order| {
        let mut stand = stand.clone();
        let handles = order.map(|call| stand.call(call).1.unwrap());
        (stand, handles)
    });
    assert_eq!(first, its);
    assert_ne!(bits(&one.pool), bits(&other.pool));
}

/// The blocks that are compared above have sound, and the longer ones passes.
#[test]
fn the_blocks_are_heard() {
    for mode in [0, 1] {
        let (mut stand, _) = begun(mode);
        let mut out = [0.0; 2 * 80];
        assert!(stand.block(&mut out).passes > 0);
        assert!(out.iter().all(|x| *x != 0.0));
    }
}
