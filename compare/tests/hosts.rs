//! The static library as a host meets it: a session is a value that a host may spoil, so every call weighs
//! it first. A call that is refused hands back the session's bits and leaves every store as it was.

use compare::clip;
use compare::dice::Dice;
use compare::ours::handle_word;
use compare::script::{NOW, SONG, STINGER, at_frame, kind, mode, plain, state};
use threshreed::raw::{
    self, At, Clip, Command, Handle, Loop, NO_SUCH_CASE, Ramp, Ring, Session, Settings, Snapshot,
};

const RATE: u32 = 48_000;
/// A rate that no session here has.
const OTHER_RATE: u32 = 44_100;
const QUEUE: usize = 8;
const CAPTURE: usize = 8;
const POOL: u64 = 512;

const CALLS: [&str; 12] = [
    "load",
    "retire",
    "submit",
    "transition",
    "replay",
    "block",
    "pump",
    "start capture",
    "stop capture",
    "snapshot",
    "apply snapshot",
    "metrics",
];

/// A session with what its host lends.
#[derive(Clone)]
struct Host {
    session: Session,
    queue: Vec<u64>,
    capture: Vec<u64>,
    pool: Vec<f32>,
}

/// An argument for each call, and the stores that one call writes.
#[derive(Clone)]
struct Arguments {
    samples: Vec<f32>,
    kind: u32,
    extent: u64,
    rate: u32,
    clip: Handle,
    command: Command,
    frame: u64,
    at: At,
    list: Vec<u64>,
    out: Vec<f32>,
    ring: Ring,
    store: Vec<f32>,
    frames: usize,
    snapshot: Snapshot,
}

impl Host {
    /// Makes a call by its name, and gives its refusal.
    fn call(&mut self, name: &str, x: &mut Arguments) -> u32 {
        let (s, q, c, p) = (
            self.session,
            &mut self.queue,
            &mut self.capture,
            &mut self.pool,
        );
        let (refusal, session) = match name {
            "load" => {
                let r = raw::load(s, q, c, p, &x.samples, x.kind, x.extent, x.rate);
                (r.refusal, r.session)
            }
            "retire" => {
                let r = raw::retire(s, q, c, x.clip);
                (r.refusal, r.session)
            }
            "submit" => {
                let r = raw::submit(s, q, c, x.command, x.at);
                (r.refusal, r.session)
            }
            "transition" => {
                let r = raw::transition(s, q, c, x.frame, x.at);
                (r.refusal, r.session)
            }
            "replay" => {
                let r = raw::replay(s, q, c, &x.list);
                (r.refusal, r.session)
            }
            "block" => {
                let r = raw::block(s, q, c, p, &mut x.out);
                assert!(r.refusal == 0 || r.passes == 0);
                (r.refusal, r.session)
            }
            "pump" => {
                let r = raw::pump(s, q, c, p, x.ring, &mut x.store, x.frames);
                assert!(r.refusal == 0 || (r.frames, r.passes, r.ring) == (0, 0, x.ring));
                (r.refusal, r.session)
            }
            "start capture" => {
                let r = raw::start_capture(s, q, c);
                (r.refusal, r.session)
            }
            "stop capture" => {
                let r = raw::stop_capture(s, q, c, &mut x.list);
                (r.refusal, r.session)
            }
            "snapshot" => {
                let r = raw::snapshot(s, q, c);
                (r.refusal, r.session)
            }
            "apply snapshot" => {
                let r = raw::apply_snapshot(s, q, c, x.snapshot);
                (r.refusal, r.session)
            }
            "metrics" => {
                let r = raw::metrics(s, q, c);
                (r.refusal, r.session)
            }
            other => panic!("no call is named {other}"),
        };
        self.session = session;
        refusal
    }

    /// Makes a call on copies and gives its refusal. If it is refused, nothing may have changed but the
    /// dropped count, which 15 raises by 1. Else the session must still be well formed.
    fn refusal(&self, name: &str, arguments: &Arguments) -> u32 {
        let (mut host, mut x) = (self.clone(), arguments.clone());
        let refusal = host.call(name, &mut x);
        if refusal == 0 {
            assert_eq!(host.call("metrics", &mut x), 0, "{name} spoils the session");
            return 0;
        }
        let mut handed_back = host.session;
        if refusal == 15 {
            assert_eq!(handed_back.dropped, self.session.dropped.saturating_add(1));
            handed_back.dropped = self.session.dropped;
        }
        assert!(bits(&handed_back) == bits(&self.session), "{name}: session");
        assert!(host.queue == self.queue, "{name}: queue");
        assert!(host.capture == self.capture, "{name}: capture");
        assert!(
            float_bits(&host.pool) == float_bits(&self.pool),
            "{name}: pool"
        );
        assert!(x.list == arguments.list, "{name}: list");
        assert!(
            float_bits(&x.out) == float_bits(&arguments.out),
            "{name}: output"
        );
        assert!(
            float_bits(&x.store) == float_bits(&arguments.store),
            "{name}: ring"
        );
        refusal
    }

    fn submit(&mut self, command: Command, due: At) {
        let mut x = good_arguments();
        x.command = command;
        x.at = due;
        assert_eq!(self.call("submit", &mut x), 0);
    }

    fn load(&mut self, kind: u32, rate: u32, frames: u64) {
        let mut x = good_arguments();
        x.samples = clip::samples(1, frames);
        x.kind = kind;
        x.extent = frames;
        x.rate = rate;
        assert_eq!(self.call("load", &mut x), 0);
    }

    fn handle(&self, slot: u32) -> Handle {
        let serial = self.session.clips[slot as usize].serial;
        Handle { slot, serial }
    }
}

/// The bits of everything in a session.
fn bits(session: &Session) -> Vec<u64> {
    let mut words = Vec::new();
    for clip in &session.clips {
        words.extend([u64::from(clip.serial), u64::from(clip.kind), clip.extent]);
        words.extend([clip.start, clip.frames, u64::from(clip.rate)]);
    }
    for voice in &session.voices.table {
        words.extend([handle_word(voice.handle), voice.head as u64]);
        words.extend(ramp_bits(voice.gain));
    }
    let Settings {
        rate,
        mode,
        queue,
        capture,
        pool,
    } = session.settings;
    words.extend([queue as u64, capture as u64, pool]);
    words.extend([rate, mode, session.used, session.last, session.state].map(u64::from));
    words.extend([session.clock, session.position, session.cursor]);
    let looped = session.looped;
    words.extend([u64::from(looped.set), looped.start, looped.end]);
    words.extend([session.laps, handle_word(session.song)]);
    words.extend(ramp_bits(session.master));
    let tail = session.tail;
    words.extend([
        u64::from(tail.sounding),
        handle_word(tail.song),
        tail.cursor,
    ]);
    words.extend(ramp_bits(tail.weight));
    let counters = session.counters;
    words.extend([counters.executed, counters.swaps, counters.fired]);
    words.extend([session.voices.count, session.queued, session.deepest].map(|n| n as u64));
    words.extend([session.number, session.dropped]);
    words.extend([u64::from(session.capturing), session.captured as u64]);
    words
}

fn ramp_bits(ramp: Ramp) -> [u64; 4] {
    let [value, target, step] = [ramp.value, ramp.target, ramp.step].map(f32::to_bits);
    [value, target, step, ramp.remaining].map(u64::from)
}

fn float_bits(samples: &[f32]) -> Vec<u32> {
    samples.iter().map(|sample| sample.to_bits()).collect()
}

/// A command of a kind, with something in every field but the clip.
fn filled(kind: u32) -> Command {
    Command {
        gain: 0.5,
        frame: 3,
        end: 9,
        ..plain(kind)
    }
}

/// Arguments that a session with room would take.
fn good_arguments() -> Arguments {
    Arguments {
        samples: clip::samples(7, 4),
        kind: STINGER,
        extent: 4,
        rate: RATE,
        clip: Handle { slot: 4, serial: 5 },
        command: filled(kind::PLAY),
        frame: 2,
        at: NOW,
        list: vec![0; CAPTURE * 5],
        out: vec![f32::NAN; 6],
        ring: Ring { head: 4, tail: 4 },
        store: vec![f32::NAN; 7],
        frames: 3,
        snapshot: Snapshot {
            position: 1,
            state: state::PAUSED,
            gain: 0.5,
            looped: Loop {
                set: 1,
                start: 2,
                end: 5,
            },
        },
    }
}

// The slots of a good session.
const OLD_SONG: u32 = 0;
const PLAYED_SONG: u32 = 1;
const PLAYED_STINGER: u32 = 2;
const FREE_SONG: u32 = 3;
const FREE_STINGER: u32 = 4;
const FOREIGN_SONG: u32 = 5;
const FOREIGN_STINGER: u32 = 6;

const SETTINGS: Settings = Settings {
    rate: RATE,
    mode: mode::AS_TONO,
    queue: QUEUE,
    capture: CAPTURE,
    pool: POOL,
};

/// Opens a session with stores of the right sizes, and gives the refusal.
fn opened(settings: Settings, samples: &[f32], rate: u32, extent: u64) -> (u32, Host) {
    let (queue, capture) = (vec![0; QUEUE * 5], vec![0; CAPTURE * 5]);
    let mut pool = vec![0.0; POOL as usize * 2];
    let opened = raw::open(settings, &queue, &capture, &mut pool, samples, rate, extent);
    let host = Host {
        session: opened.session,
        queue,
        capture,
        pool,
    };
    (opened.refusal, host)
}

/// A session that holds something of every kind: a loop, a tail, two voices, a ride, four queued records
/// (two of one frame) and four captured ones.
fn good() -> Host {
    let (refusal, mut host) = opened(SETTINGS, &clip::samples(1, 50), RATE, 50);
    assert_eq!(refusal, 0);
    host.load(SONG, RATE, 60);
    host.load(STINGER, RATE, 70);
    host.load(SONG, RATE, 20);
    host.load(STINGER, RATE, 30);
    host.load(SONG, OTHER_RATE, 20);
    host.load(STINGER, OTHER_RATE, 20);

    let swap = Command {
        clip: host.handle(PLAYED_SONG),
        ..filled(kind::SWAP)
    };
    let stinger = Command {
        clip: host.handle(PLAYED_STINGER),
        ..filled(kind::STINGER)
    };
    for command in [
        swap,
        stinger,
        stinger,
        filled(kind::LOOP),
        filled(kind::GAIN),
    ] {
        host.submit(command, NOW);
    }
    let mut x = good_arguments();
    assert_eq!(host.call("block", &mut x), 0);
    assert_eq!(host.call("start capture", &mut x), 0);
    let back = Command {
        clip: host.handle(OLD_SONG),
        ..filled(kind::SWAP)
    };
    host.submit(filled(kind::GAIN), at_frame(200));
    host.submit(stinger, at_frame(100));
    host.submit(back, at_frame(100));
    host.submit(filled(kind::SEEK), at_frame(150));

    let s = &host.session;
    assert_eq!((s.queued, s.captured, s.voices.count), (4, 4, 2));
    assert_eq!(
        (s.looped.set, s.tail.sounding, s.state),
        (1, 1, state::PLAYING)
    );
    for name in CALLS {
        assert_eq!(host.refusal(name, &good_arguments()), 0, "{name}");
    }
    host
}

/// The same session with one thing changed.
fn with(change: impl FnOnce(&mut Host)) -> Host {
    let mut host = good();
    change(&mut host);
    host
}

/// The same session in one of the modes.
fn in_a_mode(dice: &mut Dice) -> Host {
    with(|h| h.session.settings.mode = dice.pick(&[mode::AS_TONO, mode::HOUSE]))
}

/// Every call refuses the session with 1, whatever its arguments name.
fn not_well_formed(what: &str, change: impl FnOnce(&mut Host)) {
    let host = with(change);
    for name in CALLS {
        assert_eq!(host.refusal(name, &good_arguments()), 1, "{what}: {name}");
        assert_eq!(host.refusal(name, &caseless()), 1, "{what}: {name}");
    }
}

/// No call refuses the session with 1.
fn well_formed(what: &str, change: impl FnOnce(&mut Host)) {
    let host = with(change);
    for name in CALLS {
        assert_ne!(host.refusal(name, &good_arguments()), 1, "{what}: {name}");
    }
}

/// Arguments that name no case, wherever a case is named, and a ring outside its store.
fn caseless() -> Arguments {
    let mut x = good_arguments();
    x.ring.head = x.store.len();
    x.kind = 0;
    x.command.kind = 0;
    x.at.kind = 0;
    x.snapshot.state = 7;
    x
}

/// The row of a record in a store.
fn row(store: &mut [u64], n: usize) -> &mut [u64] {
    &mut store[n * 5..n * 5 + 5]
}

// In the queue's store the first record that is due lies last.
const GAIN_ROW: usize = 0;
const SEEK_ROW: usize = 1;
const SWAP_ROW: usize = 2;
const STINGER_ROW: usize = 3;

// In the capture's store the records lie as they were submitted.
const GAIN_TAKEN: usize = 0;
const STINGER_TAKEN: usize = 1;
const SWAP_TAKEN: usize = 2;

const FRAME: usize = 0;
const NUMBER: usize = 1;
const KIND: usize = 2;
const FIRST: usize = 3;
const SECOND: usize = 4;

/// 'The numbers above are in range.'
#[test]
fn numbers_in_range() {
    not_well_formed("rate", |h| h.session.settings.rate = 7_999);
    not_well_formed("rate", |h| h.session.settings.rate = 192_001);
    not_well_formed("mode", |h| h.session.settings.mode = 2);
    not_well_formed("mode", |h| h.session.settings.mode = u32::MAX);
    well_formed("mode", |h| h.session.settings.mode = mode::HOUSE);
    not_well_formed("no queue", |h| {
        h.session.settings.queue = 0;
        h.session.queued = 0;
        h.queue.clear();
    });
    not_well_formed("queue", |h| {
        h.session.settings.queue = 4_097;
        h.queue.resize(4_097 * 5, 0);
    });
    not_well_formed("capture", |h| {
        h.session.settings.capture = 4_097;
        h.capture.resize(4_097 * 5, 0);
    });
    not_well_formed("pool", |h| h.session.settings.pool = 33_554_433);
    not_well_formed("no pool", |h| h.session.settings.pool = 0);
    not_well_formed("clock", |h| h.session.clock = (1 << 62) + 1);
    not_well_formed("queued", |h| {
        h.session.queued = QUEUE + 1;
        h.session.number = 100;
    });
    not_well_formed("captured", |h| h.session.captured = CAPTURE + 1);
    not_well_formed("voices", |h| h.session.voices.count = 17);
}

/// 'Store sizes are exactly the capacities'.'
#[test]
fn store_sizes() {
    for words in [0, 1, 5 * QUEUE - 1, 5 * QUEUE + 1, 5 * QUEUE + 5] {
        not_well_formed("queue store", |h| h.queue.resize(words, 0));
        not_well_formed("capture store", |h| h.capture.resize(words, 0));
    }
}

/// 'Used clips lie in the pool, apart, with distinct serials already given.'
#[test]
fn clips() {
    let spoiled = |what: &str, slot: u32, change: &dyn Fn(&mut Clip)| {
        not_well_formed(what, |h| change(&mut h.session.clips[slot as usize]));
    };
    spoiled("no frames", FREE_STINGER, &|clip| clip.frames = 0);
    spoiled("rate", FREE_STINGER, &|clip| clip.rate = 7_999);
    spoiled("rate", FREE_STINGER, &|clip| clip.rate = 192_001);
    spoiled("length", FREE_SONG, &|clip| clip.extent = 19);
    spoiled("length", FREE_SONG, &|clip| clip.extent = (1 << 40) + 1);
    spoiled("room", FOREIGN_STINGER, &|clip| clip.start = POOL - 19);
    spoiled("room", FOREIGN_STINGER, &|clip| clip.start = u64::MAX);
    spoiled("frames", FOREIGN_STINGER, &|clip| clip.frames = u64::MAX);
    spoiled("apart", FOREIGN_STINGER, &|clip| clip.start -= 1);
    spoiled("apart", FREE_SONG, &|clip| clip.start = 0);
    spoiled("serial", FREE_STINGER, &|clip| clip.serial = 0);
    spoiled("serial", FREE_STINGER, &|clip| clip.serial = 8);
    spoiled("serials", FREE_STINGER, &|clip| clip.serial = 4);
    not_well_formed("serials", |h| h.session.last = 6);
    not_well_formed("used", |h| h.session.used |= 1 << 31);
}

/// 'Queue strictly ordered; queued and captured commands readable, gains as 14 allows, numbers from 1 to
/// the last given, rising in the capture.'
#[test]
fn records() {
    let queued = |what: &str, n: usize, word: usize, value: u64| {
        not_well_formed(what, |h| row(&mut h.queue, n)[word] = value);
    };
    queued("order of frames", SEEK_ROW, FRAME, 99);
    queued("order of frames", GAIN_ROW, FRAME, 149);
    queued("order of numbers", STINGER_ROW, NUMBER, 9);
    queued("one frame and number", STINGER_ROW, NUMBER, 8);
    queued("kind", GAIN_ROW, KIND, 0);
    queued("kind", GAIN_ROW, KIND, 11);
    queued("kind", GAIN_ROW, KIND, u64::MAX);
    queued("word of a gain", GAIN_ROW, FIRST, 1 << 32);
    queued("gain", GAIN_ROW, FIRST, u64::from(f32::NAN.to_bits()));
    queued("gain", GAIN_ROW, FIRST, u64::from(f32::INFINITY.to_bits()));
    queued("word of a gain", STINGER_ROW, SECOND, 1 << 32);
    queued("gain", STINGER_ROW, SECOND, u64::from(16.5f32.to_bits()));
    queued("gain", STINGER_ROW, SECOND, u64::from(f32::NAN.to_bits()));
    queued("number", GAIN_ROW, NUMBER, 0);
    queued("number", GAIN_ROW, NUMBER, 10);

    let captured = |what: &str, n: usize, word: usize, value: u64| {
        not_well_formed(what, |h| row(&mut h.capture, n)[word] = value);
    };
    captured("kind", GAIN_TAKEN, KIND, 0);
    captured("kind", GAIN_TAKEN, KIND, 11);
    captured("word of a gain", GAIN_TAKEN, FIRST, 1 << 32);
    captured("gain", GAIN_TAKEN, FIRST, u64::from(f32::NAN.to_bits()));
    captured("gain", STINGER_TAKEN, SECOND, u64::from(16.5f32.to_bits()));
    captured("number", GAIN_TAKEN, NUMBER, 0);
    captured("number", SWAP_TAKEN + 1, NUMBER, 10);
    captured("numbers rise", STINGER_TAKEN, NUMBER, 6);
    captured("numbers rise", STINGER_TAKEN, NUMBER, 9);
}

/// 'Every held handle live, of right kind and rate.'
#[test]
fn handles() {
    type Hold = fn(&mut Host, Handle);
    let songs: [(&str, Hold); 4] = [
        ("song", |h, clip| h.session.song = clip),
        ("tail", |h, clip| h.session.tail.song = clip),
        ("queued", |h, clip| {
            row(&mut h.queue, SWAP_ROW)[FIRST] = handle_word(clip)
        }),
        ("captured", |h, clip| {
            row(&mut h.capture, SWAP_TAKEN)[FIRST] = handle_word(clip)
        }),
    ];
    let stingers: [(&str, Hold); 3] = [
        ("voice", |h, clip| h.session.voices.table[1].handle = clip),
        ("queued", |h, clip| {
            row(&mut h.queue, STINGER_ROW)[FIRST] = handle_word(clip)
        }),
        ("captured", |h, clip| {
            row(&mut h.capture, STINGER_TAKEN)[FIRST] = handle_word(clip)
        }),
    ];
    let refused = |what: &str, hold: Hold, free: u32, wrong_kind: u32, wrong_rate: u32| {
        well_formed(what, |h| hold(h, h.handle(free)));
        not_well_formed(what, |h| hold(h, h.handle(wrong_kind)));
        not_well_formed(what, |h| hold(h, h.handle(wrong_rate)));
        for (slot, serial) in [(free, 99), (free, 0), (7, 0), (32, 4), (u32::MAX, 4)] {
            not_well_formed(what, |h| hold(h, Handle { slot, serial }));
        }
    };
    for (what, hold) in songs {
        refused(what, hold, FREE_SONG, FREE_STINGER, FOREIGN_SONG);
    }
    for (what, hold) in stingers {
        refused(what, hold, FREE_STINGER, FREE_SONG, FOREIGN_STINGER);
    }
}

/// 'Position <= length; a loop as Loop allows.'
#[test]
fn song() {
    not_well_formed("position", |h| h.session.position = 61);
    not_well_formed("position", |h| h.session.position = u64::MAX);
    not_well_formed("empty loop", |h| h.session.looped.start = 9);
    not_well_formed("loop", |h| h.session.looped.end = 61);
}

/// 'Queued stingers + voices <= 16.'
#[test]
fn stingers() {
    let sounding = |h: &mut Host, voices: usize| {
        let voice = h.session.voices.table[0];
        h.session.voices.table = [voice; 16];
        h.session.voices.count = voices;
    };
    well_formed("15 voices and one queued", |h| sounding(h, 15));
    not_well_formed("16 voices and one queued", |h| sounding(h, 16));
}

/// 'Voice heads even, inside clips.'
#[test]
fn heads() {
    not_well_formed("odd", |h| h.session.voices.table[1].head = 7);
    not_well_formed("outside", |h| h.session.voices.table[1].head = 140);
    not_well_formed("outside", |h| {
        h.session.voices.table[0].head = usize::MAX - 1
    });
    well_formed("last frame", |h| h.session.voices.table[1].head = 138);
}

/// 'Remaining <= 256 (master), 1..1024 (tail, target 0), at most the declick (voices); targets in range.'
#[test]
fn ramps() {
    not_well_formed("master", |h| h.session.master.remaining = 257);
    not_well_formed("tail", |h| h.session.tail.weight.remaining = 0);
    not_well_formed("tail", |h| h.session.tail.weight.remaining = 1_025);
    not_well_formed("voice", |h| h.session.voices.table[1].gain.remaining = 97);
    for target in [-0.5, 2.5, f32::INFINITY, f32::NAN] {
        not_well_formed("master", |h| h.session.master.target = target);
    }
    for target in [-0.5, 0.5, f32::NAN] {
        not_well_formed("tail", |h| h.session.tail.weight.target = target);
    }
    for target in [-0.5, 16.5, f32::INFINITY, f32::NAN] {
        not_well_formed("voice", |h| h.session.voices.table[1].gain.target = target);
    }
    well_formed("minus zero", |h| h.session.master.target = -0.0);
}

/// 'Executed + queued <= last number; swaps + stingers fired <= executed', as whole numbers.
#[test]
fn counts() {
    not_well_formed("executed", |h| h.session.counters.executed = 6);
    not_well_formed("executed", |h| h.session.counters.executed = u64::MAX);
    not_well_formed("number", |h| h.session.number = 8);
    not_well_formed("swaps", |h| h.session.counters.swaps = 4);
    not_well_formed("swaps", |h| h.session.counters.swaps = u64::MAX);
    not_well_formed("fired", |h| h.session.counters.fired = 5);
    not_well_formed("fired", |h| h.session.counters.fired = u64::MAX);
}

/// A number that names no case: in a session 1, in an argument 255, after 1. An unused slot need not name a kind.
#[test]
fn cases() {
    not_well_formed("state", |h| h.session.state = 7);
    not_well_formed("loop set", |h| h.session.looped.set = 2);
    not_well_formed("tail sounding", |h| h.session.tail.sounding = 2);
    not_well_formed("capturing", |h| h.session.capturing = 2);
    for kind in [0, 3, u32::MAX] {
        not_well_formed("kind", |h| h.session.clips[FREE_SONG as usize].kind = kind);
        well_formed("kind", |h| h.session.clips[31].kind = kind);
    }

    let refused = |names: &[&str], change: &dyn Fn(&mut Arguments)| {
        let mut x = good_arguments();
        change(&mut x);
        for name in names {
            assert_eq!(good().refusal(name, &x), NO_SUCH_CASE, "{name}");
        }
    };
    for kind in [0, 3, u32::MAX] {
        refused(&["load"], &|x| x.kind = kind);
    }
    for kind in [0, 5, 11, u32::MAX] {
        refused(&["submit"], &|x| x.command.kind = kind);
    }
    for kind in [0, 4, u32::MAX] {
        refused(&["submit", "transition"], &|x| x.at.kind = kind);
    }
    for state in [3, 7, u32::MAX] {
        refused(&["apply snapshot"], &|x| x.snapshot.state = state);
    }
    refused(&["apply snapshot"], &|x| x.snapshot.looped.set = 2);
}

/// 'Ramp value and step may be any bits', in both modes; so may cursors, laps, the deepest depth, and whatever is not
/// used.
#[test]
fn any_bits() {
    let mut dice = Dice::new(1);
    for _ in 0..2_000 {
        let mut word = || dice.word();
        well_formed("any bits", |h| {
            let s = &mut h.session;
            s.settings.mode = word() as u32 % 2;
            let [first, second, ..] = &mut s.voices.table;
            let ramps = [
                &mut s.master,
                &mut s.tail.weight,
                &mut first.gain,
                &mut second.gain,
            ];
            for ramp in ramps {
                ramp.value = f32::from_bits(word() as u32);
                ramp.step = f32::from_bits(word() as u32);
            }
            s.cursor = word();
            s.tail.cursor = word();
            s.laps = word();
            s.deepest = word() as usize;
            s.dropped = word();
            s.clips[FREE_STINGER as usize].extent = word();
            s.clips[31] = Clip {
                serial: word() as u32,
                kind: word() as u32,
                extent: word(),
                start: word(),
                frames: word(),
                rate: word() as u32,
            };
            s.voices.table[2].handle.slot = word() as u32;
            s.voices.table[15].head = word() as usize;
            if word() % 2 == 0 {
                s.looped = Loop {
                    set: 0,
                    start: word(),
                    end: word(),
                };
                s.tail.sounding = 0;
                s.tail.song.slot = word() as u32;
                s.capturing = 0;
                s.captured = word() as usize;
            }
        });
    }
}

/// A refused opening writes nothing, and its session is refused by every call.
#[test]
fn a_refused_opening() {
    let samples = clip::samples(1, 50);
    let many = vec![0.0; 2 * POOL as usize + 2];
    let pool = Settings {
        pool: POOL - 1,
        ..SETTINGS
    };
    let queue = Settings {
        queue: 9,
        ..SETTINGS
    };
    let mode = |mode| Settings { mode, ..SETTINGS };
    let mode_and_queue = Settings { mode: 2, ..queue };
    let refused = [
        (7, opened(mode(2), &samples, RATE, 50)),
        (7, opened(mode(u32::MAX), &samples, RATE, 50)),
        (7, opened(mode_and_queue, &samples, RATE, 50)),
        (7, opened(SETTINGS, &samples, 7_999, 50)),
        (7, opened(SETTINGS, &samples, RATE, 49)),
        (1, opened(queue, &samples, RATE, 50)),
        (2, opened(pool, &samples, RATE, 50)),
        (3, opened(SETTINGS, &samples[1..], RATE, 50)),
        (5, opened(SETTINGS, &[], RATE, 0)),
        (6, opened(SETTINGS, &[f32::NAN, 0.0], RATE, 1)),
        (13, opened(SETTINGS, &samples, OTHER_RATE, 50)),
        (10, opened(SETTINGS, &many, RATE, POOL + 1)),
    ];
    for (number, (refusal, host)) in refused {
        assert_eq!(refusal, number);
        assert!(host.pool.iter().all(|sample| sample.to_bits() == 0));
        for name in CALLS {
            assert_eq!(host.refusal(name, &good_arguments()), 1, "{name}");
        }
    }
}

/// A full queue: 15, with the dropped count raised, and at its end kept.
#[test]
fn a_full_queue() {
    for dropped in [0, 41, u64::MAX] {
        let host = with(|h| {
            for _ in 4..QUEUE {
                h.submit(filled(kind::PAUSE), at_frame(300));
            }
            h.session.dropped = dropped;
        });
        assert_eq!(host.refusal("submit", &good_arguments()), 15);
        assert_eq!(host.refusal("transition", &good_arguments()), 15);
    }
}

/// Arguments of any bits, and pools and outputs of any length: a refusal changes nothing, and what is
/// taken leaves the session well formed.
#[test]
fn any_arguments() {
    let mut dice = Dice::new(2);
    let mut seen = [false; 256];
    for _ in 0..20_000 {
        let mut host = in_a_mode(&mut dice);
        let x = random_arguments(&mut dice, &host);
        if dice.one_in(10) {
            host.pool.truncate(dice.below(2 * POOL) as usize);
        }
        for name in CALLS {
            seen[host.refusal(name, &x) as usize] = true;
        }
    }
    for number in [0, 2, 3, 5, 6, 7, 10, 11, 12, 13, 14, 19, 20, 22, 23, 255] {
        assert!(seen[number], "refusal {number} was never seen");
    }
}

/// A number that is now a small one, now any.
fn random_word(dice: &mut Dice) -> u64 {
    match dice.below(4) {
        0 | 1 => dice.below(12),
        2 => dice.word() >> dice.below(64),
        _ => dice.word(),
    }
}

fn random_arguments(dice: &mut Dice, host: &Host) -> Arguments {
    let mut word = || random_word(dice);
    let mut x = good_arguments();
    x.kind = word() as u32;
    x.extent = word();
    if word() % 2 == 0 {
        x.rate = word() as u32;
    }
    x.samples = (0..word() % 600)
        .map(|_| match word() {
            n if n < 12 => n as f32,
            n => f32::from_bits(n as u32),
        })
        .collect();
    if word() % 4 < 3 {
        x.samples = clip::samples(9, x.samples.len() as u64 / 2);
    }
    let slot = word() as u32;
    x.clip = match slot {
        0..32 if word() % 2 == 0 => host.handle(slot),
        _ => Handle {
            slot,
            serial: word() as u32,
        },
    };
    x.command = Command {
        kind: word() as u32,
        gain: f32::from_bits(word() as u32),
        clip: x.clip,
        frame: word(),
        end: word(),
    };
    x.frame = word();
    x.at = At {
        kind: word() as u32,
        frame: word(),
    };
    x.list = (0..word() % 60).map(|_| word()).collect();
    x.out = vec![f32::NAN; word() as usize % 40];
    x.store = vec![f32::NAN; word() as usize % 40];
    x.ring = Ring {
        head: word() as usize,
        tail: word() as usize,
    };
    x.frames = word() as usize;
    x.snapshot = Snapshot {
        position: word(),
        state: word() as u32,
        gain: f32::from_bits(word() as u32),
        looped: Loop {
            set: word() as u32 % 3,
            start: word(),
            end: word(),
        },
    };
    x
}

/// A session of random bytes, with random stores.
#[test]
fn random_sessions() {
    let mut dice = Dice::new(3);
    let x = good_arguments();
    for _ in 0..5_000 {
        let mut host = good();
        spoil(&mut host.session, || Some(dice.word()));
        host.queue.iter_mut().for_each(|word| *word = dice.word());
        host.capture.iter_mut().for_each(|word| *word = dice.word());
        for name in CALLS {
            assert_eq!(host.refusal(name, &x), 1, "{name}");
        }
    }
}

/// A good session with some words written over, in it or in its stores.
#[test]
fn sessions_written_over() {
    let mut dice = Dice::new(4);
    let mut refused = 0;
    let mut taken = 0;
    for _ in 0..20_000 {
        let mut host = in_a_mode(&mut dice);
        let x = random_arguments(&mut dice, &host);
        let odds = dice.pick(&[20, 300, 1_000]);
        spoil(&mut host.session, || {
            dice.one_in(odds).then(|| random_word(&mut dice))
        });
        if dice.one_in(2) {
            let place = dice.below(4 * 5) as usize;
            host.queue[place] = random_word(&mut dice);
        }
        if dice.one_in(2) {
            let place = dice.below(4 * 5) as usize;
            host.capture[place] = random_word(&mut dice);
        }
        for name in CALLS {
            match host.refusal(name, &x) {
                0 => taken += 1,
                _ => refused += 1,
            }
        }
    }
    assert!(taken > 0 && refused > 0);
}

/// Writes over the 64-bit words of a session for which a new one is given.
fn spoil(session: &mut Session, mut new: impl FnMut() -> Option<u64>) {
    let words = size_of::<Session>() / size_of::<u64>();
    let first: *mut u64 = (session as *mut Session).cast();
    for place in 0..words {
        if let Some(word) = new() {
            // A session is numbers alone, so that any bits make one.
            unsafe { first.add(place).write(word) };
        }
    }
}
