//! How fast the calls are, beside tono's own code in the same run: `cargo run --release --bin speed`.
//!
//! Both sides play the same clips. A case is timed in rounds, ours and tono's by turns; a run's time is the median of
//! its rounds, and the table gives the median of several runs, and the least and the greatest ratio. The proved calls
//! check the session and its stores every time; a block of no frames is that check alone, timed in the same round.
//!
//! A block through a ring is a pump of its frames and a drain of them, on both sides. A tour's file is ours alone: a second
//! table, which `speed tours` makes without the first, has the median of many calls, and a third, `speed salvage`, has the
//! salvage of files that are damaged and of files that are none.
//!
//! `speed blocks` names the cases of one block. `speed N ours`, `check`, `tono` or `none` makes the one in line N, from
//! 0, up to that call, which comes last, and measures nothing: the script `compare/instructions` does.

use std::env;
use std::hint::black_box;
use std::time::Instant;

use compare::dice::Dice;
use compare::runtime::AudioSource;
use compare::runtime::ring::{Pump, Renderer, spsc};
use compare::session::{At, Session, Song, Stinger, Submission};
use threshreed::{
    ClockFrame, Command, Handle, LoopRange, Mode, Ring, SongFrame, WORDS, raw, salvage_bytes,
    salvage_words, tour_bytes,
};

const RATE: u32 = 48_000;
const QUEUE: usize = 4_096;
/// The most commands of a tour's file.
const TOUR: usize = 4_096;
const RUNS: usize = 7;
const ROUNDS: usize = 41;

/// The frames of a clip: no case plays one to its end.
const FRAMES: usize = 400_000;
/// Room for two songs and for a clip of each voice.
const POOL: usize = 18 * FRAMES;
/// More bytes than any cache holds.
const CACHES: usize = 256 << 20;
/// A frame that no block here reaches.
const LATER: u64 = 1 << 40;
/// Where a loop begins.
const LOOP: u64 = 1_000;
/// The frames for which a ring has room.
const RING: usize = 512;

/// Plain audio: two tones of other pitches on the two sides.
fn audio(frames: usize, pitch: f32) -> Vec<(f32, f32)> {
    let side =
        |i: usize, hertz: f32| 0.1 * (i as f32 * hertz * std::f32::consts::TAU / RATE as f32).sin();
    (0..frames)
        .map(|i| (side(i, pitch), side(i, pitch * 1.5)))
        .collect()
}

fn interleaved(frames: &[(f32, f32)]) -> Vec<f32> {
    frames
        .iter()
        .flat_map(|&(left, right)| [left, right])
        .collect()
}

/// Puts everything else out of the caches.
fn forget() {
    black_box(vec![1u8; CACHES]);
}

/// The stores of our session.
struct Stores {
    queue: Vec<u64>,
    pool: Vec<f32>,
}

impl Stores {
    fn new() -> Stores {
        Stores {
            queue: vec![0; QUEUE * WORDS],
            pool: vec![0.0; POOL * 2],
        }
    }

    fn open(&mut self, mode: Mode, song: &[f32]) -> threshreed::Session<'_> {
        threshreed::Session::open_in(
            mode,
            RATE,
            &mut self.queue,
            &mut [],
            &mut self.pool,
            threshreed::Song::new(song, RATE),
        )
        .expect("the song has room")
    }
}

/// Both sides, with the same song playing, each with a ring.
struct Both<'a> {
    ours: threshreed::Session<'a>,
    ring: Ring<{ 2 * RING + 1 }>,
    tono: Pump<Session>,
    renderer: Renderer,
    next: (Handle, Song),
    bells: Vec<(Handle, Stinger)>,
}

impl Both<'_> {
    /// Ours in a mode, with so many clips for voices.
    fn playing(stores: &mut Stores, mode: Mode, bells: usize) -> Both<'_> {
        let room = audio(FRAMES, 220.0);
        let other = audio(FRAMES, 330.0);
        let mut ours = stores.open(mode, &interleaved(&room));
        let next = ours
            .load_song(threshreed::Song::new(&interleaved(&other), RATE))
            .expect("the song has room");
        let bells = (0..bells)
            .map(|n| {
                let ring = audio(FRAMES, 880.0 + 20.0 * n as f32);
                let bell = ours.load_stinger(threshreed::Stinger {
                    samples: &interleaved(&ring),
                    rate: RATE,
                });
                let bell = bell.expect("the stinger has room");
                (bell, Stinger::new(RATE, &ring))
            })
            .collect();
        let tono = Session::open(&Song::new(RATE, &room, room.len() as u64));
        let (tono, renderer) = spsc(tono, RING);
        let mut both = Both {
            ours,
            ring: Ring::new(),
            tono,
            renderer,
            next: (next, Song::new(RATE, &other, other.len() as u64)),
            bells,
        };
        both.submit(Command::Play, Submission::Play, 0);
        both
    }

    /// A command for a clock frame on both sides, in their own terms.
    fn submit(&mut self, ours: Command, tono: Submission, frame: u64) {
        self.ours
            .submit(ours, threshreed::At::Frame(ClockFrame(frame)))
            .expect("the queue has room");
        self.tono
            .submit(tono, At::Frame(frame))
            .expect("the queue has room");
    }

    /// Voices, each of the next clip.
    fn ring(&mut self, voices: usize) {
        for n in 0..voices {
            let (handle, stinger) = self.bells[n % self.bells.len()].clone();
            self.submit(
                Command::Stinger(handle, 0.5),
                Submission::Stinger(stinger, 0.5),
                0,
            );
        }
    }

    fn gain(&mut self, gain: f32, frame: u64) {
        self.submit(Command::Gain(gain), Submission::Gain(gain), frame);
    }

    fn swap(&mut self) {
        let (handle, song) = self.next.clone();
        self.submit(Command::Swap(handle), Submission::Swap(song), 0);
    }

    /// The song into a loop of so many frames.
    fn go_round(&mut self, frames: u64) {
        let (start, end) = (SongFrame(LOOP), SongFrame(LOOP + frames));
        self.submit(Command::Seek(start), Submission::Seek(start.0), 0);
        self.submit(
            Command::Loop(LoopRange { start, end }),
            Submission::Loop(start.0, end.0),
            0,
        );
    }

    /// Commands that wait far off.
    fn wait(&mut self, commands: usize) {
        for i in 0..commands as u64 {
            self.gain(1.0, LATER + i);
        }
    }

    /// A block on both sides, to the same samples.
    fn block(&mut self, out: &mut [f32]) {
        let mut theirs = vec![0.0; out.len()];
        self.ours.block(out).expect("the block is made");
        self.tono.fill(&mut theirs);
        assert_same(out, &theirs);
    }
}

fn assert_same(ours: &[f32], tono: &[f32]) {
    let bits = |x: &[f32]| x.iter().map(|x| x.to_bits()).collect::<Vec<_>>();
    assert!(bits(ours) == bits(tono));
}

/// Nanoseconds of ours, of the check in it, and of tono's.
#[derive(Clone, Copy)]
struct Time {
    ours: f64,
    check: f64,
    tono: f64,
}

impl Time {
    /// The median of each.
    fn median(times: &[Time]) -> Time {
        Time {
            ours: median(times, |time| time.ours),
            check: median(times, |time| time.check),
            tono: median(times, |time| time.tono),
        }
    }

    fn ratio(&self) -> f64 {
        self.ours / self.tono
    }

    fn unchecked(&self) -> f64 {
        (self.ours - self.check) / self.tono
    }
}

fn sorted(times: &[Time], of: impl Fn(&Time) -> f64) -> Vec<f64> {
    let mut values: Vec<f64> = times.iter().map(of).collect();
    values.sort_by(f64::total_cmp);
    values
}

fn median(times: &[Time], of: impl Fn(&Time) -> f64) -> f64 {
    sorted(times, of)[times.len() / 2]
}

/// Of one call, where so many are made.
fn nanoseconds<T>(calls: usize, mut call: impl FnMut() -> T) -> f64 {
    let from = Instant::now();
    for _ in 0..calls {
        black_box(call());
    }
    from.elapsed().as_nanos() as f64 / calls as f64
}

/// A run of one case: the median of its rounds.
fn run(rounds: usize, mut round: impl FnMut() -> Time) -> Time {
    let times: Vec<Time> = (0..rounds).map(|_| round()).collect();
    Time::median(&times)
}

fn line(name: &str, of: impl Fn() -> Time) {
    let runs: Vec<Time> = (0..RUNS).map(|_| of()).collect();
    let time = Time::median(&runs);
    let spread = |of: fn(&Time) -> f64| {
        let ratios = sorted(&runs, of);
        let (least, greatest) = (ratios[0], ratios[RUNS - 1]);
        format!("{:.2} ({least:.2} to {greatest:.2})", ratios[RUNS / 2])
    };
    println!(
        "| {name} | {:.2} | {:.2} | {:.2} | {} | {} |",
        time.ours / 1000.0,
        time.check / 1000.0,
        time.tono / 1000.0,
        spread(Time::ratio),
        spread(Time::unchecked)
    );
}

/// What goes on in the block that is timed.
#[derive(Clone, Copy)]
enum During {
    Rest,
    Gain,
    /// A swap in a mode. The master is at 1.0, so that it sounds as tono's in both.
    Swap(Mode),
    Pause,
    /// A loop of so many frames.
    Loop(u64),
    /// It is pumped into a ring and drained from it.
    Ring,
}

/// A case of one block: so many frames, with so many voices and commands that wait.
#[derive(Clone, Copy)]
struct Case {
    frames: usize,
    voices: usize,
    /// Each voice has a long clip of its own, which is read for the first time.
    own: bool,
    waiting: usize,
    during: During,
}

const REST: Case = Case {
    frames: 512,
    voices: 0,
    own: false,
    waiting: 0,
    during: During::Rest,
};

fn cases() -> Vec<Case> {
    let few = |case| [0, 1, 16].map(|voices| Case { voices, ..case });
    let mut cases = Vec::new();
    cases.extend([0, 1, 2, 4, 8, 16].map(|voices| Case { voices, ..REST }));
    for voices in [4, 8, 16] {
        let own = true;
        cases.push(Case {
            voices,
            own,
            ..REST
        });
    }
    for during in [
        During::Gain,
        During::Swap(Mode::AsTono),
        During::Swap(Mode::House),
        During::Pause,
    ] {
        cases.extend(few(Case { during, ..REST }));
    }
    for frames in [1, 16, 64, 4_096] {
        cases.extend(few(Case { frames, ..REST }));
    }
    for during in [2, 16, 64, 256].map(During::Loop) {
        cases.extend(few(Case { during, ..REST }));
    }
    for waiting in [64, 512, 4_095] {
        cases.extend(few(Case { waiting, ..REST }));
    }
    cases.extend(few(Case {
        during: During::Ring,
        ..REST
    }));
    cases
}

impl Case {
    fn name(&self) -> String {
        let voices = match self.voices {
            1 => "1 voice".to_string(),
            more if self.own => format!("{more} voices of {more} clips"),
            more => format!("{more} voices"),
        };
        let during = match self.during {
            During::Rest if self.waiting > 0 => format!("{} commands waiting", self.waiting),
            During::Rest => "at rest".to_string(),
            During::Gain => "during a gain ride".to_string(),
            During::Swap(Mode::AsTono) => "during a swap".to_string(),
            During::Swap(Mode::House) => "during a swap in house mode".to_string(),
            During::Pause => "paused".to_string(),
            During::Loop(frames) => format!("a loop of {frames} frames"),
            During::Ring => "through a ring".to_string(),
        };
        match self.frames {
            1 => format!("1 frame, {voices}, {during}"),
            frames => format!("{frames} frames, {voices}, {during}"),
        }
    }

    fn scene<'a>(&self, stores: &'a mut Stores) -> Scene<'a> {
        let bells = if self.own { self.voices } else { 1 };
        let mode = match self.during {
            During::Swap(mode) => mode,
            _ => Mode::AsTono,
        };
        let mut both = Both::playing(stores, mode, bells);
        both.ring(self.voices);
        match self.during {
            During::Pause => both.submit(Command::Pause, Submission::Pause, 0),
            During::Loop(frames) => both.go_round(frames),
            _ => {}
        }
        both.block(&mut [0.0; 256]);
        both.wait(self.waiting);
        Scene {
            both,
            during: self.during,
            louder: false,
            out: vec![0.0; self.frames * 2],
        }
    }

    fn time(&self) -> Time {
        let mut stores = Stores::new();
        let mut scene = self.scene(&mut stores);
        if self.own {
            forget();
        }
        let time = run(ROUNDS, || scene.round());
        scene.compare();
        time
    }

    /// The same up to one call, which is made or left out: a counter of instructions tells the two runs apart.
    fn count(&self, call: &str) {
        let mut stores = Stores::new();
        let mut scene = self.scene(&mut stores);
        scene.round();
        scene.prepare();
        match call {
            "ours" => scene.ours(),
            "check" => scene.check(),
            "tono" => scene.tono(),
            "none" => {}
            _ => panic!("ours, check, tono or none"),
        }
    }
}

/// Both sides where a block is timed, round by round.
struct Scene<'a> {
    both: Both<'a>,
    during: During,
    louder: bool,
    out: Vec<f32>,
}

impl Scene<'_> {
    fn prepare(&mut self) {
        match self.during {
            During::Gain => {
                self.louder = !self.louder;
                self.both.gain(if self.louder { 1.5 } else { 0.5 }, 0);
            }
            During::Swap(_) => self.both.swap(),
            _ => return,
        }
        self.both.block(&mut [0.0; 2]);
    }

    fn ours(&mut self) {
        if let During::Ring = self.during {
            return self.ours_through_ring();
        }
        let made = self.both.ours.block(black_box(&mut self.out));
        black_box(made).expect("the block is made");
    }

    fn ours_through_ring(&mut self) {
        let Both { ours, ring, .. } = &mut self.both;
        let made = ring.pump(ours, black_box(self.out.len() / 2));
        black_box(made).expect("the frames are made");
        let taken = ring.drain(black_box(&mut self.out));
        black_box(taken).expect("the block is filled");
    }

    fn check(&mut self) {
        let made = self.both.ours.block(black_box(&mut []));
        black_box(made).expect("the block is made");
    }

    fn tono(&mut self) {
        if let During::Ring = self.during {
            return self.tono_through_ring();
        }
        self.both.tono.fill(black_box(&mut self.out));
    }

    fn tono_through_ring(&mut self) {
        let Both { tono, renderer, .. } = &mut self.both;
        black_box(tono.pump(black_box(self.out.len() / 2)));
        renderer.fill(black_box(&mut self.out));
    }

    /// Both, to the same samples.
    fn compare(&mut self) {
        self.ours();
        let ours = self.out.clone();
        self.tono();
        assert_same(&ours, &self.out);
    }

    /// Of short blocks there are as many as have 512 frames, lest the clock's own time counts.
    fn round(&mut self) -> Time {
        self.prepare();
        let calls = match self.during {
            During::Gain | During::Swap(_) => 1,
            _ => (1_024 / self.out.len()).max(1),
        };
        Time {
            ours: nanoseconds(calls, || self.ours()),
            check: nanoseconds(calls, || self.check()),
            tono: nanoseconds(calls, || self.tono()),
        }
    }
}

/// A submission into a queue of 4,095 or a little less: the last 64 places, one after the other.
fn submission() -> Time {
    let mut stores = Stores::new();
    let mut both = Both::playing(&mut stores, Mode::AsTono, 0);
    both.block(&mut [0.0; 2]);
    both.wait(QUEUE - 64);
    let mut frame = LATER / 2;
    let ours = nanoseconds(64, || {
        let at = threshreed::At::Frame(ClockFrame(frame));
        frame += 1;
        both.ours
            .submit(Command::Gain(1.0), at)
            .expect("the queue has room")
    });
    let mut frame = LATER / 2;
    let tono = nanoseconds(64, || {
        let at = At::Frame(frame);
        frame += 1;
        both.tono
            .submit(Submission::Gain(1.0), at)
            .expect("the queue has room")
    });
    let check = nanoseconds(64, || both.ours.block(&mut []).expect("the block is made"));
    Time { ours, check, tono }
}

/// A clip of a million frames: loaded here; rendered and queued as a stinger there, which is where tono copies one.
fn load() -> Time {
    let frames = audio(1_000_000, 440.0);
    let samples = interleaved(&frames);
    let stinger = Stinger::new(RATE, &frames);
    let mut stores = Stores::new();
    let mut ours = stores.open(Mode::AsTono, &samples[..2]);
    let mut tono = Session::open(&Song::new(RATE, &frames[..1], 1));
    run(ROUNDS, || {
        let clip = threshreed::Stinger {
            samples: &samples,
            rate: RATE,
        };
        let mut loaded = None;
        let time = Time {
            ours: nanoseconds(1, || loaded = Some(ours.load_stinger(black_box(clip)))),
            check: nanoseconds(1, || ours.block(black_box(&mut []))),
            tono: nanoseconds(1, || {
                tono.submit(Submission::Stinger(stinger.clone(), 1.0), At::Frame(LATER))
            }),
        };
        let handle = loaded.expect("it was timed").expect("the clip has room");
        ours.retire(handle).expect("nothing holds the clip");
        time
    })
}

/// Files of the most commands: loops, which have the most bytes, and stingers, whose clips are looked up.
fn tours() {
    println!(
        "| a tour of 4,096 | bytes | written, µs | ns a command | read, µs | ns a command |\n|---|---|---|---|---|---|"
    );
    tour("loops", |n| [n, n, 6, 0, 1]);
    tour("stingers", |n| [n, n, 10, listed(n as usize % 32), 1]);
}

fn tour(name: &str, record: impl Fn(u64) -> [u64; WORDS]) {
    let clips = std::array::from_fn(listed);
    let records: Vec<[u64; WORDS]> = (0..TOUR as u64).map(record).collect();
    let mut out = vec![0; tour_bytes(TOUR)];
    let mut list = vec![0; TOUR * WORDS];
    let words = records.as_flattened();
    let calls = RUNS * ROUNDS;
    let bytes = raw::write_tour(&clips, words, &mut out).count;
    let written = median_of(calls, || {
        raw::write_tour(&clips, black_box(words), black_box(&mut out))
    });
    let file = &out[..bytes];
    let read = median_of(calls, || {
        raw::read_tour(&clips, black_box(file), black_box(&mut list))
    });
    assert!(list == words);
    println!(
        "| {name} | {bytes} | {:.1} | {:.1} | {:.1} | {:.1} |",
        written / 1000.0,
        written / TOUR as f64,
        read / 1000.0,
        read / TOUR as f64
    );
}

/// The handle for a clip byte: all 32 are listed.
fn listed(byte: usize) -> u64 {
    (byte as u64) << 32 | (byte + 1) as u64
}

/// A whole tour, and one and two megabytes of what is none: one byte again and again, empty fields that are passed
/// over, those with a dropped byte before each, which have the most ranges, one command whose number does not rise, and
/// random bytes, among which half of the tags are skippable or none.
fn salvages() {
    println!(
        "| a salvage of | bytes | kept | ranges | µs | ns a byte |\n|---|---|---|---|---|---|"
    );
    let commands: Vec<u8> = (0..TOUR as u64).flat_map(play).collect();
    let file = [&[1, 2, 0, 1, 0], &commands[..], &[3, 2, 0, 0, 16]].concat();
    salvage("a tour of 4,096", &file);
    for bytes in [1 << 20, 2 << 20] {
        let again = |part: &[u8]| -> Vec<u8> { part.iter().copied().cycle().take(bytes).collect() };
        salvage("zero bytes", &again(&[0]));
        salvage("the byte 2", &again(&[2]));
        salvage("empty fields", &again(&[128, 0, 0]));
        salvage("a dropped byte and an empty field", &again(&[0, 128, 0, 0]));
        salvage("one command", &again(&play(5)));
        let mut dice = Dice::new(1);
        let mut random: Vec<u8> = (0..bytes).map(|_| dice.word() as u8).collect();
        salvage("random bytes", &random);
        random.iter_mut().for_each(|byte| *byte %= 128);
        salvage("random bytes below 128", &random);
    }
}

fn salvage(name: &str, file: &[u8]) {
    let bytes = file.len();
    let mut out = vec![0; salvage_bytes(bytes)];
    let mut list = vec![0; salvage_words(bytes)];
    let answered = raw::salvage(file, &mut out, &mut list);
    assert_eq!(answered.refusal, 0);
    let time = median_of(ROUNDS, || {
        raw::salvage(black_box(file), black_box(&mut out), black_box(&mut list))
    });
    println!(
        "| {name} | {bytes} | {} | {} | {:.1} | {:.2} |",
        answered.kept,
        answered.ranges,
        time / 1000.0,
        time / bytes as f64
    );
}

/// The field of a command with a number.
fn play(number: u64) -> [u8; 20] {
    let mut field = [0; 20];
    field[..2].copy_from_slice(&[2, 17]);
    field[11..19].copy_from_slice(&number.to_le_bytes());
    field[19] = 1;
    field
}

/// Nanoseconds of one call, where so many are made.
fn median_of<T>(calls: usize, mut call: impl FnMut() -> T) -> f64 {
    let mut times: Vec<f64> = (0..calls).map(|_| nanoseconds(1, &mut call)).collect();
    times.sort_by(f64::total_cmp);
    times[times.len() / 2]
}

fn main() {
    let words: Vec<String> = env::args().skip(1).collect();
    let words: Vec<&str> = words.iter().map(String::as_str).collect();
    let cases = cases();
    match words[..] {
        [] => {
            println!(
                "| case | ours, µs | its check, µs | tono, µs | ratio | ratio without the check |\n|---|---|---|---|---|---|"
            );
            for case in &cases {
                line(&case.name(), || case.time());
            }
            line("a submission into a queue of 4,095", || run(5, submission));
            line("a load of a million frames", load);
            println!();
            tours();
            println!();
            salvages();
        }
        ["tours"] => tours(),
        ["salvage"] => salvages(),
        ["blocks"] => cases.iter().for_each(|case| println!("{}", case.name())),
        [number, call] => {
            let number: usize = number.parse().expect("a case has a number");
            cases[number].count(call);
        }
        _ => panic!("no word, `tours`, `salvage`, `blocks`, or a case's number and a call"),
    }
}
