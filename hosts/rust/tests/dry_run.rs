//! Dry runs of tours. Beside the full session: random clips, tours and blocks, each row, each reason and the end. The
//! order of refusals, and that a refused run leaves every store. And which clip lists are taken, beside the words of the
//! rules and beside the session's own check.

#[path = "common/damage.rs"]
mod damage;
#[path = "common/dice.rs"]
mod dice;
#[path = "common/format.rs"]
mod format;

use dice::Dice;
use format::{Handles, Record, count, version};
use threshreed::TourFault::{self, *};
use threshreed::raw::{self, Handle, Report, Session};
use threshreed::{
    ClockFrame, DryRunRefusal, DryRunSheet, ListedClip, LoopRange, Mode, Refusal, SongFrame, State,
    TourPlace, TourRefusal, WORDS, dry_run,
};

const RATE: u32 = 48_000;

/// The most commands of a dry run.
const MOST: usize = raw::DRY_COMMANDS;

/// Where the clock ends.
const END: u64 = 1 << 62;

const SONG: u64 = 1;
const STINGER: u64 = 2;

/// Slot, serial, kind, rate, frames, length.
type Line = [u64; 6];

/// A record's words, the clock, the position before and after, the laps before and after.
type Row = [u64; 10];

/// Times and length.
type Blocks = [u64; 2];

fn word(handle: Handle) -> u64 {
    u64::from(handle.slot) << 32 | u64::from(handle.serial)
}

/// The handles for the clip bytes: a byte is a slot.
fn own(list: &[Line]) -> Handles {
    let mut clips = [0; 32];
    for [slot, serial, ..] in list {
        clips[*slot as usize] = slot << 32 | serial;
    }
    clips
}

fn file(list: &[Line], records: &[Record]) -> Vec<u8> {
    format::write(&own(list), records, usize::MAX).unwrap()
}

// ---- the call

const FILL: u64 = 0x9999_9999_9999_9999;

/// What a dry run answers and what it wrote.
#[derive(Debug, PartialEq)]
struct Dry {
    answered: raw::DryRun,
    records: Vec<Record>,
    reasons: Vec<u64>,
    queue: Vec<Record>,
    rows: Vec<Row>,
}

/// Makes a dry run. A refused one answers a number and a place alone, and writes nothing.
fn dry(mode: u32, list: &[u64], file: &[u8], blocks: &[u64]) -> Result<Dry, (u32, usize)> {
    let (mut records, mut queue) = ([[FILL; WORDS]; MOST], [[FILL; WORDS]; MOST]);
    let (mut reasons, mut rows) = ([FILL; MOST], [[FILL; 10]; MOST]);
    let answered = raw::dry_run(
        mode,
        list,
        file,
        blocks,
        &mut records,
        &mut reasons,
        &mut queue,
        &mut rows,
    );
    if answered.refusal == 0 {
        assert_eq!(answered.place, 0);
        return Ok(Dry {
            answered,
            records: records[..answered.commands].to_vec(),
            reasons: reasons[..answered.commands].to_vec(),
            queue: queue[..answered.queued].to_vec(),
            rows: rows[..answered.executed].to_vec(),
        });
    }
    let (refusal, place) = (answered.refusal, answered.place);
    assert_eq!(answered, refused(refusal, place));
    let stores = [
        records.as_flattened(),
        queue.as_flattened(),
        &reasons,
        rows.as_flattened(),
    ];
    assert!(stores.concat().iter().all(|x| *x == FILL));
    Err((refusal, place))
}

fn refused(refusal: u32, place: usize) -> raw::DryRun {
    raw::DryRun {
        refusal,
        place,
        commands: 0,
        taken: 0,
        executed: 0,
        queued: 0,
        clock: 0,
        song: Handle { slot: 0, serial: 0 },
        state: 0,
        position: 0,
        looped: NO_LOOP,
        laps: 0,
    }
}

const NO_LOOP: raw::Loop = raw::Loop {
    set: 0,
    start: 0,
    end: 0,
};

// ---- the full session

const POOL: usize = 600;
const QUEUE: usize = MOST + 4;

/// A session with its stores.
#[derive(Clone)]
struct Stand {
    session: Session,
    queue: Vec<u64>,
    pool: Vec<f32>,
}

impl Stand {
    fn open(mode: u32, frames: u64, length: u64) -> Stand {
        let settings = raw::Settings {
            rate: RATE,
            mode,
            queue: QUEUE,
            capture: 0,
            pool: POOL as u64,
        };
        let (queue, mut pool) = (vec![0; QUEUE * WORDS], vec![0.0; 2 * POOL]);
        let clip = vec![0.5; 2 * frames as usize];
        let opened = raw::open(settings, &queue, &[], &mut pool, &clip, RATE, length);
        assert_eq!(opened.refusal, 0);
        Stand {
            session: opened.session,
            queue,
            pool,
        }
    }

    /// Loads a clip: kind, rate, frames, length. There may be no room or no slot.
    fn load(&mut self, kind: u64, rate: u32, frames: u64, length: u64) {
        let (samples, kind) = (vec![0.25; 2 * frames as usize], kind as u32);
        let (queue, pool) = (&self.queue, &mut self.pool);
        let loaded = raw::load(self.session, queue, &[], pool, &samples, kind, length, rate);
        assert!(matches!(loaded.refusal, 0 | 8 | 10));
        self.session = loaded.session;
    }

    fn retire(&mut self, clip: Handle) {
        let retired = raw::retire(self.session, &self.queue, &[], clip);
        assert!(retired.refusal == 0 || clip == self.session.song);
        self.session = retired.session;
    }

    /// The clips that are loaded, the song at the head.
    fn list(&self) -> Vec<Line> {
        let loaded = (0..32).filter(|slot| self.session.used >> slot & 1 == 1);
        let line = |slot: u32| {
            let clip = self.session.clips[slot as usize];
            let [slot, serial, kind, rate] =
                [slot, clip.serial, clip.kind, clip.rate].map(u64::from);
            [slot, serial, kind, rate, clip.frames, clip.extent]
        };
        let mut list: Vec<Line> = loaded.map(line).collect();
        let first = u64::from(self.session.song.slot);
        list.sort_by_key(|line| line[0] != first);
        list
    }

    fn replay(&mut self, records: &[Record]) -> Report {
        let list = records.as_flattened();
        let replayed = raw::replay(self.session, &mut self.queue, &[], list);
        assert_eq!(replayed.refusal, 0);
        self.session = replayed.session;
        replayed.report
    }

    /// Replays one record, and tells why it is not taken: the number that a submission of it would give.
    fn take(&mut self, record: &Record) -> u64 {
        let [at, _, kind, first, second] = *record;
        let gain = if kind == 8 { first } else { second };
        let command = raw::Command {
            kind: kind as u32,
            gain: f32::from_bits(gain as u32),
            clip: Handle {
                slot: (first >> 32) as u32,
                serial: first as u32,
            },
            frame: first,
            end: second,
        };
        let mut queue = self.queue.clone();
        let at = raw::At { kind: 2, frame: at };
        let submitted = match kind {
            5 => raw::transition(self.session, &mut queue, &mut [], first, at),
            _ => raw::submit(self.session, &mut queue, &mut [], command, at),
        };
        let report = self.replay(&[*record]);
        assert_eq!(report.taken == 1, submitted.refusal == 0);
        u64::from(submitted.refusal)
    }

    fn block(&mut self, frames: u64) {
        let mut out = vec![0.0; 2 * frames as usize];
        let made = raw::block(self.session, &self.queue, &[], &self.pool, &mut out);
        assert_eq!(made.refusal, 0);
        self.session = made.session;
    }

    /// What is queued, the last due first.
    fn queued(&self) -> Vec<Record> {
        let records = self.queue.chunks_exact(WORDS).take(self.session.queued);
        records.map(|x| x.try_into().unwrap()).collect()
    }

    /// Where it stands, and how many commands it has executed.
    fn stands(&self) -> raw::DryRun {
        let session = &self.session;
        let looped = session.looped;
        raw::DryRun {
            executed: self.executed(),
            queued: session.queued,
            clock: session.clock,
            song: session.song,
            state: session.state,
            position: session.position,
            looped: if looped.set == 1 { looped } else { NO_LOOP },
            laps: session.laps,
            ..refused(0, 0)
        }
    }

    fn executed(&self) -> usize {
        self.session.counters.executed as usize
    }

    /// Position and laps where these commands have been executed at a clock frame, none of them due later: a pause comes
    /// behind them, and holds the playhead through the frame that is made.
    fn after(&self, commands: &[Record], clock: u64) -> [u64; 2] {
        let mut held = self.clone();
        let pause = [clock, 0, 2, 0, 0];
        let report = held.replay(&[commands, &[pause]].concat());
        assert_eq!(report.taken, commands.len() + 1);
        held.block(clock + 1);
        assert_eq!((held.executed(), held.session.state), (report.taken, 2));
        [held.session.position, held.session.laps]
    }
}

/// What the full session does: replayed record by record and at once, in these blocks and frame by frame.
fn full(start: &Stand, records: &[Record], blocks: &[Blocks]) -> Dry {
    let (mut stand, mut slow) = (start.clone(), start.clone());
    let reasons: Vec<u64> = records.iter().map(|x| slow.take(x)).collect();
    let report = stand.replay(records);
    let taken = reasons.iter().filter(|x| **x == 0).count();
    let (full, skipped) = (0, records.len() - taken);
    let expected = Report {
        taken,
        full,
        skipped,
    };
    assert_eq!(report, expected);
    assert_eq!(
        (stand.session, stand.queued()),
        (slow.session, slow.queued())
    );

    let due: Vec<Record> = stand.queued().into_iter().rev().collect();
    for [times, length] in blocks {
        (0..*times).for_each(|_| stand.block(*length));
    }
    for clock in 0..stand.session.clock {
        let before = slow.executed();
        slow.block(1);
        let executed = &due[before..slow.executed()];
        assert!(executed.iter().all(|x| (clock..=clock + 1).contains(&x[0])));
    }
    assert_eq!(slow.stands(), stand.stands());

    let row = |n: usize| {
        let [clock, number, kind, first, second] = due[n];
        let [from, laps] = start.after(&due[..n], clock);
        let [to, then] = start.after(&due[..=n], clock);
        [
            clock, number, kind, first, second, clock, from, to, laps, then,
        ]
    };
    Dry {
        answered: raw::DryRun {
            commands: records.len(),
            taken,
            ..stand.stands()
        },
        records: records.to_vec(),
        reasons,
        queue: stand.queued(),
        rows: (0..stand.executed()).map(row).collect(),
    }
}

impl Dice {
    /// Rate, frames and length of a clip. Few are of another rate.
    fn clip(&mut self) -> (u32, u64, u64) {
        let rate = self.of(&[RATE, RATE, RATE, RATE, RATE, 44_100]);
        let frames = 1 + self.below(12);
        (rate, frames, frames + self.below(40) * self.below(2))
    }

    /// A session that has loaded some clips and retired others. Now and then its song is not in the first slot, as no
    /// opening would have it.
    fn stand(&mut self, mode: u32) -> Stand {
        let (_, frames, length) = self.clip();
        let mut stand = Stand::open(mode, frames, length);
        for _ in 0..self.of(&[0, 3, 8, 8, 50]) {
            let (rate, frames, length) = self.clip();
            let kind = self.of(&[SONG, STINGER]);
            stand.load(kind, rate, frames, length);
            if self.one_in(3) {
                let [slot, serial, ..] = self.of(&stand.list()).map(|x| x as u32);
                stand.retire(Handle { slot, serial });
            }
        }
        let (slot, serial) = (self.below(32) as usize, u32::MAX - self.below(2) as u32);
        if stand.session.used >> slot & 1 == 0 && self.one_in(2) {
            let session = &mut stand.session;
            session.clips[slot] = raw::Clip {
                serial,
                ..session.clips[0]
            };
            session.used = session.used & !1 | 1 << slot;
            session.last = u32::MAX;
            session.song = Handle {
                slot: slot as u32,
                serial,
            };
        }
        stand
    }

    /// Mostly a gain that is taken, now and then any bits.
    fn gain(&mut self) -> u64 {
        let bits = match self.below(12) {
            0 => self.word() as u32,
            1 => (-0.0f32).to_bits(),
            2 => self.of(&[16.0, 16.1, -1.0, f32::NAN]).to_bits(),
            _ => (self.below(9) as f32 / 4.0).to_bits(),
        };
        u64::from(bits)
    }

    /// A frame of a song, now and then far out.
    fn song_frame(&mut self) -> u64 {
        match self.below(16) {
            0 => self.word(),
            _ => self.below(60),
        }
    }

    /// A command of any kind, for some of these clips, mostly one that it may name. Most are due in the first so many
    /// frames, many of them together.
    fn command(&mut self, list: &[Line], number: u64, frames: u64) -> Record {
        let at = match self.below(12) {
            0 => self.word(),
            1 => frames,
            2..6 => self.below(frames + 20) / 64 * 64,
            _ => self.below(frames + 20),
        };
        let kind = self.of(&[1, 1, 1, 1, 2, 3, 4, 5, 6, 6, 6, 6, 7, 8, 9, 9, 10, 10]);
        let named = if kind == 9 { SONG } else { STINGER };
        let mut clips = list.to_vec();
        if !self.one_in(8) && list.iter().any(|line| line[2] == named) {
            clips.retain(|line| line[2] == named);
        }
        let [slot, serial, ..] = self.of(&clips);
        let clip = slot << 32 | serial;
        let start = self.below(30);
        let [first, second] = match kind {
            4 | 5 => [self.song_frame(), 0],
            6 if self.one_in(16) => [self.song_frame(), self.song_frame()],
            6 => [start, start + 1 + self.below(12)],
            8 => [self.gain(), 0],
            9 => [clip, 0],
            10 => [clip, self.gain()],
            _ => [0, 0],
        };
        [at, number, kind, first, second]
    }

    /// Some blocks, in all of no frames and of up to thirty times the longest.
    fn blocks(&mut self, longest: u64) -> Vec<Blocks> {
        let pairs = self.place(4);
        let mut pair = || [self.below(11), self.of(&[0, 1, 7, longest / 2, longest])];
        (0..pairs).map(|_| pair()).collect()
    }
}

/// In both modes, which make no difference to a dry run.
#[test]
fn beside_the_full_session() {
    let mut dice = Dice(0x9E37_79B9_7F4A_7C15);
    let (mut rows, mut laps, mut left) = (0, 0, 0);
    let mut kinds = [0; 11];
    let mut reasons = [0; 32];
    for _ in 0..1_000 {
        let seed = dice.word();
        let both = [0, 1].map(|mode| {
            let mut dice = Dice(seed);
            let start = dice.stand(mode);
            let list = start.list();
            let commands = dice.of(&[0, 1, 4, 12, 12, 40, 40, 100, MOST as u64]);
            let blocks = dice.blocks(if commands > 12 { 100 } else { 1_000 });
            let frames: u64 = blocks.iter().map(|[times, length]| times * length).sum();
            let record = |n| dice.command(&list, 9 + 3 * n, frames);
            let records: Vec<Record> = (0..commands).map(record).collect();

            let file = file(&list, &records);
            let dried = dry(mode, list.as_flattened(), &file, blocks.as_flattened());
            let expected = full(&start, &records, &blocks);
            assert_eq!(dried, Ok(expected), "{list:?} {records:?} {blocks:?}");

            // Only the sum of the blocks counts, and the order of the clips behind the first does not.
            let mut other = list.clone();
            other[1..].reverse();
            let again = dry(mode, other.as_flattened(), &file, &[1, frames]);
            assert_eq!(again, dried);
            dried.unwrap()
        });
        assert_eq!(both[0], both[1]);
        let told = &both[0];
        rows += told.rows.len();
        left += told.queue.len();
        laps += told.rows.iter().map(|row| row[8]).max().unwrap_or(0);
        told.rows.iter().for_each(|row| kinds[row[2] as usize] += 1);
        told.reasons.iter().for_each(|x| reasons[*x as usize] += 1);
    }
    println!("{rows:>7}  commands executed, {left} left in the queue, {laps} laps seen by them");
    assert!(laps > 10_000 && left > 1_000);
    for (kind, times) in (1..).zip(&kinds[1..]) {
        println!("{times:>7}  of kind {kind}");
        assert!(*times > 200, "kind {kind}");
    }
    for reason in [12, 13, 14, 17, 22] {
        println!("{:>7}  skipped with {reason}", reasons[reason]);
        assert!(reasons[reason] > 100, "{reason}");
    }
    let seen: usize = [0, 12, 13, 14, 17, 22].iter().map(|x| reasons[*x]).sum();
    assert_eq!(seen, reasons.iter().sum());
}

// ---- two hours

/// A tour of two hours with 200 commands, each at a frame of its own; its clips, and the sheet that the planner prints of it.
const HOURS: &[u8] = include_bytes!("../../hours/tour.thr");
const HOURS_CLIPS: &str = include_str!("../../hours/clips.txt");
const HOURS_SHEET: &str = include_str!("../../hours/sheet.txt");

/// The lines of a planner's list.
fn listed(text: &str) -> Vec<Line> {
    let lines = text
        .lines()
        .filter(|x| x.starts_with(|c: char| c.is_ascii_digit()));
    let line = |text: &str| {
        let words: Vec<&str> = text.split(' ').collect();
        let number = |n: usize| words.get(n).map_or(0, |x| x.parse().unwrap());
        let kind = if words[2] == "song" { SONG } else { STINGER };
        [number(0), number(1), kind, number(3), number(4), number(5)]
    };
    lines.map(line).collect()
}

/// Clock, record, position before and after, laps before and after, of each row of a sheet.
fn printed(sheet: &str) -> Vec<[u64; 6]> {
    let rows = sheet
        .split("then\n")
        .nth(1)
        .unwrap()
        .split("\n\n")
        .next()
        .unwrap();
    let row = |text: &str| {
        let words: Vec<&str> = text.split_whitespace().collect();
        let number = |n: usize| words[n].replace(',', "").parse().unwrap();
        let end = words.len();
        [0, 2, end - 4, end - 3, end - 2, end - 1].map(number)
    };
    rows.lines().map(row).collect()
}

/// So many frames in blocks of at most 512.
fn play(stand: &mut Stand, mut frames: u64) {
    while frames > 0 {
        let block = frames.min(512);
        stand.block(block);
        frames -= block;
    }
}

/// What a full session does that plays the tour: up to each command, which is executed behind the last frame, and so a copy
/// of the session that has nothing queued.
#[test]
fn two_hours() {
    const FRAMES: u64 = 2 * 3_600 * RATE as u64;
    let list = listed(HOURS_CLIPS);
    let dried = dry(1, list.as_flattened(), HOURS, &[FRAMES / 512, 512]).unwrap();

    let session = session_of(1, list.as_flattened()).unwrap();
    let mut stand = Stand {
        session,
        queue: vec![0; MOST * WORDS],
        pool: vec![0.5; 2 * session.settings.pool as usize],
    };
    let report = stand.replay(&dried.records);
    let due: Vec<Record> = stand.queued().into_iter().rev().collect();
    let mut rows: Vec<Row> = Vec::new();
    for [clock, number, kind, first, second] in due {
        let ahead = clock - stand.session.clock;
        let mut bare = stand.clone();
        bare.session.queued = 0;
        play(&mut bare, ahead);
        play(&mut stand, ahead);
        let [before, after] = [&bare, &stand].map(|x| (x.session.position, x.session.laps));
        let ((from, laps), (to, then)) = (before, after);
        rows.push([
            clock, number, kind, first, second, clock, from, to, laps, then,
        ]);
        assert_eq!(
            (bare.executed() + 1, stand.executed()),
            (rows.len(), rows.len())
        );
    }
    let left = FRAMES - stand.session.clock;
    play(&mut stand, left);
    assert_eq!(dried.rows, rows);
    let end = raw::DryRun {
        commands: 200,
        taken: report.taken,
        ..stand.stands()
    };
    assert_eq!(dried.answered, end);

    // The 17th stinger is skipped.
    assert_eq!((rows.len(), report.skipped), (199, 1));
    let taken = (1..).zip(&dried.reasons).filter(|x| *x.1 == 0);
    let places: Vec<u64> = taken.map(|x| x.0).collect();
    let row = |x: &Row| [x[5], places[x[1] as usize - 1], x[6], x[7], x[8], x[9]];
    assert_eq!(
        printed(HOURS_SHEET),
        rows.iter().map(row).collect::<Vec<_>>()
    );
}

// ---- as far as the clock goes

/// A song of one second and a little bell.
const TWO: [Line; 2] = [
    [0, 1, SONG, RATE as u64, 48_000, 48_000],
    [3, 9, STINGER, RATE as u64, 100, 0],
];

#[test]
fn to_the_end_of_the_clock() {
    let run = |records: &[Record], blocks: &[u64]| {
        let file = file(&TWO, records);
        dry(0, TWO.as_flattened(), &file, blocks).unwrap()
    };
    // A loop of one frame comes round in each; a loop of ten once more where the playhead is past it.
    let told = run(&[[0, 1, 6, 0, 1], [0, 2, 1, 0, 0]], &[1, END]);
    let (at, laps) = (told.answered.position, told.answered.laps);
    assert_eq!((told.answered.clock, at, laps), (END, 0, END));
    let records = [
        [0, 1, 6, 10, 20],
        [0, 2, 4, 35, 0],
        [0, 3, 1, 0, 0],
        [END, 4, 7, 0, 0],
        [END, 5, 3, 0, 0],
    ];
    let told = run(&records, &[END / 512, 512]);
    let past = 15 + END - 10;
    let expected = [
        END,
        4,
        7,
        0,
        0,
        END,
        10 + past % 10,
        10 + past % 10,
        past / 10 + 1,
        0,
    ];
    assert_eq!(told.rows[3], expected);
    assert_eq!(told.queue, [records[4]]);

    // As many commands as there can be, far apart.
    let apart = END / 255;
    let seeks: Vec<Record> = (0..255).map(|n| [n * apart, n, 4, n, 0]).collect();
    let play = [[0, 300, 1, 0, 0]];
    let told = run(&[&seeks[..], &play].concat(), &[1, END]);
    assert_eq!(told.rows.len(), MOST);
    assert_eq!(told.rows[1], [0, 256, 1, 0, 0, 0, 0, 0, 0, 0]);
    assert_eq!(told.rows[2][5..], [apart, 48_000, 1, 0, 0]);
    assert_eq!(told.rows[255][5..], [254 * apart, 253, 254, 0, 0]);
    assert_eq!(
        (told.answered.state, told.answered.position),
        (State::Stopped as u32, 254)
    );
}

// ---- refusals

/// What is wrong with a dry run's arguments, in the order in which it is refused.
const ORDER: [u32; 4] = [116, 102, 117, 4];

fn plays(commands: usize) -> Vec<Record> {
    let numbers = 0..commands as u64;
    numbers.map(|n| [n, n, 1, 0, 0]).collect()
}

/// Every choice of faults: the first of them is told.
#[test]
fn the_order_of_refusals() {
    for faults in 0..16 {
        let is_wrong = |n: usize| faults >> n & 1 == 1;
        let mut list = TWO;
        if is_wrong(0) {
            list[1][0] = 0;
        }
        let commands = if is_wrong(2) { MOST + 1 } else { MOST };
        let mut tour = file(&TWO, &plays(commands));
        if is_wrong(1) {
            tour.pop();
        }
        let blocks = [END / 2, 2, 0, END, u64::from(is_wrong(3)), 1];
        let place = if is_wrong(1) { tour.len() - 4 } else { 0 };
        let first = (0..4).find(|n| is_wrong(*n));
        let expected = first.map(|n| (ORDER[n], if n == 1 { place } else { 0 }));
        for mode in 0..3 {
            let told = dry(mode, list.as_flattened(), &tour, &blocks);
            let expected = if mode == 2 { Some((116, 0)) } else { expected };
            assert_eq!(told.err(), expected, "{faults:04b} {mode}");
        }
    }
}

/// The reader's own limit is higher, and is a fault of the file.
#[test]
fn many_commands() {
    let told = |commands: usize| {
        let plays = plays(commands);
        let fields = plays.iter().map(|x| format::command(&own(&TWO), x));
        let fields: Vec<Vec<u8>> = fields.collect();
        let file = [version(), fields.concat(), count(commands)].concat();
        let run = dry(1, TWO.as_flattened(), &file, &[1, 300]);
        run.map(|told| told.answered.executed)
    };
    assert_eq!(told(0), Ok(0));
    assert_eq!(told(MOST), Ok(MOST));
    assert_eq!(told(MOST + 1), Err((117, 0)));
    assert_eq!(told(4_096), Err((117, 0)));
    assert_eq!(told(4_097), Err((TooMany.number(), 5 + 20 * 4_096)));
}

/// What the reader refuses, by number and place, beside a reader of the tests' own. A clip byte is a slot.
#[test]
fn damaged_tours() {
    let mut dice = Dice(0x2545_F491_4F6C_DD1D);
    let commands: Vec<Vec<u8>> = plays(300)
        .iter()
        .map(|x| format::command(&own(&TWO), x))
        .collect();
    let large = [vec![version()], commands, vec![count(300)]].concat();
    let mut met = [0; 256];
    for _ in 0..50_000 {
        let start = dice.word();
        let slots: Vec<u64> = (0..32).filter(|slot| start >> slot & 1 == 1).collect();
        let line = |slot: &u64| [*slot, slot + 7, SONG, u64::from(RATE), 1, 9];
        let list: Vec<Line> = slots.iter().map(line).collect();
        if list.is_empty() {
            continue;
        }
        let mut clips = own(&list);
        if dice.one_in(2) {
            clips[dice.place(32)] = 5 << 32 | 99;
        }
        let tour = dice.file(&clips, &large);
        let mut faults = TourFault::ALL.into_iter();
        let expected = match format::read(&own(&list), &tour, usize::MAX) {
            Err((fault, place)) => Err((fault.number(), place)),
            Ok(records) if records.len() > MOST => Err((117, 0)),
            Ok(records) => Ok(records),
        };
        let told = dry(0, list.as_flattened(), &tour, &[]).map(|told| told.records);
        assert_eq!(told, expected, "{list:?} {tour:?}");
        let number = told.err().map_or(0, |(number, _)| number);
        assert!(number == 0 || number == 117 || faults.any(|x| x.number() == number));
        met[number as usize] += 1;
    }
    println!("{:>7}  taken", met[0]);
    for number in (102..=112).filter(|x| *x != TooMany.number()).chain([117]) {
        println!("{:>7}  refused with {number}", met[number as usize]);
        assert!(met[number as usize] > 50, "{number}");
    }
}

/// Sums that reach 2^62, pass it, or would come to less in 64 bits; a last word alone counts nothing.
#[test]
fn sums_of_blocks() {
    let tour = file(&TWO, &[]);
    let told = |blocks: &[u64]| {
        let run = dry(0, TWO.as_flattened(), &tour, blocks);
        run.map(|told| told.answered.clock)
    };
    let most = u64::MAX;
    for (blocks, frames) in [
        (&[][..], Some(0)),
        (&[7], Some(0)),
        (&[most], Some(0)),
        (&[3, 5, most], Some(15)),
        (&[0, most, most, 0], Some(0)),
        (&[1, END], Some(END)),
        (&[END, 1, 0, 1], Some(END)),
        (&[END, 1, 1, 1], None),
        (&[1, END + 1], None),
        (&[1 << 32, 1 << 30], Some(END)),
        (&[1 << 32, 1 << 32], None),
        (&[1 << 32, 1 << 32, 1, 5], None),
        (&[2, 1 << 63], None),
        (&[most, most], None),
        (&[most, 1, 1, 1], None),
        (&[1, END, 3, END], None),
        (&[1, END, 1, most - END + 1], None),
    ] {
        assert_eq!(told(blocks).ok(), frames, "{blocks:?}");
    }

    let mut dice = Dice(0xD134_2543_DE82_EF95);
    let mut taken = 0;
    for _ in 0..50_000 {
        let length = dice.place(7);
        let near = |dice: &mut Dice| match dice.below(4) {
            0 => dice.below(3),
            1 => dice.word() >> dice.below(64),
            2 => 1 << dice.below(64),
            _ => END.wrapping_sub(2).wrapping_add(dice.below(5)),
        };
        let blocks: Vec<u64> = (0..length).map(|_| near(&mut dice)).collect();
        let pairs = blocks.chunks_exact(2);
        let products = pairs.map(|x| u128::from(x[0]) * u128::from(x[1]));
        let sum = products.fold(0u128, u128::saturating_add);
        let expected = match sum <= u128::from(END) {
            true => Ok(sum as u64),
            false => Err((4, 0)),
        };
        assert_eq!(told(&blocks), expected, "{blocks:?}");
        taken += usize::from(expected.is_ok());
    }
    assert!((10_000..40_000).contains(&taken), "{taken}");
}

// ---- which clip lists are taken

/// The most frames of a pool.
const LARGEST: u64 = 33_554_432;

/// What is wrong with a list, by the words of the rules: what a session has.
fn faults(mode: u32, words: &[u64]) -> Vec<&'static str> {
    let lines = words.chunks_exact(6);
    let rest = lines.remainder();
    let lines: Vec<&[u64]> = lines.collect();
    let column = |n: usize| lines.iter().map(move |line| line[n]);
    let twice = |n: usize| {
        let mut values: Vec<u64> = column(n).collect();
        values.sort();
        values.windows(2).any(|pair| pair[0] == pair[1])
    };
    let is_long = |line: &&&[u64]| line[2] == SONG && !(line[4]..=1 << 40).contains(&line[5]);
    let frames: u128 = column(4).map(u128::from).sum();
    let wrong = [
        ("a mode that is none", mode > 1),
        ("words that are no line", !rest.is_empty()),
        ("no clip", lines.is_empty()),
        ("a slot that is none", column(0).any(|x| x > 31)),
        ("a slot twice", twice(0)),
        (
            "a serial that is none",
            column(1).any(|x| !(1..=4_294_967_295).contains(&x)),
        ),
        ("a serial twice", twice(1)),
        (
            "a kind that is none",
            column(2).any(|x| x != SONG && x != STINGER),
        ),
        (
            "a stinger at the head",
            lines.first().is_some_and(|x| x[2] == STINGER),
        ),
        (
            "a rate out of range",
            column(3).any(|x| !(8_000..=192_000).contains(&x)),
        ),
        ("no frames", column(4).any(|x| x == 0)),
        (
            "a length out of range",
            lines.iter().filter(is_long).count() > 0,
        ),
        ("too many frames", frames > u128::from(LARGEST)),
    ];
    let wrong = wrong.into_iter().filter(|x| x.1);
    wrong.map(|x| x.0).collect()
}

/// The session that has these clips side by side, if they can be written down as one.
fn session_of(mode: u32, words: &[u64]) -> Option<Session> {
    let mut session = Stand::open(0, 1, 1).session;
    let (mut start, mut used) = (0u64, 0u32);
    let lines = words.chunks_exact(6);
    if words.is_empty() || !lines.remainder().is_empty() {
        return None;
    }
    for line in lines {
        let [slot, serial, kind, rate] = [0, 1, 2, 3].map(|n| u32::try_from(line[n]));
        let (Ok(slot), Ok(serial), Ok(kind), Ok(rate)) = (slot, serial, kind, rate) else {
            return None;
        };
        let (frames, extent) = (line[4], line[5]);
        let is_free = slot < 32 && used >> slot & 1 == 0;
        let end = start.checked_add(frames).filter(|_| is_free)?;
        if used == 0 {
            session.song = Handle { slot, serial };
            session.settings.rate = rate;
        }
        used |= 1 << slot;
        session.clips[slot as usize] = raw::Clip {
            serial,
            kind,
            extent,
            start,
            frames,
            rate,
        };
        start = end;
    }
    session.settings = raw::Settings {
        mode,
        queue: MOST,
        pool: start,
        ..session.settings
    };
    (session.used, session.last) = (used, u32::MAX);
    Some(session)
}

/// Whether that session is well formed, by its own check.
fn is_well_formed(mode: u32, words: &[u64]) -> bool {
    let Some(session) = session_of(mode, words) else {
        return false;
    };
    let metered = raw::metrics(session, &[0; MOST * WORDS], &[]);
    assert!(matches!(metered.refusal, 0 | 1 | 255));
    metered.refusal == 0
}

impl Dice {
    /// A list that a session has. Now and then its frames are as many as can be, and it fills every slot.
    fn list(&mut self) -> Vec<Line> {
        let clips = self.of(&[1, 1, 2, 4, 9, 32]);
        let first = self.below(32);
        let [step, serial] = [self.of(&[1, 5, 31]), self.of(&[1, 100, (1 << 32) - 32])];
        let mut list: Vec<Line> = (0..clips)
            .map(|n| {
                let rate = self.of(&[8_000, 44_100, 48_000, 192_000]);
                let frames = 1 + self.below(1_000_000);
                let more = self.below(100);
                let length = self.of(&[frames, frames + more, 1 << 40]);
                let kind = if n == 0 {
                    SONG
                } else {
                    self.of(&[SONG, STINGER])
                };
                [
                    (first + n * step) % 32,
                    serial + n,
                    kind,
                    rate,
                    frames,
                    length,
                ]
            })
            .collect();
        let frames: u64 = list.iter().map(|line| line[4]).sum();
        if frames > LARGEST || self.one_in(4) {
            list.iter_mut().for_each(|line| line[4] = 1);
            let at = self.place(list.len());
            list[at][4] = LARGEST + 1 - clips;
            list[at][5] = list[at][5].max(list[at][4]);
        }
        list
    }

    /// Changes a word to one near a border, or to another line's.
    fn change(&mut self, list: &mut [Line]) {
        let [at, other] = [self.place(list.len()), self.place(list.len())];
        let word = self.place(6);
        let was = list[at][word];
        let near = match word {
            0 => self.of(&[31, 32, 33, 1 << 31, 1 << 32, (1 << 32) + 5, u64::MAX]),
            1 => self.of(&[0, 1, (1 << 32) - 1, 1 << 32, (1 << 32) + 1, u64::MAX]),
            2 => self.of(&[0, 1, 2, 3, (1 << 32) + 1, u64::MAX]),
            3 => self.of(&[0, 7_999, 8_000, 192_000, 192_001, (1 << 32) + 48_000]),
            4 => self.of(&[0, 1, LARGEST, LARGEST + 1, 1 << 63, u64::MAX]),
            _ => self.of(&[0, list[at][4], 1 << 40, (1 << 40) + 1, u64::MAX]),
        };
        list[at][word] = match self.below(5) {
            0 => list[other][word],
            1 => was.wrapping_add(1),
            2 => was.wrapping_sub(1),
            _ => near,
        };
    }
}

#[test]
fn the_lists_that_sessions_have() {
    let mut dice = Dice(0x5851_F42D_4C95_7F2D);
    let tour = file(&TWO, &[]);
    let mut alone = std::collections::BTreeMap::new();
    let mut taken = 0;
    for _ in 0..100_000 {
        let mut list = dice.list();
        for _ in 0..dice.of(&[0, 1, 1, 1, 2]) {
            dice.change(&mut list);
        }
        let mode = dice.of(&[0, 0, 0, 0, 0, 1, 1, 1, 1, 1, 2, u32::MAX]);
        let mut words = list.as_flattened().to_vec();
        match dice.below(24) {
            0 => words.truncate(dice.place(words.len() + 1)),
            1 => words.push(dice.below(3)),
            2 => words.clear(),
            3 => words.extend_from_within(..6),
            _ => {}
        }
        let wrong = faults(mode, &words);
        assert_eq!(is_well_formed(mode, &words), wrong.is_empty(), "{words:?}");
        let told = dry(mode, &words, &tour, &[1, 9]);
        assert_eq!(told.is_ok(), wrong.is_empty(), "{mode} {words:?} {wrong:?}");
        match told {
            Err(refusal) => assert_eq!(refusal, (116, 0)),
            Ok(told) => {
                let song = told.answered.song;
                assert_eq!(word(song), words[0] << 32 | words[1]);
                let clock = 9;
                let expected = raw::DryRun {
                    clock,
                    song,
                    ..refused(0, 0)
                };
                assert_eq!(told.answered, expected);
                taken += 1;
            }
        }
        if let [fault] = wrong[..] {
            *alone.entry(fault).or_insert(0) += 1;
        }
    }
    println!("{taken:>7}  taken");
    for (fault, times) in &alone {
        println!("{times:>7}  refused for {fault} alone");
        assert!(*times > 100, "{fault}");
    }
    assert!(taken > 10_000 && alone.len() == 13);
}

// ---- by the safe call

const CLIPS: [ListedClip; 4] = [
    song(0, 1, RATE, 2_880_000),
    song(4, 2, RATE, 1_440_000),
    ListedClip {
        slot: 7,
        serial: 3,
        rate: RATE,
        frames: 24_000,
        length: None,
    },
    song(9, 5, 44_100, 441_000),
];

const fn song(slot: u32, serial: u32, rate: u32, frames: u64) -> ListedClip {
    ListedClip {
        slot,
        serial,
        rate,
        frames,
        length: Some(SongFrame(frames)),
    }
}

/// A tour of two minutes: twelve records, three of which are skipped and one of which is due later.
fn two_minutes() -> Vec<u8> {
    let gain = |gain: f32| u64::from(gain.to_bits());
    let [hall, bell, attic] = [4 << 32 | 2, 7 << 32 | 3, 9 << 32 | 5];
    let records = [
        [0, 11, 1, 0, 0],
        [480_000, 12, 6, 96_000, 192_000],
        [500_000, 13, 10, bell, gain(0.75)],
        [500_000, 14, 10, bell, gain(20.0)],
        [1_200_000, 15, 8, gain(0.25), 0],
        [2_400_000, 16, 9, attic, 0],
        [2_400_000, 17, 9, hall, 0],
        [2_448_000, 18, 6, 48_000, 96_000],
        [2_500_000, 19, 6, 5_000, 5_000],
        [4_320_000, 20, 7, 0, 0],
        [4_560_000, 21, 5, 1_200_000, 0],
        [9_600_000, 22, 3, 0, 0],
    ];
    let mut clips = [0; 32];
    (clips[4], clips[7], clips[9]) = (hall, bell, attic);
    format::write(&clips, &records, usize::MAX).unwrap()
}

#[test]
fn what_a_host_is_told() {
    let tour = two_minutes();
    let mut sheet = DryRunSheet::new();
    let blocks = [[11_250, 512]];
    let told = dry_run(Mode::AsTono, &CLIPS, &tour, &blocks, &mut sheet).unwrap();
    assert_eq!((told.records().len(), told.taken), (12, 9));
    assert_eq!(told.records()[11], [9_600_000, 22, 3, 0, 0]);
    let skipped: Vec<(usize, u32)> = told
        .skipped()
        .map(|x| (x.record, x.refusal.number()))
        .collect();
    assert_eq!(skipped, [(3, 14), (5, 13), (8, 22)]);
    assert_eq!(told.skipped().nth(1).unwrap().refusal, Refusal::WrongRate);

    let rows: Vec<[u64; 6]> = told
        .rows()
        .map(|x| {
            [
                x.record as u64 + 1,
                x.clock.0,
                x.from.0,
                x.to.0,
                x.laps,
                x.then,
            ]
        })
        .collect();
    let expected = [
        [1, 0, 0, 0, 0, 0],
        [2, 480_000, 480_000, 480_000, 0, 0],
        [3, 500_000, 116_000, 116_000, 1, 1],
        [5, 1_200_000, 144_000, 144_000, 8, 8],
        [7, 2_400_000, 96_000, 0, 21, 0],
        [8, 2_448_000, 48_000, 48_000, 0, 0],
        [10, 4_320_000, 48_000, 48_000, 39, 0],
        [11, 4_560_000, 288_000, 1_200_000, 0, 0],
    ];
    assert_eq!(rows, expected);
    let numbers: Vec<u64> = told.rows().map(|x| x.words[1]).collect();
    assert_eq!(numbers, [1, 2, 3, 4, 5, 6, 7, 8]);
    assert_eq!(told.queued(), [[9_600_000, 9, 3, 0, 0]]);
    assert_eq!(
        (told.clock, told.state, told.position),
        (ClockFrame(5_760_000), State::Stopped, SongFrame(1_440_000))
    );
    assert_eq!((told.looped, told.laps), (None, 0));

    // A minute: it goes round, and what is left is due from the last on.
    let mut sheet = DryRunSheet::new();
    let told = dry_run(Mode::House, &CLIPS, &tour, &[[60, 48_000]], &mut sheet).unwrap();
    assert_eq!((told.rows().len(), told.queued().len()), (6, 3));
    assert_eq!(told.queued()[2], [4_320_000, 7, 7, 0, 0]);
    let (start, end) = (SongFrame(48_000), SongFrame(96_000));
    assert_eq!(told.looped, Some(LoopRange { start, end }));
    assert_eq!((told.state, told.laps), (State::Playing, 9));
}

#[test]
fn what_a_host_is_refused() {
    let tour = two_minutes();
    let mut sheet = DryRunSheet::new();
    let mut refused = |clips: &[ListedClip], tour: &[u8], blocks: &[[u64; 2]]| {
        let told = dry_run(Mode::AsTono, clips, tour, blocks, &mut sheet);
        told.unwrap_err()
    };
    let cut = &tour[..tour.len() - 1];
    let long = file(&TWO, &plays(MOST + 1));
    let place = TourPlace::Byte(tour.len() - 5);
    let fault = DryRunRefusal::Tour(TourRefusal {
        fault: CutShort,
        place,
    });
    for (refusal, expected, number, words) in [
        (
            refused(&[], cut, &[]),
            DryRunRefusal::BadClips,
            116,
            "no session has this clip list".to_string(),
        ),
        (
            refused(&CLIPS, cut, &[[2, END]]),
            fault,
            102,
            format!("file cut short, at byte {}", tour.len() - 5),
        ),
        (
            refused(&CLIPS, &long, &[[2, END]]),
            DryRunRefusal::LongTour,
            117,
            "more than 256 commands in the tour".to_string(),
        ),
        (
            refused(&CLIPS, &tour, &[[2, END]]),
            DryRunRefusal::ClockSpent,
            4,
            Refusal::ClockSpent.to_string(),
        ),
    ] {
        assert_eq!((refusal, refusal.number()), (expected, number));
        assert_eq!(refusal.to_string(), words);
    }
    // 32 clips are the most, however long the list.
    let clips: Vec<ListedClip> = (0..2_000).map(|n| song(n % 32, n + 1, RATE, 9)).collect();
    let empty = file(&TWO, &[]);
    for (length, expected) in [
        (32, None),
        (33, Some(116)),
        (40, Some(116)),
        (2_000, Some(116)),
    ] {
        let told = dry_run(Mode::AsTono, &clips[..length], &empty, &[], &mut sheet);
        assert_eq!(told.err().map(DryRunRefusal::number), expected);
    }
}
