//! How often the interesting situations were reached, read off our session before and after each call.

use std::fmt;
use std::ops::AddAssign;

use threshreed::raw::{Session, Snapshot, Voice};

use crate::between;
use crate::house::Otherwise;
use crate::ours::{Ours, Row};
use crate::script::{Answer, Call, kind, state};
use crate::undo;

/// The situations, in the order in which they are counted.
const NAMES: [&str; 44] = [
    "16 voices",
    "two due at a block's end",
    "a swap in a swap",
    "a tail while paused",
    "a tail that ends inside a block",
    "a seek past a loop's end",
    "rule a",
    "a transition over a transition",
    "a replay into a full queue",
    "a gain ride cut short",
    "a block of 0 frames",
    "a block of 1 frame",
    "a block of 4,096 frames",
    "room used again",
    "a submission refused with 15",
    "a capture that has records",
    "a replay that takes records",
    "a loop past the song's length",
    "a loop of at most 8 frames that comes round",
    "a song of at most 8 frames",
    "a voice of at most 8 frames",
    "voices that end together",
    "voices that end together before others",
    "four voices at rest before one whose gain moves",
    "a gain ride that lands inside a block",
    "a voice's gain that lands inside a block",
    "a landing on a block's last frame",
    "a block's end while gain, tail and a voice's gain move",
    "a song's sample that reads as +0.0",
    "a tail's sample that reads as +0.0",
    "a voice's sample that reads as +0.0",
    "a block with a pass",
    "a block with more than 100 passes",
    "rule a and rule b in one frame",
    "a pass before the laps are set back in a block",
    "laps set back by a snapshot",
    "laps left by a loop that is not set",
    "a loop's third pass",
    "a cut block with passes in two of its pieces",
    "a tail under a master at rest that is not at 1.0",
    "a tail under a master that moves",
    "a snapshot past the song's length",
    "a snapshot with a senseless loop",
    "a snapshot whose loop is not set, over laps",
];

/// The fixed list must reach the first so many of them.
const LISTED: usize = 18;

/// At most so many frames are few.
const FEW: u64 = 8;

/// A count for each situation, for each way in which a law of snapshots or of what comes between blocks is met, and of the
/// calls, the frames, the samples that were not silent, the passes, the senseless loops, the blocks that sound otherwise
/// in house mode and those that leave its cursors otherwise.
#[derive(Clone, Copy)]
pub struct Reached {
    situations: [u64; NAMES.len()],
    undo: [u64; undo::LAWS.len()],
    between: [u64; between::LAWS.len()],
    calls: u64,
    frames: u64,
    sounding: u64,
    passes: u64,
    senseless: u64,
    otherwise: u64,
    apart: u64,
}

/// Our session at a moment between two calls.
pub struct Moment {
    pub session: Session,
    /// The first queued record.
    first: Option<Row>,
    /// Whether its frame has come.
    due: bool,
    /// The frames that each voice has left.
    left: Vec<u64>,
    /// Whether the next frame reads a pattern as +0.0 for the song, for the tail, for a voice.
    silenced: [bool; 3],
    /// What would be applied.
    snapshot: Option<Snapshot>,
}

impl Moment {
    pub fn of(ours: &Ours) -> Moment {
        let (session, voices) = (&ours.session, ours.voices());
        let tail = &session.tail;
        Moment {
            session: *session,
            first: ours.waiting().next().copied(),
            due: ours.is_due(),
            left: voices.iter().map(|voice| ours.left(voice)).collect(),
            silenced: [
                session.state == state::PLAYING && ours.is_silenced(session.song, session.cursor),
                tail.sounding == 1 && ours.is_silenced(tail.song, tail.cursor),
                voices
                    .iter()
                    .any(|voice| ours.is_silenced(voice.handle, voice.head as u64 / 2)),
            ],
            snapshot: ours.snapshot,
        }
    }

    fn voices(&self) -> &[Voice] {
        &self.session.voices.table[..self.session.voices.count]
    }

    /// A block of so many frames, in which nothing is executed, ends a pass of a short loop.
    fn comes_round(&self, frames: u64) -> bool {
        let Session {
            looped, position, ..
        } = self.session;
        self.session.state == state::PLAYING
            && looped.set == 1
            && looped.end - looped.start <= FEW
            && position < looped.end
            && position + frames >= looped.end
    }

    /// The frames left of the first voices that end together, if a block of so many frames has their end.
    fn together(&self, frames: u64) -> Option<u64> {
        let mut left = self.left.clone();
        left.sort();
        let same = left.windows(2).find(|pair| pair[0] == pair[1]);
        same.map(|pair| pair[0]).filter(|left| *left <= frames)
    }

    /// How many voices have a gain that rests. They stand before those whose gain moves, which were fired later.
    fn at_rest(&self) -> usize {
        let rests = |voice: &&Voice| voice.gain.remaining == 0;
        self.voices().iter().take_while(rests).count()
    }

    /// In how many frames the gains of voices land that have as many left.
    fn voice_landings(&self) -> impl Iterator<Item = u64> {
        let remaining = self
            .voices()
            .iter()
            .map(|voice| u64::from(voice.gain.remaining));
        let lands = |(remaining, left): &(u64, &u64)| 0 < *remaining && remaining <= left;
        remaining.zip(&self.left).filter(lands).map(|(x, _)| x)
    }

    /// The song's position is at its loop's end or past it.
    fn past_loop(&self) -> bool {
        self.session.looped.set == 1 && self.session.position >= self.session.looped.end
    }

    /// Rule a takes the playhead to the loop's last frame, so that rule b passes in the same frame.
    fn passes_twice(&self) -> bool {
        let Session {
            looped, position, ..
        } = self.session;
        self.past_loop() && {
            let span = looped.end - looped.start;
            (position - looped.start) % span == span - 1
        }
    }

    /// The first queued record is a loop past the song's length.
    fn unset_loop(&self) -> bool {
        let past = |row: &Row| row[2] == u64::from(kind::LOOP) && row[4] > self.length();
        self.first.as_ref().is_some_and(past)
    }

    /// The song's length.
    fn length(&self) -> u64 {
        self.session.clips[self.session.song.slot as usize].extent
    }

    fn tail(&self) -> bool {
        self.session.tail.sounding == 1
    }
}

fn is_senseless(start: u64, end: u64) -> bool {
    start >= end
}

impl Default for Reached {
    fn default() -> Reached {
        Reached {
            situations: [0; NAMES.len()],
            undo: [0; undo::LAWS.len()],
            between: [0; between::LAWS.len()],
            calls: 0,
            frames: 0,
            sounding: 0,
            passes: 0,
            senseless: 0,
            otherwise: 0,
            apart: 0,
        }
    }
}

impl Reached {
    /// Looks at one call. `pieces` holds the passes of the pieces that a block was cut into, `retired` the starts
    /// of the clips retired so far.
    pub fn see(
        &mut self,
        call: &Call,
        answer: &Answer,
        before: &Moment,
        after: &Moment,
        pieces: &[u64],
        retired: &[u64],
    ) {
        let (was, is) = (&before.session, &after.session);
        let block = match call {
            Call::Block(frames) => Some(*frames),
            _ => None,
        };
        let some_frames = block.is_some_and(|frames| frames > 0);
        let frames = block.unwrap_or(0) as u64;
        let nothing_due = some_frames && !before.due;
        let executed = is.counters.executed - was.counters.executed;
        let undisturbed = some_frames && executed == 0;
        let passes = answer.passes();
        let together = before.together(frames);
        let rule_a = nothing_due && was.state == state::PLAYING && before.past_loop();
        let ride = u64::from(was.master.remaining);
        let fade = u64::from(was.tail.weight.remaining);
        let swapped = is.counters.swaps > was.counters.swaps;
        let transition = matches!((call, answer), (Call::Transition(..), Answer::Queued(_)));
        let full = matches!(answer, Answer::Replayed(report) if report.full > 0);
        let taken = matches!(answer, Answer::Replayed(report) if report.taken > 0);
        let records = matches!(answer, Answer::Records(records) if !records.is_empty());
        let looped = match call {
            Call::Submit(command, _) if command.kind == kind::LOOP => Some(command),
            _ => None,
        };
        let applied = before.snapshot.filter(|_| *call == Call::Apply);
        let again = match (call, answer) {
            (Call::Load(_), Answer::Loaded(handle)) => {
                retired.contains(&is.clips[handle.slot as usize].start)
            }
            _ => false,
        };
        let seen = [
            is.voices.count == 16,
            some_frames && after.due,
            block.is_some() && before.tail() && swapped,
            some_frames && is.state == state::PAUSED && after.tail(),
            block.is_some() && before.tail() && !after.tail() && !swapped,
            block.is_some() && after.past_loop(),
            rule_a,
            transition && is.queued <= was.queued,
            full,
            block.is_some()
                && was.master.remaining > 0
                && was.master.target.to_bits() != is.master.target.to_bits(),
            block == Some(0),
            block == Some(1),
            block == Some(4_096),
            again,
            *answer == Answer::Refused(15),
            records,
            taken,
            looped.is_some_and(|range| range.end > before.length()),
            undisturbed && before.comes_round(frames),
            nothing_due
                && was.state == state::PLAYING
                && was.clips[was.song.slot as usize].frames <= FEW,
            some_frames
                && before
                    .voices()
                    .iter()
                    .any(|voice| was.clips[voice.handle.slot as usize].frames <= FEW),
            together.is_some(),
            together.is_some_and(|end| before.left.iter().any(|left| *left > end)),
            some_frames && before.at_rest() >= 4 && before.voice_landings().next().is_some(),
            undisturbed && 0 < ride && ride < frames,
            before.voice_landings().any(|landing| landing < frames),
            undisturbed
                && (ride == frames
                    || before.tail() && fade == frames
                    || before.voice_landings().any(|landing| landing == frames)),
            undisturbed
                && is.master.remaining > 0
                && after.tail()
                && after.voice_landings().next().is_some(),
            nothing_due && !before.past_loop() && before.silenced[0],
            nothing_due && before.silenced[1],
            nothing_due && before.silenced[2],
            passes > 0,
            passes > 100,
            rule_a && before.passes_twice(),
            is.laps < passes,
            *call == Call::Apply && is.laps < was.laps,
            executed == 1 && before.unset_loop() && was.laps > 0,
            passes > 0 && was.laps < 3 && is.laps >= 3,
            pieces.iter().filter(|passes| **passes > 0).count() > 1,
            nothing_due && before.tail() && ride == 0 && was.master.value != 1.0,
            nothing_due && before.tail() && ride > 0,
            applied.is_some_and(|x| x.position > before.length()),
            applied
                .is_some_and(|x| x.looped.set == 1 && is_senseless(x.looped.start, x.looped.end)),
            applied.is_some() && is.laps > 0,
        ];
        count(&mut self.situations, &seen);
        self.calls += 1;
        self.senseless += u64::from(looped.is_some_and(|x| is_senseless(x.frame, x.end)));
        self.passes += passes;
        if let Answer::Made(bits, _) = answer {
            self.frames += bits.len() as u64 / 2;
            self.sounding += bits.iter().filter(|bits| **bits != 0).count() as u64;
        }
    }

    /// Looks at what a block leaves otherwise in house mode.
    pub fn see_otherwise(&mut self, block: &Otherwise) {
        self.otherwise += u64::from(block.samples);
        self.apart += u64::from(block.cursors);
    }

    /// Looks at how the laws of snapshots were met, in both modes.
    pub fn see_undo(&mut self, met: &undo::Met) {
        count(&mut self.undo, met);
    }

    /// Looks at how the laws of what comes between blocks were met, in both modes.
    pub fn see_between(&mut self, met: &between::Met) {
        count(&mut self.between, met);
    }

    /// How many blocks sound otherwise in house mode.
    pub fn otherwise(&self) -> u64 {
        self.otherwise
    }

    /// After how many blocks the cursors of the two modes differ.
    pub fn apart(&self) -> u64 {
        self.apart
    }

    /// How many loops were submitted whose start is not below their end: the domain has none.
    pub fn senseless(&self) -> u64 {
        self.senseless
    }

    /// The situations that were never reached, and how the laws were never met.
    pub fn missing(&self) -> Vec<&'static str> {
        [
            never(&NAMES, &self.situations),
            never(&undo::LAWS, &self.undo),
            never(&between::LAWS, &self.between),
        ]
        .concat()
    }

    /// The situations that the fixed list must reach and does not.
    pub fn missing_in_list(&self) -> Vec<&'static str> {
        never(&NAMES[..LISTED], &self.situations)
    }
}

/// One more for each that was seen.
pub fn count(counts: &mut [u64], seen: &[bool]) {
    for (count, seen) in counts.iter_mut().zip(seen) {
        *count += u64::from(*seen);
    }
}

pub fn add(counts: &mut [u64], more: &[u64]) {
    for (count, more) in counts.iter_mut().zip(more) {
        *count += more;
    }
}

/// The names whose count is 0.
pub fn never(names: &[&'static str], counts: &[u64]) -> Vec<&'static str> {
    let counted = names.iter().zip(counts);
    let never = counted.filter(|(_, count)| **count == 0);
    never.map(|(name, _)| *name).collect()
}

impl AddAssign for Reached {
    fn add_assign(&mut self, more: Reached) {
        add(&mut self.situations, &more.situations);
        add(&mut self.undo, &more.undo);
        add(&mut self.between, &more.between);
        self.calls += more.calls;
        self.frames += more.frames;
        self.sounding += more.sounding;
        self.passes += more.passes;
        self.senseless += more.senseless;
        self.otherwise += more.otherwise;
        self.apart += more.apart;
    }
}

impl fmt::Display for Reached {
    fn fmt(&self, f: &mut fmt::Formatter<'_>) -> fmt::Result {
        writeln!(f, "{:>10}  calls", self.calls)?;
        writeln!(f, "{:>10}  frames", self.frames)?;
        writeln!(f, "{:>10}  samples that were not silent", self.sounding)?;
        writeln!(f, "{:>10}  passes", self.passes)?;
        writeln!(f, "{:>10}  senseless loops", self.senseless)?;
        writeln!(
            f,
            "{:>10}  blocks that sound otherwise in house mode",
            self.otherwise
        )?;
        writeln!(
            f,
            "{:>10}  blocks after which the cursors of the two modes differ",
            self.apart
        )?;
        for (name, count) in NAMES.into_iter().zip(self.situations) {
            writeln!(f, "{count:>10}  {name}")?;
        }
        let undo = undo::LAWS.into_iter().zip(self.undo);
        let between = between::LAWS.into_iter().zip(self.between);
        for (name, count) in undo.chain(between) {
            writeln!(f, "{count:>10}  {name}, in both modes")?;
        }
        Ok(())
    }
}
