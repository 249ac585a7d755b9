//! What a saved tour does, without its sound.

use core::error::Error;
use core::fmt;

use crate::command::{ClockFrame, Handle, LoopRange, Mode, SongFrame, State};
use crate::raw;
use crate::refusal::Refusal;
use crate::session::WORDS;
use crate::tour::{TourFault, TourPlace, TourRefusal};

/// The words of a clip in the list, and of a row on the sheet.
const CLIP: usize = 6;
const ROW: usize = 10;

/// One line more than there are slots: no session has a list of so many.
const LINES: usize = raw::SLOTS + 1;

/// Tells what a saved tour does: each executed command with its clock frame, and the position and the laps around it.
///
/// It is what a session of this [`Mode`] does that has just these clips, is stopped at 0 on the first of them, a song whose
/// rate is the session's, and has a queue for 256 commands or more: the file's commands, a clip byte being a slot, are
/// replayed at clock 0, and then the blocks are made, so many `[times, length]`. Only the sum of the blocks counts, and
/// hours cost no more than the commands in them.
///
/// A record that the replay skips is no refusal: the [`DryRun`] tells why each was. It is refused, in this order, if no
/// session has these clips, if the file is not read as by [`read_tour`](crate::read_tour), if it has more than 256
/// commands, and if the blocks pass clock 2^62; a refused call leaves the sheet as it was.
///
/// ```
/// use threshreed::{ClockFrame, DryRunSheet, ListedClip, Mode, SongFrame, dry_run, tour_bytes, write_tour};
///
/// // A song of 100 frames. It plays, goes round from frame 10 to 20 after a while, and is stopped long after.
/// let length = Some(SongFrame(100));
/// let song = ListedClip { slot: 0, serial: 1, rate: 48_000, frames: 100, length };
/// let records = [[0, 1, 1, 0, 0], [30, 2, 6, 10, 20], [1 << 50, 3, 3, 0, 0]];
/// let mut file = [0; tour_bytes(3)];
/// let bytes = write_tour(&[None; 32], records.as_flattened(), &mut file)?;
///
/// let mut sheet = DryRunSheet::new();
/// let hour = [[337_500, 512]];
/// let run = dry_run(Mode::AsTono, &[song], &file[..bytes], &hour, &mut sheet)?;
/// let rows: Vec<_> = run.rows().map(|row| (row.clock, row.from, row.to)).collect();
/// assert_eq!(rows[0], (ClockFrame(0), SongFrame(0), SongFrame(0)));
/// assert_eq!(rows[1], (ClockFrame(30), SongFrame(30), SongFrame(30)));
/// assert_eq!((run.clock, run.position), (ClockFrame(172_800_000), SongFrame(10)));
/// assert_eq!(run.laps, 1 + (172_800_000 - 30) / 10);
/// assert_eq!(run.queued().len(), 1);
/// # Ok::<(), Box<dyn std::error::Error>>(())
/// ```
pub fn dry_run<'a>(
    mode: Mode,
    clips: &[ListedClip],
    file: &[u8],
    blocks: &[[u64; 2]],
    sheet: &'a mut DryRunSheet,
) -> Result<DryRun<'a>, DryRunRefusal> {
    let mut lines = [[0; CLIP]; LINES];
    let listed = clips.len().min(LINES);
    for (line, clip) in lines.iter_mut().zip(clips) {
        *line = clip.words();
    }
    let answered = raw::dry_run(
        mode.number(),
        lines[..listed].as_flattened(),
        file,
        blocks.as_flattened(),
        &mut sheet.records,
        &mut sheet.reasons,
        &mut sheet.queue,
        &mut sheet.rows,
    );
    DryRunRefusal::check(&answered)?;
    Ok(DryRun {
        clock: ClockFrame(answered.clock),
        song: Handle(answered.song),
        state: State::of(answered.state),
        position: SongFrame(answered.position),
        looped: LoopRange::of(answered.looped),
        laps: answered.laps,
        taken: answered.taken,
        records: &sheet.records[..answered.commands],
        reasons: &sheet.reasons[..answered.commands],
        queue: &sheet.queue[..answered.queued],
        rows: &sheet.rows[..answered.executed],
    })
}

/// A clip of the list: where it is loaded, and what it is.
#[derive(Clone, Copy, Debug, PartialEq, Eq, Hash)]
pub struct ListedClip {
    pub slot: u32,
    pub serial: u32,
    pub rate: u32,
    pub frames: u64,
    /// The length of a song; a stinger has none.
    pub length: Option<SongFrame>,
}

impl ListedClip {
    fn words(&self) -> [u64; CLIP] {
        let (kind, length) = match self.length {
            Some(length) => (1, length.0),
            None => (2, 0),
        };
        let [slot, serial, rate] = [self.slot, self.serial, self.rate].map(u64::from);
        [slot, serial, kind, rate, self.frames, length]
    }
}

/// The stores of a dry run, 42 KB, which a static can hold.
pub struct DryRunSheet {
    records: [[u64; WORDS]; raw::DRY_COMMANDS],
    reasons: [u64; raw::DRY_COMMANDS],
    queue: [[u64; WORDS]; raw::DRY_COMMANDS],
    rows: [[u64; ROW]; raw::DRY_COMMANDS],
}

impl DryRunSheet {
    pub const fn new() -> Self {
        DryRunSheet {
            records: [[0; WORDS]; raw::DRY_COMMANDS],
            reasons: [0; raw::DRY_COMMANDS],
            queue: [[0; WORDS]; raw::DRY_COMMANDS],
            rows: [[0; ROW]; raw::DRY_COMMANDS],
        }
    }
}

impl Default for DryRunSheet {
    fn default() -> Self {
        DryRunSheet::new()
    }
}

/// What a dry run tells: where the session stands at the end, and what was done with each command.
#[derive(Clone, Copy, Debug, PartialEq, Eq)]
pub struct DryRun<'a> {
    pub clock: ClockFrame,
    /// The song that plays: a handle of the listed session.
    pub song: Handle,
    pub state: State,
    pub position: SongFrame,
    pub looped: Option<LoopRange>,
    pub laps: u64,
    /// How many of the file's records were taken. The queue was full for none, and the rest were skipped.
    pub taken: usize,
    records: &'a [[u64; WORDS]],
    reasons: &'a [u64],
    queue: &'a [[u64; WORDS]],
    rows: &'a [[u64; ROW]],
}

impl<'a> DryRun<'a> {
    /// The file's records, [`WORDS`] words each.
    pub const fn records(&self) -> &'a [[u64; WORDS]] {
        self.records
    }

    /// The records that were not taken, in order, and why.
    pub fn skipped(&self) -> impl Iterator<Item = Skipped> + use<'a> {
        let records = self.reasons.iter().enumerate();
        records.filter_map(|(record, reason)| {
            let refusal = Refusal::check(*reason as u32).err()?;
            Some(Skipped { record, refusal })
        })
    }

    /// The executed commands, in order.
    pub fn rows(&self) -> impl ExactSizeIterator<Item = Row> + use<'a> {
        let reasons = self.reasons;
        self.rows.iter().map(move |row| {
            let [at, number, kind, first, second, clock, from, to, laps, then] = *row;
            let taken = (0..reasons.len()).filter(|x| reasons[*x] == 0);
            Row {
                record: taken.take(number as usize).last().unwrap_or(0),
                words: [at, number, kind, first, second],
                clock: ClockFrame(clock),
                from: SongFrame(from),
                to: SongFrame(to),
                laps,
                then,
            }
        })
    }

    /// The records that are still queued, of which the last is due first. A number is a place among the records taken,
    /// from 1.
    pub const fn queued(&self) -> &'a [[u64; WORDS]] {
        self.queue
    }
}

/// A record that was not taken.
#[derive(Clone, Copy, Debug, PartialEq, Eq, Hash)]
pub struct Skipped {
    /// Which of the file's, from 0.
    pub record: usize,
    pub refusal: Refusal,
}

/// An executed command.
#[derive(Clone, Copy, Debug, PartialEq, Eq, Hash)]
pub struct Row {
    /// Which of the file's, from 0.
    pub record: usize,
    /// The record's words, as they were queued: its number is its place among the records taken, from 1.
    pub words: [u64; WORDS],
    pub clock: ClockFrame,
    /// The position before it.
    pub from: SongFrame,
    /// The position after it.
    pub to: SongFrame,
    /// The laps before it.
    pub laps: u64,
    /// The laps after it.
    pub then: u64,
}

/// Why a dry run is refused.
///
/// ```
/// use threshreed::{DryRunRefusal, DryRunSheet, Mode, dry_run};
///
/// let refused = dry_run(Mode::House, &[], &[], &[], &mut DryRunSheet::new()).unwrap_err();
/// assert_eq!((refused, refused.number()), (DryRunRefusal::BadClips, 116));
/// assert_eq!(refused.to_string(), "no session has this clip list");
/// ```
#[derive(Clone, Copy, Debug, PartialEq, Eq, Hash)]
pub enum DryRunRefusal {
    /// A session has at least one clip, the first a song; its clips have slots of their own, 0 to 31, serials of their
    /// own, from 1 on, rates of 8,000 to 192,000 and at least one frame, and a song a length from its frames to 2^40.
    /// Together they have at most 33,554,432 frames.
    BadClips,
    /// The tour's file is not read. A clip byte must be a slot of the list.
    Tour(TourRefusal),
    LongTour,
    ClockSpent,
}

impl DryRunRefusal {
    /// Its number, as the library answers it.
    pub const fn number(self) -> u32 {
        match self {
            DryRunRefusal::BadClips => 116,
            DryRunRefusal::Tour(refusal) => refusal.fault.number(),
            DryRunRefusal::LongTour => 117,
            DryRunRefusal::ClockSpent => Refusal::ClockSpent.number(),
        }
    }

    /// An answer's: the library gives no number but 0 and theirs.
    fn check(answered: &raw::DryRun) -> Result<(), DryRunRefusal> {
        if answered.refusal == 0 {
            return Ok(());
        }
        let own = [DryRunRefusal::LongTour, DryRunRefusal::ClockSpent];
        let mut own = own.into_iter().filter(|x| x.number() == answered.refusal);
        let place = TourPlace::Byte(answered.place);
        let tour = |fault| DryRunRefusal::Tour(TourRefusal { fault, place });
        let named = TourFault::of(answered.refusal).map(tour).or(own.next());
        Err(named.unwrap_or(DryRunRefusal::BadClips))
    }
}

impl fmt::Display for DryRunRefusal {
    fn fmt(&self, f: &mut fmt::Formatter<'_>) -> fmt::Result {
        match self {
            DryRunRefusal::BadClips => f.write_str("no session has this clip list"),
            DryRunRefusal::Tour(refusal) => refusal.fmt(f),
            DryRunRefusal::LongTour => f.write_str("more than 256 commands in the tour"),
            DryRunRefusal::ClockSpent => Refusal::ClockSpent.fmt(f),
        }
    }
}

impl Error for DryRunRefusal {}
