//! The proved library as it is: a session by value in and out, the stores as slices. Any argument is safe.

pub const SLOTS: usize = 32;
pub const VOICES: usize = 16;

/// The most commands of a tour that a dry run takes.
pub const DRY_COMMANDS: usize = 256;

/// The refusal of an argument that names no case. It is a host's own, far above the table's.
pub const NO_SUCH_CASE: u32 = 255;

/// Mode: 0 as tono, 1 house.
#[repr(C)]
#[derive(Clone, Copy, Debug, PartialEq)]
pub struct Settings {
    pub rate: u32,
    pub mode: u32,
    pub queue: usize,
    pub capture: usize,
    pub pool: u64,
}

#[repr(C)]
#[derive(Clone, Copy, Debug, PartialEq, Eq, Hash)]
pub struct Handle {
    pub slot: u32,
    pub serial: u32,
}

#[repr(C)]
#[derive(Clone, Copy, Debug, PartialEq)]
pub struct Ramp {
    pub value: f32,
    pub target: f32,
    pub step: f32,
    pub remaining: u32,
}

/// Kind: 1 a song, 2 a stinger, whose `extent` is not used. Of a slot that is not used nothing is.
#[repr(C)]
#[derive(Clone, Copy, Debug, PartialEq)]
pub struct Clip {
    pub serial: u32,
    pub kind: u32,
    pub extent: u64,
    pub start: u64,
    pub frames: u64,
    pub rate: u32,
}

/// Set: 0 or 1. If 0, the ends are not used.
#[repr(C)]
#[derive(Clone, Copy, Debug, PartialEq)]
pub struct Loop {
    pub set: u32,
    pub start: u64,
    pub end: u64,
}

/// Sounding: 0 or 1. If 0, the rest is not used.
#[repr(C)]
#[derive(Clone, Copy, Debug, PartialEq)]
pub struct Tail {
    pub sounding: u32,
    pub song: Handle,
    pub cursor: u64,
    pub weight: Ramp,
}

#[repr(C)]
#[derive(Clone, Copy, Debug, PartialEq)]
pub struct Voice {
    pub handle: Handle,
    pub head: usize,
    pub gain: Ramp,
}

/// The first `count` sound, in firing order.
#[repr(C)]
#[derive(Clone, Copy, Debug, PartialEq)]
pub struct Voices {
    pub table: [Voice; VOICES],
    pub count: usize,
}

#[repr(C)]
#[derive(Clone, Copy, Debug, PartialEq)]
pub struct Counters {
    pub executed: u64,
    pub swaps: u64,
    pub fired: u64,
}

/// State: 0 stopped, 1 playing, 2 paused. Laps: those since the loop was set. Capturing: 0 or 1.
#[repr(C)]
#[derive(Clone, Copy, Debug, PartialEq)]
pub struct Session {
    pub settings: Settings,
    pub used: u32,
    pub last: u32,
    pub clips: [Clip; SLOTS],
    pub clock: u64,
    pub state: u32,
    pub position: u64,
    pub cursor: u64,
    pub looped: Loop,
    pub laps: u64,
    pub song: Handle,
    pub master: Ramp,
    pub tail: Tail,
    pub voices: Voices,
    pub counters: Counters,
    pub queued: usize,
    pub number: u64,
    pub deepest: usize,
    pub dropped: u64,
    pub capturing: u32,
    pub captured: usize,
}

/// Kind: 1 play, 2 pause, 3 stop, 4 seek to `frame`, 6 loop from `frame` to `end`, 7 clear the loop, 8 gain, 9 swap to
/// `clip`, 10 sound `clip` at `gain`. Fields that a kind does not name are not used.
#[repr(C)]
#[derive(Clone, Copy, Debug, PartialEq)]
pub struct Command {
    pub kind: u32,
    pub gain: f32,
    pub clip: Handle,
    pub frame: u64,
    pub end: u64,
}

/// Kind: 1 at once, 2 at clock frame `frame`, 3 at song frame `frame`.
#[repr(C)]
#[derive(Clone, Copy, Debug, PartialEq)]
pub struct At {
    pub kind: u32,
    pub frame: u64,
}

#[repr(C)]
#[derive(Clone, Copy, Debug, PartialEq)]
pub struct Snapshot {
    pub position: u64,
    pub state: u32,
    pub gain: f32,
    pub looped: Loop,
}

#[repr(C)]
#[derive(Clone, Copy, Debug, PartialEq, Eq)]
pub struct Report {
    pub taken: usize,
    pub full: usize,
    pub skipped: usize,
}

#[repr(C)]
#[derive(Clone, Copy, Debug, PartialEq, Eq)]
pub struct Metrics {
    pub rendered: u64,
    pub executed: u64,
    pub dropped: u64,
    pub deepest: usize,
    pub swaps: u64,
    pub fired: u64,
}

/// Where a ring stands in its store: the place of the sample that is read next, and of the one that is written next. One
/// place always stays empty, so that a ring of two equal places holds nothing.
#[repr(C)]
#[derive(Clone, Copy, Debug, PartialEq, Eq)]
pub struct Ring {
    pub head: usize,
    pub tail: usize,
}

/// In every answer `refusal` is 0, or the refusal's number.
#[repr(C)]
#[derive(Clone, Copy, Debug, PartialEq)]
pub struct Answered {
    pub refusal: u32,
    pub session: Session,
}

#[repr(C)]
#[derive(Clone, Copy, Debug, PartialEq)]
pub struct Loaded {
    pub refusal: u32,
    pub handle: Handle,
    pub session: Session,
}

#[repr(C)]
#[derive(Clone, Copy, Debug, PartialEq)]
pub struct Submitted {
    pub refusal: u32,
    pub number: u64,
    pub session: Session,
}

/// Passes: how many times the playhead passed from a loop's end to its start in the block.
#[repr(C)]
#[derive(Clone, Copy, Debug, PartialEq)]
pub struct Blocked {
    pub refusal: u32,
    pub passes: u64,
    pub session: Session,
}

/// The frames made, their passes, and the ring past them.
#[repr(C)]
#[derive(Clone, Copy, Debug, PartialEq)]
pub struct Pumped {
    pub refusal: u32,
    pub frames: usize,
    pub passes: u64,
    pub ring: Ring,
    pub session: Session,
}

/// The frames taken, and the ring past them.
#[repr(C)]
#[derive(Clone, Copy, Debug, PartialEq, Eq)]
pub struct Drained {
    pub refusal: u32,
    pub frames: usize,
    pub ring: Ring,
}

#[repr(C)]
#[derive(Clone, Copy, Debug, PartialEq)]
pub struct Replayed {
    pub refusal: u32,
    pub report: Report,
    pub session: Session,
}

#[repr(C)]
#[derive(Clone, Copy, Debug, PartialEq)]
pub struct Stopped {
    pub refusal: u32,
    pub copied: usize,
    pub session: Session,
}

#[repr(C)]
#[derive(Clone, Copy, Debug, PartialEq)]
pub struct Snapped {
    pub refusal: u32,
    pub snapshot: Snapshot,
    pub session: Session,
}

#[repr(C)]
#[derive(Clone, Copy, Debug, PartialEq)]
pub struct Metered {
    pub refusal: u32,
    pub metrics: Metrics,
    pub session: Session,
}

/// The records read or the bytes written. If it is refused, the first byte of the field at fault, or which record of the
/// list; 0 if it is none.
#[repr(C)]
#[derive(Clone, Copy, Debug, PartialEq, Eq)]
pub struct Tour {
    pub refusal: u32,
    pub count: usize,
    pub place: usize,
}

/// The commands kept, the bytes of the fresh file and the ranges listed; each 0 if it is refused.
#[repr(C)]
#[derive(Clone, Copy, Debug, PartialEq, Eq)]
pub struct Salvage {
    pub refusal: u32,
    pub kept: usize,
    pub bytes: usize,
    pub ranges: usize,
}

/// The commands in the file, those taken, executed and still queued, and where the session stands at the end. If it is
/// refused, the first byte of the field at fault in the tour's file, 0 if it is none, and all else is 0.
#[repr(C)]
#[derive(Clone, Copy, Debug, PartialEq)]
pub struct DryRun {
    pub refusal: u32,
    pub place: usize,
    pub commands: usize,
    pub taken: usize,
    pub executed: usize,
    pub queued: usize,
    pub clock: u64,
    pub song: Handle,
    pub state: u32,
    pub position: u64,
    pub looped: Loop,
    pub laps: u64,
}

unsafe extern "C" {
    fn threshreed_open(
        settings: Settings,
        queue: *const u64,
        queue_len: usize,
        capture: *const u64,
        capture_len: usize,
        pool: *mut f32,
        pool_len: usize,
        samples: *const f32,
        samples_len: usize,
        rate: u32,
        extent: u64,
    ) -> Loaded;

    fn threshreed_load(
        session: Session,
        queue: *const u64,
        queue_len: usize,
        capture: *const u64,
        capture_len: usize,
        pool: *mut f32,
        pool_len: usize,
        samples: *const f32,
        samples_len: usize,
        kind: u32,
        extent: u64,
        rate: u32,
    ) -> Loaded;

    fn threshreed_retire(
        session: Session,
        queue: *const u64,
        queue_len: usize,
        capture: *const u64,
        capture_len: usize,
        clip: Handle,
    ) -> Answered;

    fn threshreed_submit(
        session: Session,
        queue: *mut u64,
        queue_len: usize,
        capture: *mut u64,
        capture_len: usize,
        command: Command,
        at: At,
    ) -> Submitted;

    fn threshreed_transition(
        session: Session,
        queue: *mut u64,
        queue_len: usize,
        capture: *mut u64,
        capture_len: usize,
        frame: u64,
        at: At,
    ) -> Submitted;

    fn threshreed_replay(
        session: Session,
        queue: *mut u64,
        queue_len: usize,
        capture: *const u64,
        capture_len: usize,
        list: *const u64,
        list_len: usize,
    ) -> Replayed;

    fn threshreed_block(
        session: Session,
        queue: *const u64,
        queue_len: usize,
        capture: *const u64,
        capture_len: usize,
        pool: *const f32,
        pool_len: usize,
        out: *mut f32,
        out_len: usize,
    ) -> Blocked;

    fn threshreed_pump(
        session: Session,
        queue: *const u64,
        queue_len: usize,
        capture: *const u64,
        capture_len: usize,
        pool: *const f32,
        pool_len: usize,
        ring: Ring,
        store: *mut f32,
        store_len: usize,
        frames: usize,
    ) -> Pumped;

    fn threshreed_drain(
        ring: Ring,
        store: *const f32,
        store_len: usize,
        out: *mut f32,
        out_len: usize,
    ) -> Drained;

    fn threshreed_start_capture(
        session: Session,
        queue: *const u64,
        queue_len: usize,
        capture: *const u64,
        capture_len: usize,
    ) -> Answered;

    fn threshreed_stop_capture(
        session: Session,
        queue: *const u64,
        queue_len: usize,
        capture: *const u64,
        capture_len: usize,
        list: *mut u64,
        list_len: usize,
    ) -> Stopped;

    fn threshreed_snapshot(
        session: Session,
        queue: *const u64,
        queue_len: usize,
        capture: *const u64,
        capture_len: usize,
    ) -> Snapped;

    fn threshreed_apply_snapshot(
        session: Session,
        queue: *const u64,
        queue_len: usize,
        capture: *const u64,
        capture_len: usize,
        snapshot: Snapshot,
    ) -> Answered;

    fn threshreed_metrics(
        session: Session,
        queue: *const u64,
        queue_len: usize,
        capture: *const u64,
        capture_len: usize,
    ) -> Metered;

    fn threshreed_read_tour(
        clips: *const u64,
        file: *const u8,
        file_len: usize,
        list: *mut u64,
        list_len: usize,
    ) -> Tour;

    fn threshreed_write_tour(
        clips: *const u64,
        records: *const u64,
        records_len: usize,
        out: *mut u8,
        out_len: usize,
    ) -> Tour;

    fn threshreed_salvage(
        file: *const u8,
        file_len: usize,
        out: *mut u8,
        out_len: usize,
        list: *mut u64,
        list_len: usize,
    ) -> Salvage;

    fn threshreed_dry_run(
        mode: u32,
        clips: *const u64,
        clips_len: usize,
        file: *const u8,
        file_len: usize,
        blocks: *const u64,
        blocks_len: usize,
        records: *mut u64,
        reasons: *mut u64,
        queue: *mut u64,
        sheet: *mut u64,
    ) -> DryRun;
}

// Each `unsafe` below is one call of the library. It asks of a pointer that it is aligned and not null, stands for so many
// elements, and that what is written overlaps nothing else that is lent: slices and their borrows give just that, an
// empty slice too. Nothing is kept of a pointer after the call, and the types above have no bits that they may not have.

/// Opens a session on its first song. A refused one has no session to hand back: every call refuses what it gives.
pub fn open(
    settings: Settings,
    queue: &[u64],
    capture: &[u64],
    pool: &mut [f32],
    samples: &[f32],
    rate: u32,
    extent: u64,
) -> Loaded {
    unsafe {
        threshreed_open(
            settings,
            queue.as_ptr(),
            queue.len(),
            capture.as_ptr(),
            capture.len(),
            pool.as_mut_ptr(),
            pool.len(),
            samples.as_ptr(),
            samples.len(),
            rate,
            extent,
        )
    }
}

/// Loads a clip of a kind: 1 a song of a length, 2 a stinger.
#[allow(clippy::too_many_arguments)]
pub fn load(
    session: Session,
    queue: &[u64],
    capture: &[u64],
    pool: &mut [f32],
    samples: &[f32],
    kind: u32,
    extent: u64,
    rate: u32,
) -> Loaded {
    unsafe {
        threshreed_load(
            session,
            queue.as_ptr(),
            queue.len(),
            capture.as_ptr(),
            capture.len(),
            pool.as_mut_ptr(),
            pool.len(),
            samples.as_ptr(),
            samples.len(),
            kind,
            extent,
            rate,
        )
    }
}

/// Retires a clip that nothing holds.
pub fn retire(session: Session, queue: &[u64], capture: &[u64], clip: Handle) -> Answered {
    unsafe {
        threshreed_retire(
            session,
            queue.as_ptr(),
            queue.len(),
            capture.as_ptr(),
            capture.len(),
            clip,
        )
    }
}

/// Submits a command of one of nine kinds.
pub fn submit(
    session: Session,
    queue: &mut [u64],
    capture: &mut [u64],
    command: Command,
    at: At,
) -> Submitted {
    unsafe {
        threshreed_submit(
            session,
            queue.as_mut_ptr(),
            queue.len(),
            capture.as_mut_ptr(),
            capture.len(),
            command,
            at,
        )
    }
}

/// Submits a transition in place of every queued one.
pub fn transition(
    session: Session,
    queue: &mut [u64],
    capture: &mut [u64],
    frame: u64,
    at: At,
) -> Submitted {
    unsafe {
        threshreed_transition(
            session,
            queue.as_mut_ptr(),
            queue.len(),
            capture.as_mut_ptr(),
            capture.len(),
            frame,
            at,
        )
    }
}

/// Queues the records of a list at their frames.
pub fn replay(session: Session, queue: &mut [u64], capture: &[u64], list: &[u64]) -> Replayed {
    unsafe {
        threshreed_replay(
            session,
            queue.as_mut_ptr(),
            queue.len(),
            capture.as_ptr(),
            capture.len(),
            list.as_ptr(),
            list.len(),
        )
    }
}

/// Makes a block: half as many frames as the output has samples.
pub fn block(
    session: Session,
    queue: &[u64],
    capture: &[u64],
    pool: &[f32],
    out: &mut [f32],
) -> Blocked {
    unsafe {
        threshreed_block(
            session,
            queue.as_ptr(),
            queue.len(),
            capture.as_ptr(),
            capture.len(),
            pool.as_ptr(),
            pool.len(),
            out.as_mut_ptr(),
            out.len(),
        )
    }
}

/// Makes frames into a ring's store: those asked for, held to half the free samples.
pub fn pump(
    session: Session,
    queue: &[u64],
    capture: &[u64],
    pool: &[f32],
    ring: Ring,
    store: &mut [f32],
    frames: usize,
) -> Pumped {
    unsafe {
        threshreed_pump(
            session,
            queue.as_ptr(),
            queue.len(),
            capture.as_ptr(),
            capture.len(),
            pool.as_ptr(),
            pool.len(),
            ring,
            store.as_mut_ptr(),
            store.len(),
            frames,
        )
    }
}

/// Fills the callback's block from a ring's store: whole frames while there are any, and silence.
pub fn drain(ring: Ring, store: &[f32], out: &mut [f32]) -> Drained {
    unsafe {
        threshreed_drain(
            ring,
            store.as_ptr(),
            store.len(),
            out.as_mut_ptr(),
            out.len(),
        )
    }
}

/// Starts capture, empty.
pub fn start_capture(session: Session, queue: &[u64], capture: &[u64]) -> Answered {
    unsafe {
        threshreed_start_capture(
            session,
            queue.as_ptr(),
            queue.len(),
            capture.as_ptr(),
            capture.len(),
        )
    }
}

/// Stops capture and copies its records to the list's front.
pub fn stop_capture(session: Session, queue: &[u64], capture: &[u64], list: &mut [u64]) -> Stopped {
    unsafe {
        threshreed_stop_capture(
            session,
            queue.as_ptr(),
            queue.len(),
            capture.as_ptr(),
            capture.len(),
            list.as_mut_ptr(),
            list.len(),
        )
    }
}

/// Takes a control snapshot.
pub fn snapshot(session: Session, queue: &[u64], capture: &[u64]) -> Snapped {
    unsafe {
        threshreed_snapshot(
            session,
            queue.as_ptr(),
            queue.len(),
            capture.as_ptr(),
            capture.len(),
        )
    }
}

/// Applies a control snapshot.
pub fn apply_snapshot(
    session: Session,
    queue: &[u64],
    capture: &[u64],
    snapshot: Snapshot,
) -> Answered {
    unsafe {
        threshreed_apply_snapshot(
            session,
            queue.as_ptr(),
            queue.len(),
            capture.as_ptr(),
            capture.len(),
            snapshot,
        )
    }
}

/// Reads the metrics.
pub fn metrics(session: Session, queue: &[u64], capture: &[u64]) -> Metered {
    unsafe {
        threshreed_metrics(
            session,
            queue.as_ptr(),
            queue.len(),
            capture.as_ptr(),
            capture.len(),
        )
    }
}

/// Reads a tour's file to the list's front. A clip is slot * 2^32 + serial; none if the serial is 0.
pub fn read_tour(clips: &[u64; SLOTS], file: &[u8], list: &mut [u64]) -> Tour {
    unsafe {
        threshreed_read_tour(
            clips.as_ptr(),
            file.as_ptr(),
            file.len(),
            list.as_mut_ptr(),
            list.len(),
        )
    }
}

/// Writes records as a tour's file to the output's front.
pub fn write_tour(clips: &[u64; SLOTS], records: &[u64], out: &mut [u8]) -> Tour {
    unsafe {
        threshreed_write_tour(
            clips.as_ptr(),
            records.as_ptr(),
            records.len(),
            out.as_mut_ptr(),
            out.len(),
        )
    }
}

/// Salvages a damaged tour's file: a fresh file to the output's front, the ranges to the list's. A range is three words:
/// 1 kept, 2 passed over or 3 dropped, its first byte, and the byte behind its last.
pub fn salvage(file: &[u8], out: &mut [u8], list: &mut [u64]) -> Salvage {
    unsafe {
        threshreed_salvage(
            file.as_ptr(),
            file.len(),
            out.as_mut_ptr(),
            out.len(),
            list.as_mut_ptr(),
            list.len(),
        )
    }
}

/// Runs a tour's file without its sound. A clip is six words: slot, serial, 1 a song or 2 a stinger, rate, frames, length.
/// Blocks are times and length in turn. A row of the sheet is a record's five words, the clock, the position before and
/// after, and the laps before and after.
#[allow(clippy::too_many_arguments)]
pub fn dry_run(
    mode: u32,
    clips: &[u64],
    file: &[u8],
    blocks: &[u64],
    records: &mut [[u64; 5]; DRY_COMMANDS],
    reasons: &mut [u64; DRY_COMMANDS],
    queue: &mut [[u64; 5]; DRY_COMMANDS],
    sheet: &mut [[u64; 10]; DRY_COMMANDS],
) -> DryRun {
    unsafe {
        threshreed_dry_run(
            mode,
            clips.as_ptr(),
            clips.len(),
            file.as_ptr(),
            file.len(),
            blocks.as_ptr(),
            blocks.len(),
            records.as_flattened_mut().as_mut_ptr(),
            reasons.as_mut_ptr(),
            queue.as_flattened_mut().as_mut_ptr(),
            sheet.as_flattened_mut().as_mut_ptr(),
        )
    }
}
