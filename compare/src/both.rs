//! The two sides, played call by call and compared after each.

use std::fmt;
use std::panic::{AssertUnwindSafe, catch_unwind};

use threshreed::raw::Snapshot;

use crate::ours::Ours;
use crate::runtime::ring::{Pump, Renderer, spsc};
use crate::runtime::{AudioSource, held};
use crate::script::{Answer, Call, Material, Standing, mode};
use crate::theirs::Theirs;

/// The first difference of a session.
#[derive(Debug)]
pub struct Difference {
    /// The session's seed.
    pub seed: u64,
    /// The call's place in the session, from 0.
    pub place: usize,
    pub call: String,
    pub ours: String,
    pub theirs: String,
}

impl fmt::Display for Difference {
    fn fmt(&self, f: &mut fmt::Formatter<'_>) -> fmt::Result {
        writeln!(
            f,
            "session {}, call {}: {}",
            self.seed, self.place, self.call
        )?;
        writeln!(f, "  ours     {}", self.ours)?;
        write!(f, "  the Rust {}", self.theirs)
    }
}

/// What ours tells and what the Rust does, where the two differ.
type Apart = (String, String);

/// A session on both sides, each with a ring.
pub struct Both {
    pub ours: Ours,
    theirs: Pump<Theirs>,
    callback: Renderer,
    seed: u64,
    played: usize,
    /// A line of the fixed list for each call, with the Rust's answers, if they are wanted.
    lines: Option<String>,
}

impl Both {
    pub fn open(seed: u64, rate: u32, song: Material, lines: bool) -> Result<Both, Difference> {
        Both::open_over(1, seed, rate, song, lines)
    }

    /// Opens likewise, over rings for so many frames.
    pub fn open_over(
        frames: usize,
        seed: u64,
        rate: u32,
        song: Material,
        lines: bool,
    ) -> Result<Both, Difference> {
        let (mut ours, our_answer) = Ours::open(mode::AS_TONO, rate, song);
        ours.lend_ring(2 * frames + 1);
        let (theirs, their_answer) = Theirs::open(rate, song);
        let (theirs, callback) = spsc(theirs, frames);
        let mut both = Both {
            ours,
            theirs,
            callback,
            seed,
            played: 0,
            lines: lines.then(String::new),
        };
        let opening = Call::Open(song);
        let compared = both.compare(&opening, our_answer, their_answer);
        both.after(compared, || format!("{opening:?}"))?;
        Ok(both)
    }

    /// Plays a call on both sides and gives the answer that they share.
    pub fn play(&mut self, call: &Call) -> Result<Answer, Difference> {
        let ours = self.ours.play(call);
        let compared = match catch_unwind(AssertUnwindSafe(|| self.theirs.play(call))) {
            Ok(theirs) => self.compare(call, ours, theirs),
            Err(_) => Err(panics(&ours)),
        };
        self.after(compared, || format!("{call:?}"))
    }

    /// Pumps frames on both sides. What is given is as of a block of those that both made.
    pub fn pump(&mut self, frames: usize) -> Result<Answer, Difference> {
        let compared = self.pumped(frames);
        self.after(compared, || format!("a pump of {frames} frames"))
    }

    fn pumped(&mut self, frames: usize) -> Result<Answer, Apart> {
        let ours = self.ours.pump(frames);
        let before = self.theirs.passes();
        let made = catch_unwind(AssertUnwindSafe(|| self.theirs.pump(frames)));
        let made = made.map_err(|_| panics(&ours))?;
        same("frames made", ours.frames(), made)?;
        same("passes", ours.passes(), self.theirs.passes() - before)?;
        self.same_waiting()?;
        Ok(ours)
    }

    /// Drains into a block of so many samples on both sides. Gives its bits, and how many frames were taken.
    pub fn drain(&mut self, samples: usize) -> Result<(Vec<u32>, usize), Difference> {
        let compared = self.drained(samples);
        self.after(compared, || format!("a drain of {samples} samples"))
    }

    fn drained(&mut self, samples: usize) -> Result<(Vec<u32>, usize), Apart> {
        let (ours, taken) = self.ours.drain(samples);
        let waiting = held(&self.callback) / 2;
        let mut out = vec![f32::NAN; samples];
        self.callback.fill(&mut out);
        let theirs: Vec<u32> = out.into_iter().map(f32::to_bits).collect();
        if ours != theirs {
            return Err(first_apart(&ours, &theirs, sample));
        }
        // tono answers half the block's length, whatever waited.
        same("frames taken", taken, waiting.min(samples / 2))?;
        self.same_waiting()?;
        Ok((ours, taken))
    }

    /// As many samples wait on both sides, and the sessions stand alike.
    fn same_waiting(&self) -> Result<(), Apart> {
        same("samples waiting", self.ours.held(), held(&self.callback))?;
        self.same_standing().map(drop)
    }

    /// Lays a snapshot in the place of the one taken last.
    pub fn lay(&mut self, snapshot: Snapshot) {
        self.ours.snapshot = Some(snapshot);
        self.theirs.lay(snapshot);
    }

    fn compare(&mut self, call: &Call, ours: Answer, theirs: Answer) -> Result<Answer, Apart> {
        if ours != theirs {
            return Err(apart(ours, theirs));
        }
        let standing = self.same_standing()?;
        self.write(call, &theirs, &standing);
        Ok(ours)
    }

    fn same_standing(&self) -> Result<Standing, Apart> {
        let (ours, theirs) = (self.ours.standing(), self.theirs.standing());
        match ours == theirs {
            true => Ok(theirs),
            false => Err((format!("{ours:?}"), format!("{theirs:?}"))),
        }
    }

    fn write(&mut self, call: &Call, answer: &Answer, standing: &Standing) {
        if let Some(lines) = &mut self.lines {
            *lines += &format!("{call} | {answer} | {standing}\n");
        }
    }

    /// The lines of the fixed list, if they were wanted.
    pub fn into_lines(self) -> String {
        self.lines.unwrap_or_default()
    }

    /// Counts a call after which both sides are the same, or tells where they part.
    fn after<T>(
        &mut self,
        compared: Result<T, Apart>,
        call: impl Fn() -> String,
    ) -> Result<T, Difference> {
        let shared = compared.map_err(|(ours, theirs)| Difference {
            seed: self.seed,
            place: self.played,
            call: call(),
            ours,
            theirs,
        })?;
        self.played += 1;
        Ok(shared)
    }
}

fn panics(ours: &Answer) -> Apart {
    (format!("{ours:?}"), "panics".to_string())
}

/// A count of both sides.
fn same<T: PartialEq + fmt::Display>(what: &str, ours: T, theirs: T) -> Result<(), Apart> {
    match ours == theirs {
        true => Ok(()),
        false => Err((format!("{ours} {what}"), format!("{theirs} {what}"))),
    }
}

/// Two answers that differ; of samples and records the first that does, of blocks with the same samples the passes.
fn apart(ours: Answer, theirs: Answer) -> Apart {
    match (&ours, &theirs) {
        (Answer::Made(a, ours), Answer::Made(b, theirs)) if a == b => {
            (format!("{ours} passes"), format!("{theirs} passes"))
        }
        (Answer::Made(a, _), Answer::Made(b, _)) => first_apart(a, b, sample),
        (Answer::Records(a), Answer::Records(b)) => first_apart(a, b, |place, record| {
            format!("record {place} of the capture: {record:?}")
        }),
        _ => (format!("{ours:?}"), format!("{theirs:?}")),
    }
}

/// A sample of a block, by its place and its bits.
fn sample(place: usize, bits: &u32) -> String {
    let sample = f32::from_bits(*bits);
    format!(
        "frame {} of the block: {sample:?} ({bits:#010x})",
        place / 2
    )
}

fn first_apart<T: PartialEq>(
    ours: &[T],
    theirs: &[T],
    tell: impl Fn(usize, &T) -> String,
) -> Apart {
    let differ = ours.iter().zip(theirs).position(|(a, b)| a != b);
    match differ {
        Some(place) => (tell(place, &ours[place]), tell(place, &theirs[place])),
        None => (
            format!("{} of them", ours.len()),
            format!("{} of them", theirs.len()),
        ),
    }
}
