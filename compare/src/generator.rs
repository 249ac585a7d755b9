//! Random sessions inside the domain of the comparison, each decided by its seed and its size, leaning
//! towards short songs, loops, crowded frames and crowded swaps. Long ones also have clips of a few frames,
//! clips that are spoiled, choruses, snapshots that were never taken, and blocks up to where something ends; a
//! short one draws for none of it.

use threshreed::raw::{At, Clip, Command, Handle, Ramp, Session};

use crate::between::{self, Load, Made};
use crate::both::{Both, Difference};
use crate::dice::Dice;
use crate::domain::Walk;
use crate::house::House;
use crate::ours::{Ours, Row, handle_word};
use crate::reached::{Moment, Reached};
use crate::runtime::SCRATCH_FRAMES;
use crate::script::{
    Answer, CAPTURE, Call, Material, NOW, POOL, QUEUE, RATE, SONG, STINGER, at_frame, at_song,
    kind, plain, state,
};
use crate::turns::Turns;
use crate::undo;

/// How long a session is.
#[derive(Clone, Copy, PartialEq)]
pub enum Size {
    /// For the fixed list.
    Short,
    Long,
}

/// How a session makes its frames.
#[derive(Clone, Copy, PartialEq)]
pub enum Way {
    Blocks,
    /// Into a ring for so many frames.
    Pumps(usize),
}

/// What a session is mostly about.
#[derive(Clone, Copy, PartialEq)]
enum Mood {
    Anything,
    Loops,
    Swaps,
    Bursts,
    Rides,
    FullQueue,
    Close,
}

/// A session that was played to its end without a difference.
pub struct Played {
    pub reached: Reached,
    /// Its lines for the fixed list, if they were wanted.
    pub lines: String,
}

/// Plays the session of this seed on both sides, and on ours in house mode too.
pub fn play(seed: u64, size: Size, lines: bool) -> Result<Played, Difference> {
    let mut player = Player::open(seed, size, Way::Blocks, lines)?;
    player.run()?;
    Ok(Played {
        reached: player.reached,
        lines: player.both.into_lines(),
    })
}

/// A session that is played on both sides.
pub struct Player {
    both: Both,
    house: House,
    dice: Dice,
    /// Decides where blocks are cut and which snapshots the laws are looked at with, and nothing of the session.
    cuts: Dice,
    /// Decides which loads and retirements are tried beside blocks, and nothing of the session.
    beside: Dice,
    mood: Mood,
    size: Size,
    way: Way,
    /// The clips loaded so far. Each clip has a seed of its own.
    loads: u32,
    /// The starts of the clips retired so far.
    retired: Vec<u64>,
    /// The clock frame named last.
    last_frame: u64,
    /// The passes of all blocks so far.
    passes: u64,
    reached: Reached,
    turns: Turns,
}

/// What a session may do next.
#[derive(Clone, Copy)]
enum Step {
    Submit,
    Burst,
    Chorus,
    Transition,
    Block,
    Load,
    Retire,
    StartCapture,
    StopCapture,
    Replay,
    Snapshot,
    Apply,
    Undo,
    PastLoop,
}

impl Player {
    /// Opens the session of this seed.
    pub fn open(seed: u64, size: Size, way: Way, lines: bool) -> Result<Player, Difference> {
        let mut dice = Dice::new(seed);
        let song = song(&mut dice, size, 1);
        let rate = match size {
            Size::Short => RATE,
            Size::Long => dice.pick(&[RATE, RATE, RATE, 8_000, 44_100, 44_250, 192_000]),
        };
        let both = match way {
            Way::Blocks => Both::open(seed, rate, song, lines)?,
            Way::Pumps(frames) => Both::open_over(frames, seed, rate, song, lines)?,
        };
        Ok(Player {
            both,
            house: House::open(rate, song),
            mood: mood(&mut dice, size),
            dice,
            cuts: Dice::new(!seed),
            beside: Dice::new(seed + (1 << 32)),
            size,
            way,
            loads: 1,
            retired: Vec::new(),
            last_frame: 0,
            passes: 0,
            reached: Reached::default(),
            turns: Turns::default(),
        })
    }

    /// Steps until there were enough calls or frames.
    fn run(&mut self) -> Result<(), Difference> {
        let (calls, frames) = match self.size {
            Size::Short => (self.dice.from(10, 40), 3_000),
            Size::Long => (self.dice.from(20, 200), 12_000),
        };
        self.begin()?;
        for _ in 0..calls {
            if self.both.ours.session.clock > frames {
                break;
            }
            if !self.step()? {
                break;
            }
        }
        Ok(())
    }

    /// A few clips, and mostly a song that plays.
    pub fn begin(&mut self) -> Result<(), Difference> {
        for _ in 0..self.dice.from(1, 4) {
            self.load()?;
        }
        if self.mood == Mood::FullQueue {
            self.fill_queue()?;
        }
        if !self.dice.one_in(4) {
            self.submit(plain(kind::PLAY), NOW)?;
        }
        Ok(())
    }

    /// One step. False if the session cannot go on inside the domain.
    pub fn step(&mut self) -> Result<bool, Difference> {
        let burst = if self.mood == Mood::Bursts { 6 } else { 1 };
        let chorus = match self.mood {
            Mood::Close => 8,
            _ if self.size == Size::Long => 1,
            _ => 0,
        };
        let undo = match self.size {
            Size::Short => 0,
            Size::Long => 3,
        };
        let step = self.dice.weighed(&[
            (Step::Submit, 44),
            (Step::Burst, burst),
            (Step::Chorus, chorus),
            (Step::Transition, 6),
            (Step::Block, 36),
            (Step::Load, 6),
            (Step::Retire, 5),
            (Step::StartCapture, 3),
            (Step::StopCapture, 3),
            (Step::Replay, 4),
            (Step::Snapshot, 3),
            (Step::Apply, 3),
            (Step::Undo, undo),
            (Step::PastLoop, 4),
        ]);
        match step {
            Step::Submit => {
                let command = self.command();
                let at = self.time();
                self.submit(command, at)?;
            }
            Step::Burst => self.burst()?,
            Step::Chorus => self.chorus()?,
            Step::Transition => {
                let frame = self.place().min(4_000);
                let at = self.time();
                if self.capture_has_room() {
                    self.call(Call::Transition(frame, at))?;
                }
            }
            Step::Block => {
                let frames = self.block_frames();
                return self.block(frames);
            }
            Step::Load => self.load()?,
            Step::Retire => self.retire()?,
            Step::StartCapture => self.call(Call::StartCapture)?,
            Step::StopCapture => self.call(Call::StopCapture)?,
            Step::Replay => self.replay()?,
            Step::Snapshot => self.call(Call::Snapshot)?,
            Step::Apply => {
                if self.both.ours.snapshot.is_some() {
                    self.call(Call::Apply)?;
                }
            }
            Step::Undo => self.undo()?,
            Step::PastLoop => return self.past_loop(),
        }
        Ok(true)
    }

    /// Plays a call on both sides.
    fn call(&mut self, call: Call) -> Result<(), Difference> {
        let before = Moment::of(&self.both.ours);
        let answer = self.both.play(&call)?;
        self.look(&call, &answer, &before);
        Ok(())
    }

    /// Pumps frames on both sides. All else is as for a block of those that were made.
    fn pump(&mut self, frames: usize) -> Result<(), Difference> {
        let (before, ring) = (Moment::of(&self.both.ours), self.both.ours.ring);
        let answer = self.both.pump(frames)?;
        self.look(&Call::Block(answer.frames()), &answer, &before);
        self.turns
            .see_pump(frames, &answer, &before.session, ring, &self.both.ours);
        Ok(())
    }

    /// Drains into a block of so many samples on both sides.
    pub fn drain(&mut self, samples: usize) -> Result<(), Difference> {
        let ring = self.both.ours.ring;
        let (bits, taken) = self.both.drain(samples)?;
        self.turns.see_drain(&bits, taken, ring, &self.both.ours);
        Ok(())
    }

    /// What the pumps and drains reached.
    pub fn turns(&self) -> &Turns {
        &self.turns
    }

    /// Our side.
    pub fn ours(&self) -> &Ours {
        &self.both.ours
    }

    /// Plays in house mode what both sides played, and looks at what it reached.
    fn look(&mut self, call: &Call, answer: &Answer, before: &Moment) {
        let ours = &mut self.both.ours;
        let pieces = match call {
            Call::Block(frames) => ours.cut(before.session, *frames, answer, &mut self.cuts),
            _ => Vec::new(),
        };
        let otherwise = self.house.play(call, ours, answer, &mut self.cuts);
        if matches!(call, Call::Block(_)) {
            self.reached.see_otherwise(&otherwise);
        }
        self.passes += answer.passes();
        self.check_laps(call, before.session.laps);
        // The laws of a session are looked at where it makes blocks, and not again where they go through a ring.
        if self.way == Way::Blocks {
            self.check_undo();
            if matches!(call, Call::Block(_)) && self.beside.one_in(4) {
                self.check_between(before.session, answer);
            }
        }
        let after = Moment::of(&self.both.ours);
        self.reached
            .see(call, answer, before, &after, &pieces, &self.retired);
    }

    /// The laps are 0 without a loop, and never more than the passes of all blocks. What a block makes of them the
    /// walk checks; else a snapshot alone sets them back, if its loop is none or fits.
    fn check_laps(&self, call: &Call, before: u64) {
        let ours = &self.both.ours;
        let Session { looped, laps, .. } = ours.session;
        assert!(looped.set == 1 || laps == 0, "laps without a loop");
        assert!(laps <= self.passes, "more laps than passes");
        match call {
            Call::Block(_) => {}
            Call::Apply => {
                let of_snapshot = ours.snapshot.expect("a snapshot was taken").looped;
                let fits = undo::loop_fits(ours, of_snapshot);
                assert_eq!(laps, if fits { 0 } else { before }, "laps of a snapshot");
            }
            _ => assert_eq!(laps, before, "laps of another call"),
        }
    }

    /// The laws of any two snapshots hold where the session stands as tono, and where it does in house mode.
    fn check_undo(&mut self) {
        let ours = &self.both.ours;
        let s = undo::any(ours, &mut self.cuts);
        let t = undo::any(ours, &mut self.cuts);
        let met = undo::laws(ours, s, t);
        assert_eq!(self.house.undo(s, t), met, "other laws in house mode");
        self.reached.see_undo(&met);
    }

    /// The laws of any load and of the retirement of any handle hold beside a block that was made as tono, and beside the
    /// one in house mode.
    fn check_between(&mut self, begun: Session, answer: &Answer) {
        let ours = &self.both.ours;
        let load = Load::any(&mut self.beside);
        let clip = between::any_handle(ours, &mut self.beside);
        let made = Made {
            ours,
            begun,
            answer,
        };
        let met = made.laws(&load, clip);
        assert_eq!(
            self.house.between(&load, clip),
            met,
            "other laws in house mode"
        );
        self.reached.see_between(&met);
    }

    /// A block or a pump, as long as the domain allows. Where it allows none, the song is stopped first, and where
    /// it then still allows none, the session ends.
    pub fn block(&mut self, frames: usize) -> Result<bool, Difference> {
        let wanted = match self.way {
            Way::Blocks => frames,
            Way::Pumps(_) => frames.min(self.both.ours.room()),
        };
        let mut walk = Walk::ahead(&self.both.ours, wanted);
        if wanted > 0 && walk.frames == 0 {
            self.submit(plain(kind::STOP), NOW)?;
            walk = Walk::ahead(&self.both.ours, wanted);
            if walk.frames == 0 {
                return Ok(false);
            }
        }
        let before = self.passes;
        match self.way {
            Way::Blocks => self.call(Call::Block(walk.frames))?,
            // Where the ring holds it to what the domain allows, all may be asked for.
            Way::Pumps(_) if walk.frames == wanted => self.pump(frames)?,
            Way::Pumps(_) => self.pump(walk.frames)?,
        }
        walk.check(&self.both.ours.session, self.passes - before);
        Ok(true)
    }

    fn block_frames(&mut self) -> usize {
        if self.size == Size::Long && self.dice.one_in(4) {
            return self.frames_to_an_end();
        }
        let ours = &self.both.ours;
        let clock = ours.session.clock;
        let to_first = ours.first_due().map(|at| at.saturating_sub(clock));
        match self.dice.below(20) {
            0 => 0,
            1..=3 => 1,
            4 => 7,
            5..=6 => 64,
            7..=8 => 512,
            9 if self.dice.one_in(3) => match self.size {
                Size::Long if self.dice.one_in(8) => SCRATCH_FRAMES + 1,
                _ => 4_096,
            },
            // Up to the next command, or a frame beside it.
            10..=14 => match to_first {
                Some(frames) if frames < 2_000 => {
                    (frames + self.dice.below(3)).saturating_sub(1) as usize
                }
                _ => 64,
            },
            _ => self.dice.from(1, 300) as usize,
        }
    }

    /// Up to where a ramp lands, a voice ends or the loop comes round, or a frame beside it.
    fn frames_to_an_end(&mut self) -> usize {
        let ours = &self.both.ours;
        let session = &ours.session;
        let ramp = |x: &Ramp| u64::from(x.remaining);
        let mut ends = vec![
            64,
            ramp(&session.master),
            ramp(&session.tail.weight),
            session.looped.end.saturating_sub(session.position),
        ];
        ends.extend(ours.voices().iter().map(|voice| ramp(&voice.gain)));
        ends.extend(ours.voices().iter().map(|voice| ours.left(voice)));
        ends.retain(|frames| (1..2_000).contains(frames));
        let end = self.dice.pick(&ends);
        (end + self.dice.below(3) - 1) as usize
    }

    /// Applies snapshots one after the other.
    fn undo(&mut self) -> Result<(), Difference> {
        for _ in 0..self.dice.from(1, 3) {
            let snapshot = undo::inside(&self.both.ours, &mut self.dice);
            self.both.lay(snapshot);
            self.house.lay(snapshot);
            self.call(Call::Apply)?;
        }
        Ok(())
    }

    /// Ends a block with a seek past the loop's end, so that the next one begins there.
    fn past_loop(&mut self) -> Result<bool, Difference> {
        let session = &self.both.ours.session;
        let (looped, clock) = (session.looped, session.clock);
        if looped.set == 0 || session.state != state::PLAYING {
            return Ok(true);
        }
        let frames = self.dice.from(1, 64);
        let seek = Command {
            frame: looped.end + self.dice.below(200),
            ..plain(kind::SEEK)
        };
        self.submit(seek, at_frame(clock + frames))?;
        self.block(frames as usize)
    }

    // ---- commands

    fn submit(&mut self, command: Command, at: At) -> Result<(), Difference> {
        let stinger = command.kind == kind::STINGER;
        if stinger && self.stingers_left() == 0 || !self.capture_has_room() {
            return Ok(());
        }
        self.call(Call::Submit(command, at))
    }

    fn command(&mut self) -> Command {
        let weights = match self.mood {
            Mood::Anything | Mood::FullQueue => [6, 3, 2, 4, 4, 2, 4, 3, 4],
            Mood::Loops => [6, 2, 1, 10, 10, 2, 1, 1, 1],
            Mood::Swaps => [3, 4, 1, 3, 2, 1, 2, 12, 1],
            Mood::Bursts => [3, 1, 1, 1, 1, 1, 2, 1, 16],
            Mood::Rides => [4, 1, 1, 1, 1, 1, 16, 1, 1],
            Mood::Close => [8, 2, 1, 2, 8, 2, 6, 6, 8],
        };
        const KINDS: [u32; 9] = [
            kind::PLAY,
            kind::PAUSE,
            kind::STOP,
            kind::SEEK,
            kind::LOOP,
            kind::CLEAR_LOOP,
            kind::GAIN,
            kind::SWAP,
            kind::STINGER,
        ];
        let kinds: Vec<_> = KINDS.into_iter().zip(weights).collect();
        let kind = self.dice.weighed(&kinds);
        self.of_kind(kind)
    }

    fn of_kind(&mut self, kind: u32) -> Command {
        let bare = plain(kind);
        match kind {
            kind::SEEK => Command {
                frame: self.place(),
                ..bare
            },
            kind::LOOP => self.looped(bare),
            kind::GAIN => Command {
                gain: self.gain(),
                ..bare
            },
            kind::SWAP => match self.clip_of(SONG) {
                Some(clip) => Command { clip, ..bare },
                None => plain(kind::PLAY),
            },
            kind::STINGER => match self.clip_of(STINGER) {
                Some(clip) => Command {
                    clip,
                    gain: self.gain(),
                    ..bare
                },
                None => plain(kind::PLAY),
            },
            _ => bare,
        }
    }

    /// As many stingers as can wait, all for one frame.
    fn burst(&mut self) -> Result<(), Difference> {
        let at = self.time();
        for _ in 0..self.stingers_left() {
            let command = self.of_kind(kind::STINGER);
            if command.kind == kind::STINGER {
                self.submit(command, at)?;
            }
        }
        Ok(())
    }

    /// Stingers that all end on one frame, each fired as long before it as its clip is.
    fn chorus(&mut self) -> Result<(), Difference> {
        let clock = self.both.ours.session.clock;
        let end = clock + self.dice.pick(&[8, 100, 400, 900]) + self.dice.below(64);
        for _ in 0..self.stingers_left() {
            let command = self.of_kind(kind::STINGER);
            let frames = self.both.ours.clip(command.clip).frames;
            if command.kind == kind::STINGER && clock + frames <= end {
                self.submit(command, at_frame(end - frames))?;
            }
        }
        Ok(())
    }

    fn looped(&mut self, bare: Command) -> Command {
        let clip = *self.both.ours.clip(self.both.ours.session.song);
        let start = self.dice.below(clip.frames);
        let span = match self.mood {
            Mood::Close => 8,
            _ => self.dice.pick(&[1, 2, 3, 10, 50, 200, 1_000]),
        };
        let end = match self.dice.below(8) {
            0 => clip.extent.min(1 << 31),
            1 => clip.frames,
            // A loop that does not fit. A senseless one is refused, and so outside the domain.
            2 => clip.extent.min(1 << 31) + 1,
            _ => start + self.dice.from(1, span),
        };
        Command {
            frame: start,
            end,
            ..bare
        }
    }

    /// A place to seek to: in the clip, at its end, beside the loop's end, or past all of it.
    fn place(&mut self) -> u64 {
        let session = &self.both.ours.session;
        let clip = *self.both.ours.clip(session.song);
        let loop_end = session.looped.end;
        match self.dice.below(16) {
            0..=5 if session.looped.set == 1 => (loop_end + self.dice.below(12)).saturating_sub(4),
            0..=9 => self.dice.below(clip.frames),
            10..=12 => clip.frames - self.dice.below(clip.frames.min(5)),
            13 => clip.extent.min(1 << 40),
            14 => clip.extent + self.dice.below(100),
            _ if self.dice.one_in(8) => (1 << 51) - 1 - self.dice.below(1_000),
            _ => 0,
        }
    }

    /// Never -0.0.
    fn gain(&mut self) -> f32 {
        match self.dice.below(8) {
            0 => 0.0,
            1 => 1.0,
            2 => -0.25,
            3 => self.dice.pick(&[2.0, 2.5, 16.0]),
            _ => self.dice.below(2_000) as f32 / 999.0,
        }
    }

    fn time(&mut self) -> At {
        let session = &self.both.ours.session;
        let (clock, position, looped) = (session.clock, session.position, session.looped);
        let named = match self.dice.below(20) {
            0..=4 => return NOW,
            5..=7 => self.last_frame,
            8..=9 => clock + self.dice.pick(&[0, 1, 7, 64, 512]),
            10..=13 => clock + self.dice.from(1, 300),
            14 => clock + self.dice.from(1, 1_500),
            15 => clock.saturating_sub(self.dice.below(4)),
            16 if self.dice.one_in(4) => self.dice.pick(&[1 << 40, 1 << 62, u64::MAX]),
            17 if looped.set == 1 => {
                let span = looped.end - looped.start;
                return at_song(looped.start + self.dice.below(span));
            }
            18 if self.dice.one_in(4) => {
                return at_song((1 << 51) - 1 - self.dice.below(1_000));
            }
            _ => {
                let beside = position + self.dice.below(200);
                return at_song(beside.saturating_sub(80));
            }
        };
        self.last_frame = named;
        at_frame(named)
    }

    // ---- what would be refused

    /// How many stingers may still be submitted: 16 less those that wait and those that sound.
    fn stingers_left(&self) -> usize {
        let ours = &self.both.ours;
        16 - stingers(ours.waiting()) - ours.session.voices.count
    }

    fn capture_has_room(&self) -> bool {
        self.both.ours.captured().len() < CAPTURE
    }

    /// A loaded clip of this kind, if there is one.
    fn clip_of(&mut self, wanted: u32) -> Option<Handle> {
        let clips: Vec<Handle> = self
            .loaded()
            .filter(|handle| self.both.ours.clip(*handle).kind == wanted)
            .collect();
        (!clips.is_empty()).then(|| self.dice.pick(&clips))
    }

    fn loaded(&self) -> impl Iterator<Item = Handle> {
        let session = &self.both.ours.session;
        let used = (0..32).filter(|slot| session.used >> slot & 1 == 1);
        used.map(|slot| Handle {
            slot,
            serial: session.clips[slot as usize].serial,
        })
    }

    /// Whether a clip of so many frames finds room in the pool.
    fn has_room(&self, frames: u64) -> bool {
        let clips: Vec<_> = self.loaded().map(|x| *self.both.ours.clip(x)).collect();
        let ends = clips.iter().map(|clip| clip.start + clip.frames);
        let mut starts = std::iter::once(0).chain(ends);
        starts.any(|start| {
            let apart = |x: &Clip| start + frames <= x.start || x.start + x.frames <= start;
            start + frames <= POOL && clips.iter().all(apart)
        })
    }

    fn load(&mut self) -> Result<(), Difference> {
        self.loads += 1;
        let material = match self.dice.below(3) {
            0 => song(&mut self.dice, self.size, self.loads),
            _ => stinger(&mut self.dice, self.size, self.loads),
        };
        if self.loaded().count() == 32 || !self.has_room(material.frames) {
            return Ok(());
        }
        self.call(Call::Load(material))
    }

    /// Retires a clip that nothing holds.
    fn retire(&mut self) -> Result<(), Difference> {
        let ours = &self.both.ours;
        let session = &ours.session;
        let voices = ours.voices();
        let held = |handle: &Handle| {
            let named = |row: &Row| claimed(row) == Some(handle_word(*handle));
            session.song == *handle
                || session.tail.sounding == 1 && session.tail.song == *handle
                || voices.iter().any(|voice| voice.handle == *handle)
                || ours.waiting().any(named)
                || ours.captured().iter().any(named)
        };
        let free: Vec<Handle> = self.loaded().filter(|handle| !held(handle)).collect();
        if free.is_empty() {
            return Ok(());
        }
        let clip = self.dice.pick(&free);
        self.retired.push(self.both.ours.clip(clip).start);
        self.call(Call::Retire(clip))
    }

    /// Replays the last list, if it has records, every clip in it is still loaded, and its stingers may
    /// all wait.
    fn replay(&mut self) -> Result<(), Difference> {
        let (list, _) = self.both.ours.list.as_chunks::<5>();
        let live: Vec<u64> = self.loaded().map(handle_word).collect();
        let stale = |row: &Row| claimed(row).is_some_and(|clip| !live.contains(&clip));
        if list.is_empty() || list.iter().any(stale) || stingers(list.iter()) > self.stingers_left()
        {
            return Ok(());
        }
        self.call(Call::Replay)
    }

    /// Captures a few commands and replays them until the queue is full, and once more.
    fn fill_queue(&mut self) -> Result<(), Difference> {
        let few = match self.size {
            Size::Short => 64,
            Size::Long => self.dice.from(64, 300),
        };
        let frame = self.dice.pick(&[0, 100, 700, 1 << 40]);
        self.call(Call::StartCapture)?;
        for _ in 0..few {
            let kind = self.dice.pick(&[
                kind::PLAY,
                kind::PAUSE,
                kind::STOP,
                kind::SEEK,
                kind::LOOP,
                kind::CLEAR_LOOP,
                kind::GAIN,
            ]);
            let command = self.of_kind(kind);
            let at = at_frame(frame + self.dice.below(4));
            self.submit(command, at)?;
        }
        self.call(Call::StopCapture)?;
        while self.both.ours.session.queued < QUEUE {
            self.call(Call::Replay)?;
        }
        self.call(Call::Replay)
    }
}

/// The handle that a Swap or a Stinger names, in its word.
fn claimed(row: &Row) -> Option<u64> {
    let claims = [kind::SWAP, kind::STINGER].contains(&(row[2] as u32));
    claims.then_some(row[3])
}

/// How many of these records are stingers.
fn stingers<'a>(rows: impl Iterator<Item = &'a Row>) -> usize {
    rows.filter(|row| row[2] == u64::from(kind::STINGER))
        .count()
}

fn mood(dice: &mut Dice, size: Size) -> Mood {
    let close = match size {
        Size::Short => 0,
        Size::Long => 16,
    };
    dice.weighed(&[
        (Mood::Anything, 24),
        (Mood::Loops, 10),
        (Mood::Swaps, 10),
        (Mood::Bursts, 10),
        (Mood::Rides, 9),
        (Mood::FullQueue, 1),
        (Mood::Close, close),
    ])
}

/// A short song, whose length may exceed its frames.
fn song(dice: &mut Dice, size: Size, load: u32) -> Material {
    let frames = match dice.below(4) {
        _ if size == Size::Long && dice.one_in(8) => dice.from(1, 8),
        0 => dice.from(64, 200),
        1 | 2 => dice.from(200, 1_200),
        _ => dice.from(1_200, 3_000),
    };
    let extent = match dice.below(8) {
        0 => frames + dice.from(1, 300),
        1 if dice.one_in(4) => 1 << 40,
        _ => frames,
    };
    Material {
        kind: SONG,
        frames,
        extent,
        seed: seed(dice, load),
        spoiled: spoiled(dice, size),
    }
}

fn stinger(dice: &mut Dice, size: Size, load: u32) -> Material {
    Material {
        kind: STINGER,
        frames: match size {
            Size::Long if dice.one_in(4) => dice.from(1, 8),
            _ => dice.pick(&[1, 2, 30, 95, 96, 97, 200, 400, 900]),
        },
        extent: 0,
        seed: seed(dice, load),
        spoiled: spoiled(dice, size),
    }
}

fn spoiled(dice: &mut Dice, size: Size) -> bool {
    size == Size::Long && dice.one_in(4)
}

/// A clip's seed, which no other clip of the session has.
fn seed(dice: &mut Dice, load: u32) -> u32 {
    dice.below(1 << 21) as u32 * 1_024 + load
}
