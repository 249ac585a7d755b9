//! The same session in house mode, on our side alone. It gets every call of the session as tono, and stands as it does
//! but for the cursors: rule a takes the song's along with the playhead, as tono to the loop's start. The samples part
//! where the cursors do, and where a tail is under a master that is not at 1.0. The song is its clip at the playhead.

use std::collections::HashMap;

use threshreed::raw::{Handle, Loop, Ramp, Session, Snapshot};

use crate::between::{self, Load, Made};
use crate::dice::Dice;
use crate::ours::Ours;
use crate::script::{Answer, Call, Material, mode, state};
use crate::undo;

pub struct House {
    ours: Ours,
    /// The session before the last call, and what that answered.
    begun: Session,
    answer: Answer,
    /// The samples of each clip that was loaded, as they are heard.
    clips: HashMap<Handle, Vec<f32>>,
    ahead: Ahead,
}

/// Whether the cursors of the song and of the tail are ahead of those as tono.
#[derive(Clone, Copy, Default)]
struct Ahead {
    song: bool,
    tail: bool,
}

/// What a call leaves that is not as tono.
pub struct Otherwise {
    /// The samples of a block.
    pub samples: bool,
    /// The cursor of the song or of the tail.
    pub cursors: bool,
}

impl House {
    pub fn open(rate: u32, song: Material) -> House {
        let (ours, answer) = Ours::open(mode::HOUSE, rate, song);
        House {
            clips: HashMap::from([(ours.session.song, song.samples())]),
            begun: ours.session,
            answer,
            ours,
            ahead: Ahead::default(),
        }
    }

    /// Plays a call that the session as tono has played, a block in pieces too. Panics where the two part and may not,
    /// and where the song is not its clip at the playhead.
    pub fn play(
        &mut self,
        call: &Call,
        as_tono: &Ours,
        answered: &Answer,
        cuts: &mut Dice,
    ) -> Otherwise {
        let begun = self.ours.session;
        let first = self.first_frame(call);
        let answer = self.ours.play(call);
        if let (Call::Load(clip), Answer::Loaded(handle)) = (call, &answer) {
            self.clips.insert(*handle, clip.samples());
        }
        if let (Some(first), Answer::Made(bits, _)) = (first, &answer) {
            assert_eq!(first, bits[..2], "a frame is not its parts");
        }
        if let Call::Block(frames) = call {
            self.ours.cut(begun, *frames, &answer, cuts);
        }
        self.reads_at_playhead();
        self.stands_as(as_tono);

        let span = Span {
            begun,
            ended: self.ours.session,
            passes: answer.passes(),
            ahead: self.ahead,
        };
        self.ahead = self.ahead_of(as_tono);
        let Ahead { song, tail } = self.ahead;
        let samples = sounds_otherwise(&answer, answered);
        // A snapshot takes the song's cursor to the position.
        let applied = *call == Call::Apply;
        assert!(!song || span.song_may_part() && !applied, "the song strays");
        assert!(!tail || span.tail_may_part(), "the tail strays");
        assert!(!samples || span.may_be_heard(), "the samples stray");
        (self.begun, self.answer) = (begun, answer);
        Otherwise {
            samples,
            cursors: song || tail,
        }
    }

    /// Lays a snapshot in the place of the one taken last.
    pub fn lay(&mut self, snapshot: Snapshot) {
        self.ours.snapshot = Some(snapshot);
    }

    /// Looks at the laws of two snapshots where the session stands.
    pub fn undo(&self, s: Snapshot, t: Snapshot) -> undo::Met {
        undo::laws(&self.ours, s, t)
    }

    /// Looks at the laws of a load and a retirement beside the last call, a block.
    pub fn between(&self, load: &Load, clip: Handle) -> between::Met {
        let made = Made {
            ours: &self.ours,
            begun: self.begun,
            answer: &self.answer,
        };
        made.laws(load, clip)
    }

    /// Panics unless the song's cursor is at the playhead, or both are past its clip.
    fn reads_at_playhead(&self) {
        let Session {
            position,
            cursor,
            song,
            ..
        } = self.ours.session;
        let past = position.min(cursor) >= self.ours.clip(song).frames;
        assert!(cursor == position || past, "the cursor leaves the playhead");
    }

    /// Panics unless all but the mode and the cursors is as in the session as tono.
    fn stands_as(&self, as_tono: &Ours) {
        let mut expected = as_tono.session;
        expected.settings.mode = mode::HOUSE;
        expected.cursor = self.ours.session.cursor;
        expected.tail.cursor = self.ours.session.tail.cursor;
        assert_eq!(self.ours.session, expected);
        assert!(self.ours.waiting().eq(as_tono.waiting()));
        assert_eq!(self.ours.captured(), as_tono.captured());
    }

    /// Panics if a cursor is behind the one as tono.
    fn ahead_of(&self, as_tono: &Ours) -> Ahead {
        let (house, tono) = (&self.ours.session, &as_tono.session);
        let ahead = |house: u64, tono: u64| {
            assert!(house >= tono, "a cursor is behind the one as tono");
            house > tono
        };
        Ahead {
            song: ahead(house.cursor, tono.cursor),
            tail: ahead(house.tail.cursor, tono.tail.cursor),
        }
    }

    /// The bits of a block's first frame from its parts, if no command comes before it: the song × g, plus
    /// (the tail × g) × w, plus the stinger sum. A part is what is heard without the others and without g and w, and
    /// the song's is its clip at the playhead.
    fn first_frame(&mut self, call: &Call) -> Option<[u32; 2]> {
        let Session { master, tail, .. } = self.ours.session;
        if !matches!(call, Call::Block(1..)) || self.ours.is_due() {
            return None;
        }
        let (g, w) = (ticked(master), ticked(tail.weight));
        let song = self.part(|s| {
            s.master = AT_ONE;
            s.tail.sounding = 0;
            s.voices.count = 0;
        });
        assert_eq!(song, self.at_playhead(), "the sound leaves the playhead");
        let tail = self.part(|s| {
            s.settings.mode = mode::AS_TONO;
            s.state = state::PAUSED;
            s.tail.weight = WHOLE;
            s.voices.count = 0;
        });
        let stingers = self.part(|s| {
            s.state = state::PAUSED;
            s.tail.sounding = 0;
        });
        let side = |n: usize| (song[n] * g + (tail[n] * g) * w) + stingers[n];
        Some([side(0), side(1)].map(f32::to_bits))
    }

    /// What the song's clip has at the playhead, which rule a first takes into the loop: nothing past the clip, nor if
    /// the song does not play.
    fn at_playhead(&self) -> [f32; 2] {
        let Session {
            state,
            position,
            looped,
            song,
            ..
        } = self.ours.session;
        let frame = match looped {
            Loop { set: 1, start, end } if position >= end => {
                start + (position - start) % (end - start)
            }
            _ => position,
        };
        let (pairs, _) = self.clips[&song].as_chunks();
        match pairs.get(frame as usize) {
            Some(pair) if state == state::PLAYING => *pair,
            _ => [0.0; 2],
        }
    }

    /// The next frame with something changed for it alone.
    fn part(&mut self, change: impl FnOnce(&mut Session)) -> [f32; 2] {
        let kept = self.ours.session;
        change(&mut self.ours.session);
        let made = self.ours.play(&Call::Block(1));
        self.ours.session = kept;
        match made {
            Answer::Made(bits, _) => [bits[0], bits[1]].map(f32::from_bits),
            other => panic!("a part of a frame answers {other:?}"),
        }
    }
}

/// The session before a call and after it, the passes that the call answers, and which cursors were ahead before.
struct Span {
    begun: Session,
    ended: Session,
    passes: u64,
    ahead: Ahead,
}

impl Span {
    fn has_command(&self) -> bool {
        self.ended.counters.executed > self.begun.counters.executed
    }

    fn has_swap(&self) -> bool {
        self.ended.counters.swaps > self.begun.counters.swaps
    }

    /// Whether the song's cursors may part in it: they were apart, or it may have had rule a, since it passed a loop's
    /// end and began at or past one, or executed a command.
    fn song_may_part(&self) -> bool {
        let Session {
            looped, position, ..
        } = self.begun;
        let past = looped.set == 1 && position >= looped.end;
        self.ahead.song || self.passes > 0 && (past || self.has_command())
    }

    /// Whether the cursors of the tail that it leaves may: a swap has them from the song.
    fn tail_may_part(&self) -> bool {
        match self.has_swap() {
            true => self.song_may_part(),
            false => self.ahead.tail,
        }
    }

    /// Whether it may sound otherwise: cursors may part, or there was a tail, and a master that was not at 1.0 or may
    /// have left it.
    fn may_be_heard(&self) -> bool {
        let Session { master, tail, .. } = self.begun;
        let at_one = master.remaining == 0 && master.value == 1.0;
        let tail = tail.sounding == 1 || self.has_swap();
        self.song_may_part() || self.ahead.tail || tail && (!at_one || self.has_command())
    }
}

/// Whether a block's samples differ from those as tono. Nothing else that is answered does.
fn sounds_otherwise(house: &Answer, as_tono: &Answer) -> bool {
    match (house, as_tono) {
        (Answer::Made(bits, passes), Answer::Made(other, told)) => {
            assert_eq!(passes, told);
            bits != other
        }
        _ => {
            assert_eq!(house, as_tono);
            false
        }
    }
}

/// A master that rests at 1.0.
const AT_ONE: Ramp = Ramp {
    value: 1.0,
    target: 1.0,
    step: 0.0,
    remaining: 0,
};

/// A tail's weight that is 1.0 in the next frame.
const WHOLE: Ramp = Ramp {
    value: 1.0,
    target: 0.0,
    step: 0.0,
    remaining: 2,
};

/// A ramp's value in the next frame.
fn ticked(ramp: Ramp) -> f32 {
    match ramp.remaining {
        0 => ramp.value,
        1 => ramp.target,
        _ => ramp.value + ramp.step,
    }
}
