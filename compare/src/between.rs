//! Document 02's Q-8: a load or a retirement before a block and after it. The laws are looked at where a session of ours
//! has made a block, with any load and any handle, and leave it there.

use threshreed::raw::{self, Handle, Session};

use crate::clip;
use crate::dice::Dice;
use crate::ours::Ours;
use crate::script::{Answer, POOL, SONG, STINGER};

/// How the laws may be met, in the order in which they are counted.
pub const LAWS: [&str; 5] = [
    "a load before a block as after it",
    "a load that is refused before a block as after it",
    "a retirement before a block as after it",
    "a retirement that is refused before a block as after it",
    "a retirement that is accepted after a block alone",
];

/// Which of them were.
pub type Met = [bool; LAWS.len()];

/// A clip to be loaded.
pub struct Load {
    samples: Vec<f32>,
    kind: u32,
    extent: u64,
    rate: u32,
}

impl Load {
    /// Any load: it may be longer than the pool, or have an odd count of samples, one that is no sample, no rate, or a
    /// length below its frames.
    pub fn any(dice: &mut Dice) -> Load {
        let frames = match dice.below(8) {
            0 => 0,
            1 => dice.from(1, POOL + 1),
            _ => dice.from(1, 300),
        };
        let mut samples = clip::samples(dice.below(1 << 31) as u32, frames);
        if dice.one_in(16) {
            samples.pop();
        }
        if dice.one_in(16) {
            samples.push(f32::NAN);
            samples.push(0.0);
        }
        Load {
            samples,
            kind: dice.pick(&[SONG, STINGER]),
            extent: (frames + dice.below(8)).saturating_sub(1),
            rate: dice.pick(&[8_000, 48_000, 48_000, 48_000, 192_001]),
        }
    }

    fn call(&self, session: Session, ours: &Ours, pool: &mut [f32]) -> raw::Loaded {
        let Load {
            samples,
            kind,
            extent,
            rate,
        } = self;
        let (queue, capture) = (&ours.queue, &ours.capture);
        raw::load(
            session, queue, capture, pool, samples, *kind, *extent, *rate,
        )
    }
}

/// A handle of any slot up to the last that is used, live or stale.
pub fn any_handle(ours: &Ours, dice: &mut Dice) -> Handle {
    let slots = 32 - ours.session.used.leading_zeros();
    let slot = dice.below(u64::from(slots)) as u32;
    let serial = ours.session.clips[slot as usize].serial;
    Handle {
        slot,
        serial: serial - u32::from(dice.one_in(8)),
    }
}

/// A session of ours that has made a block.
pub struct Made<'o> {
    pub ours: &'o Ours,
    /// As it was before the block.
    pub begun: Session,
    /// What the block answered.
    pub answer: &'o Answer,
}

impl Made<'_> {
    /// Panics unless a load gives the same before the block and after it, and so does a retirement, but for one that is
    /// accepted after it alone.
    pub fn laws(&self, load: &Load, clip: Handle) -> Met {
        let Made { ours, begun, .. } = *self;
        let (mut pool, mut its) = (ours.pool.clone(), ours.pool.clone());
        let before = load.call(begun, ours, &mut pool);
        let after = load.call(ours.session, ours, &mut its);
        assert_eq!(before.refusal, after.refusal, "a load is weighed otherwise");
        assert_eq!(before.handle, after.handle, "a load has another handle");
        assert!(bits(&pool).eq(bits(&its)), "a load leaves another pool");
        self.block(before.session, &pool, after.session);

        let retire = |session| raw::retire(session, &ours.queue, &ours.capture, clip);
        let (first, last) = (retire(begun), retire(ours.session));
        let freed = first.refusal != 0 && last.refusal == 0;
        if !freed {
            assert_eq!(first.refusal, last.refusal, "a retirement is not accepted");
            self.block(first.session, &ours.pool, last.session);
        }
        [
            before.refusal == 0,
            before.refusal != 0,
            first.refusal == 0,
            last.refusal != 0,
            freed,
        ]
    }

    /// Panics unless the block, made of this session over this pool, answers what it answered and leaves that session.
    fn block(&self, session: Session, pool: &[f32], left: Session) {
        let Ours { queue, capture, .. } = self.ours;
        let Answer::Made(bits, _) = self.answer else {
            panic!("a block answers {:?}", self.answer)
        };
        let mut out = vec![f32::NAN; bits.len()];
        let made = raw::block(session, queue, capture, pool, &mut out);
        assert_eq!(made.refusal, 0, "a block is refused");
        let answer = Answer::made(&out, made.passes);
        assert!(answer == *self.answer, "a block answers otherwise");
        assert!(made.session == left, "a block leaves another session");
    }
}

fn bits(samples: &[f32]) -> impl Iterator<Item = u32> {
    samples.iter().map(|x| x.to_bits())
}
