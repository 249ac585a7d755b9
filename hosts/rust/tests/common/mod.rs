//! A session by hand, for what no host with a `Session` comes to.

use threshreed::{WORDS, raw};

pub const RATE: u32 = 48_000;

/// A clip of one frame.
pub const PAIR: [f32; 2] = [0.5, -0.5];

pub struct ByHand {
    pub session: raw::Session,
    pub queue: [u64; 2 * WORDS],
    pub capture: [u64; 0],
    pub pool: [f32; 8],
}

impl ByHand {
    /// Opens on a song of one frame.
    pub fn open() -> ByHand {
        let (queue, capture, mut pool) = ([0; 2 * WORDS], [], [0.0; 8]);
        let settings = raw::Settings {
            rate: RATE,
            mode: 0,
            queue: 2,
            capture: 0,
            pool: 4,
        };
        let opened = raw::open(settings, &queue, &capture, &mut pool, &PAIR, RATE, 1);
        assert_eq!(opened.refusal, 0);
        ByHand {
            session: opened.session,
            queue,
            capture,
            pool,
        }
    }

    pub fn block(&self, out: &mut [f32]) -> raw::Blocked {
        raw::block(self.session, &self.queue, &self.capture, &self.pool, out)
    }
}
