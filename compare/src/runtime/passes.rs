//! Stands between tono's performance and its transport, and counts the wraps that the transport tells: the performance
//! seeks at one and hands none on.

use std::cell::Cell;
use std::ops::{Deref, DerefMut};

use super::transport::{self, Advance};
use crate::program::Program;

thread_local! {
    /// The wraps of the transports that are gone: a swap in the middle of a block begins another.
    static GONE: Cell<u64> = const { Cell::new(0) };
}

/// tono's transport. A performance advances it by 0 for rule a and by frames for rule b, so that each wrap is a pass.
pub struct Transport {
    tono: transport::Transport,
    wraps: u64,
}

impl Transport {
    pub fn for_program(program: &Program) -> Transport {
        Transport {
            tono: transport::Transport::for_program(program),
            wraps: 0,
        }
    }

    pub fn advance(&mut self, frames: u64) -> Advance {
        let advance = self.tono.advance(frames);
        self.wraps += u64::from(advance.wrapped);
        advance
    }

    /// The wraps told so far, by this transport and by those of its thread that are gone.
    pub fn told(&self) -> u64 {
        GONE.get() + self.wraps
    }
}

impl Drop for Transport {
    fn drop(&mut self) {
        GONE.set(self.told());
    }
}

impl Deref for Transport {
    type Target = transport::Transport;

    fn deref(&self) -> &transport::Transport {
        &self.tono
    }
}

impl DerefMut for Transport {
    fn deref_mut(&mut self) -> &mut transport::Transport {
        &mut self.tono
    }
}
