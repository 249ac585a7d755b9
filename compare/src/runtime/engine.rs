//! Stands in for tono's engine of instruments, which the ring names as one of its sources. There is no
//! such engine here: a session is the ring's source.

use super::AudioSource;

pub enum Engine {}

impl AudioSource for Engine {
    fn fill(&mut self, _: &mut [f32]) -> usize {
        match *self {}
    }
}
