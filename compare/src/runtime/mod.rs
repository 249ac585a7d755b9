//! Stands in for the root of tono's runtime, which is not among the files given. It names tono's own
//! modules and the size of their scratch buffers. Under the transport's name it has [`passes::Transport`].

pub mod engine;
pub mod passes;

include!(concat!(env!("OUT_DIR"), "/tono_runtime.rs"));

pub use passes::Transport;
pub use source::{AudioSource, StreamSource};
pub use transport::TransportState;

/// The frames for which tono's scratch buffers have room from the start.
pub const SCRATCH_FRAMES: usize = 8192;

/// How many samples wait in tono's ring, which it tells to its runtime alone.
pub fn held(renderer: &ring::Renderer) -> usize {
    renderer.ring.len()
}
