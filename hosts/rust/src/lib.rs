//! Threshreed for a host in Rust: compiled songs play from a queue of commands that fire on exact frames.
//!
//! No heap, no dependency, no panic. The sound is made by the proved library, which `hosts/library` writes; this
//! crate keeps the session and its stores together, so that no call can be lent the wrong ones.
//!
//! A call needs some 28 KB of stack, and some 10 more in a debug build, however much there is to play. A thread with
//! 64 KB is enough for each (`tests/stack.rs`).
//!
//! The first room sounds after ten lines:
//!
//! ```
//! use std::sync::Mutex;
//! use threshreed::{At, Command, Song, Stores};
//!
//! // 64 queued commands, no capture, one second of clips.
//! static STORES: Mutex<Stores<64, 0, 48_000>> = Mutex::new(Stores::new());
//!
//! let room: Vec<f32> = (0..96_000).map(|i| (i % 200) as f32 / 400.0).collect();
//! let mut stores = STORES.lock()?;
//! let mut session = stores.open(48_000, Song::new(&room, 48_000))?;
//! session.submit(Command::Play, At::Immediate)?;
//! let mut out = [0.0; 2 * 512];
//! session.block(&mut out)?; // 512 frames for the driver, and so on
//! assert_eq!(out, room[..1024]);
//! # Ok::<(), Box<dyn std::error::Error>>(())
//! ```
//!
//! A block answers how often a loop came round in it, and [`Session::laps`] how often since the loop was set. A session
//! plays as tono does, or in house mode, where a swap's tail is under the master gain and the song sounds where the
//! playhead is ([`Mode`]). A driver that pulls is fed from a [`Ring`], into which frames are made ahead of time. What a
//! capture kept is saved in a file ([`write_tour`]), which another session reads ([`read_tour`]) and replays; of a
//! damaged file a fresh one is made of what remains ([`salvage()`]). What a saved tour does is told beforehand, without a
//! session and without its sound ([`dry_run`]).
//!
//! `examples/tour.rs` plays two minutes to a WAV file, `examples/told.rs` prints what each command did,
//! `examples/streaming.rs` walks through eight rooms with a pool for two, `examples/saved.rs` saves a walk and plays it
//! again, and `examples/picture.rs` draws what a dry run tells.

#![no_std]

mod command;
mod dry;
pub mod raw;
mod refusal;
mod ring;
mod salvage;
mod session;
mod tour;

pub use command::{At, ClockFrame, Command, Handle, LoopRange, Mode, Snapshot, SongFrame, State};
pub use dry::{DryRun, DryRunRefusal, DryRunSheet, ListedClip, Row, Skipped, dry_run};
pub use raw::{Metrics, Report};
pub use refusal::Refusal;
pub use ring::{Callback, Pump, Pumped, Ring};
pub use salvage::{Mark, Range, Salvaged, salvage, salvage_bytes, salvage_words};
pub use session::{Session, Song, Stinger, Stores, WORDS};
pub use tour::{Clips, TourFault, TourPlace, TourRefusal, read_tour, tour_bytes, write_tour};
