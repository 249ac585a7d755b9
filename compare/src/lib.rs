//! The Rust beside the proved library. tono's music runtime is compiled unchanged from the folder that
//! `TONO_SRC` names, over small stand-ins for the parts of tono that it leans on, and [`session`] offers
//! document 01's calls over it. The proved library is linked as a host links it.
//!
//! [`both`] plays a call on [`ours`] and on [`theirs`] and compares the answers and how the two then stand;
//! [`script`] says what a call and an answer are. [`generator`] makes random sessions inside [`domain`], and
//! each block of ours in pieces too; [`house`] plays them in house mode, which the Rust does not have. [`undo`]
//! looks at the laws of snapshots in both modes after each call, [`between`] at those of a load and a
//! retirement beside a block. [`turns`] makes their frames into a ring instead, which a callback drains.
//! [`reached`] counts what they reach, [`tell`] prints it, and [`list`] writes the fixed list of the Rust's answers.
//! [`faults`] are planted into a copy of the Rust to show that the comparison sees them.
//!
//! - `cargo test`: document 01's numbers on the Rust, the differences on both, the declick at every rate, the
//!   passes of a loop and snapshots one after the other on both, spoiled sessions through the static library,
//!   2,000 random sessions on both and in house mode, 100,000 random turns of pumps and drains on both, the
//!   fixed list, and the planted faults.
//! - `cargo run --release --bin sessions -- 20000 [first seed]`: as many sessions as are wanted.
//! - `cargo run --release --bin turns -- 100000 [first seed]`: as many turns as are wanted.
//! - `cargo run --release --bin answers`: writes the fixed list.
//! - `cargo run --release --bin speed`: how fast both are; `compare/instructions` counts instructions instead.

pub mod between;
pub mod both;
pub mod clip;
pub mod dice;
pub mod domain;
pub mod dsl;
pub mod dsp;
pub mod faults;
pub mod generator;
pub mod house;
pub mod list;
pub mod ours;
pub mod program;
pub mod reached;
pub mod render;
pub mod runtime;
pub mod script;
pub mod session;
pub mod sessions;
pub mod streaming;
pub mod tell;
pub mod theirs;
pub mod turns;
pub mod undo;
pub mod units;

include!(concat!(env!("OUT_DIR"), "/tono_root.rs"));
