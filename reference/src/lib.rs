//! The kiln diagrams written a second time, from the rules in `docs/` alone.
//!
//! `grammar` reads loop files, `session` runs them, `diagram` has the calls,
//! `loops` and `locks` the two families of blocks. `fast` is the same scan
//! over arrays. `generate` and `compare` make loop files and try programs on
//! them.

pub mod compare;
pub mod diagram;
pub mod family;
pub mod fast;
pub mod generate;
pub mod grammar;
pub mod locks;
pub mod loops;
pub mod program;
pub mod random;
pub mod refusal;
pub mod scan;
pub mod session;
pub mod slots;
pub mod wiring;

/// Slots of a diagram.
pub const SLOTS: usize = 256;
