//! The mesh sandbox a second time, in plain Rust and in place: written from 01, the sandbox's specification, and 02, which amends it, with
//! the readings of them that docs/DECISIONS.md lists, and from docs/LAYOUT.md and include/srp.h. The proved library is held against it. Each
//! part names the place of 01 or 02 that it is; quotes are their words.

pub mod calls;
pub mod console;
pub mod label;
pub mod network;
pub mod printout;
pub mod running;
pub mod script;

#[cfg(feature = "entry-points")]
pub mod entry_points;
