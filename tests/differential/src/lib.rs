//! Differential tests: the proved library, through its C entry points, and the rehearsal program against the Rust build.

pub mod calls;
pub mod changeover;
pub mod damage;
pub mod labels;
pub mod limits;
pub mod networks;
pub mod program;
pub mod random;
pub mod rows;
pub mod runs;
pub mod script_bytes;
pub mod scripts;
pub mod serials;
pub mod tally;
pub mod versions;
