//! The rehearsal program: a script on standard input, its printout on standard output.

use std::io::{Read, Write};

fn main() -> std::io::Result<()> {
    let mut script = Vec::new();
    // One byte more than the longest script: what is longer is turned down as this much of it is.
    let longest = reference::script::length(reference::script::MAX_EVENTS) as u64;
    std::io::stdin().take(longest + 1).read_to_end(&mut script)?;
    std::io::stdout().write_all(&reference::printout::rehearse(&script))
}
