//! The rehearsal program, run on a script.

use std::io::{Read, Write};
use std::path::PathBuf;
use std::process::{Command, Stdio};

/// The repository.
pub fn root() -> PathBuf {
    PathBuf::from(concat!(env!("CARGO_MANIFEST_DIR"), "/../.."))
}

/// What target/bin/rehearse prints.
pub fn rehearse(script: &[u8]) -> Result<Vec<u8>, String> {
    run(script).map_err(|error| format!("target/bin/rehearse: {error}"))
}

fn run(script: &[u8]) -> std::io::Result<Vec<u8>> {
    let mut program = Command::new(root().join("target/bin/rehearse")).stdin(Stdio::piped()).stdout(Stdio::piped()).spawn()?;
    // The longest script goes into a pipe whole. One that is longer than any script may find the pipe closed.
    let written = program.stdin.take().unwrap().write_all(script);
    if script.len() <= reference::script::length(reference::script::MAX_EVENTS) {
        written?;
    }
    let mut printed = Vec::new();
    program.stdout.take().unwrap().read_to_end(&mut printed)?;
    program.wait()?;
    Ok(printed)
}
