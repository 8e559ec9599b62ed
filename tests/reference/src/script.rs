//! 01, "Scripts and the printout": scripts in bytes, and the tests of what they and Open are handed.

use crate::network::MAX_PACKETS;

/// "Sizes first: n (1 byte), E (2), start (8), little-endian".
pub const HEAD: usize = 11;
pub const MAX_EVENTS: usize = 4096;

pub const UP: u8 = 1;
pub const DOWN: u8 = 2;
pub const SOLICIT: u8 = 3;
pub const GIVE_UP: u8 = 4;
pub const EXPIRE: u8 = 5;
pub const DELIVER: u8 = 6;
pub const LOSE: u8 = 7;
pub const DUPLICATE: u8 = 8;
pub const TRACE: u8 = 9;

/// What stands before the events of a script.
#[derive(Clone, Copy, PartialEq, Eq, Debug)]
pub struct Sizes {
    pub n: u8,
    pub events: usize,
    pub start: u64,
}

/// The length of a script of so many events.
pub fn length(events: usize) -> usize {
    HEAD + 3 * events
}

/// 1 where a network cannot be opened so.
pub fn test_opening(n: usize, start: u64) -> Result<(), u32> {
    if (2..=16).contains(&n) && start != 0 {
        Ok(())
    } else {
        Err(1)
    }
}

/// 14: "limit over 128".
pub fn test_limit(limit: usize) -> Result<(), u32> {
    if limit <= MAX_PACKETS {
        Ok(())
    } else {
        Err(14)
    }
}

/// "In 4, 6, 7, 8 b is unused".
pub fn uses_b(kind: u8) -> bool {
    !matches!(kind, GIVE_UP | DELIVER | LOSE | DUPLICATE)
}

/// 11: "kind not 1..9, or an unused operand not 0".
pub fn test_events(kinds: &[u8], operands: &[u8]) -> Result<(), u32> {
    let is_event = |(kind, pair): (&u8, &[u8])| (UP..=TRACE).contains(kind) && (uses_b(*kind) || pair[1] == 0);
    if kinds.iter().zip(operands.chunks_exact(2)).all(is_event) {
        Ok(())
    } else {
        Err(11)
    }
}

/// 10 where there are "events over 4,096" or "operands not 2E".
pub fn test_sizes(kinds: &[u8], operands: &[u8]) -> Result<(), u32> {
    if kinds.len() <= MAX_EVENTS && operands.len() == 2 * kinds.len() {
        Ok(())
    } else {
        Err(10)
    }
}

/// A script taken apart: its sizes, kinds and operands. "Reading a script tests 9, 10, 1, 11".
pub fn parse(script: &[u8]) -> Result<(Sizes, &[u8], &[u8]), u32> {
    if script.len() < HEAD {
        return Err(9);
    }
    let events = usize::from(u16::from_le_bytes([script[1], script[2]]));
    let sizes = Sizes { n: script[0], events, start: u64::from_le_bytes(script[3..HEAD].try_into().unwrap()) };
    if events > MAX_EVENTS || script.len() != length(events) {
        return Err(10);
    }
    test_opening(usize::from(sizes.n), sizes.start)?;
    let (kinds, operands) = script[HEAD..].split_at(events);
    test_events(kinds, operands)?;
    Ok((sizes, kinds, operands))
}

/// The start of a script that reads, and 0 for every other.
pub fn start(script: &[u8]) -> u64 {
    parse(script).map_or(0, |(sizes, _, _)| sizes.start)
}

/// Reads a script into lent arrays, 12 last: "a lent output array shorter than E kinds, 2E operands". Places past these are kept.
pub fn read(script: &[u8], kinds: &mut [u8], operands: &mut [u8]) -> Result<Sizes, u32> {
    let (sizes, its_kinds, its_operands) = parse(script)?;
    if kinds.len() < sizes.events || operands.len() < 2 * sizes.events {
        return Err(12);
    }
    kinds[..sizes.events].copy_from_slice(its_kinds);
    operands[..2 * sizes.events].copy_from_slice(its_operands);
    Ok(sizes)
}

/// Writes a script into a lent array; the bytes written. Writing tests 10, 1, 11, 12. "Writing takes E from the number of kinds."
pub fn write(n: usize, start: u64, kinds: &[u8], operands: &[u8], out: &mut [u8]) -> Result<usize, u32> {
    test_sizes(kinds, operands)?;
    test_opening(n, start)?;
    test_events(kinds, operands)?;
    let events = kinds.len();
    let length = length(events);
    if out.len() < length {
        return Err(12);
    }
    out[0] = n as u8;
    out[1..3].copy_from_slice(&(events as u16).to_le_bytes());
    out[3..HEAD].copy_from_slice(&start.to_le_bytes());
    out[HEAD..HEAD + events].copy_from_slice(kinds);
    out[HEAD + events..length].copy_from_slice(operands);
    Ok(length)
}
