//! Scripts read and written by both builds, with every length around the limits and each byte damaged.

use crate::calls::{answer_of, count_of};
use crate::random::Random;
use crate::scripts::{check_program, script_of, with_script, Script};
use crate::tally::Tally;
use reference::console;
use reference::script::{length, uses_b, HEAD, MAX_EVENTS};

const UNUSED: u8 = 0xa5;

/// Reads a script into arrays of these lengths on both builds, and writes what was read back.
fn check_read(tally: &mut Tally, script: &[u8], kinds: usize, operands: usize) -> Result<(), String> {
    let arrays = || (vec![UNUSED; kinds], vec![UNUSED; operands]);
    let (mut library, mut reference) = (arrays(), arrays());
    let result = library::read_script(script, &mut library.0, &mut library.1);
    let wanted = console::read_script(script, &mut reference.0, &mut reference.1);
    let fails = |what: &str| Err(with_script(&format!("reading {} bytes into {kinds} and {operands}: {what}", script.len()), script));
    tally.count(answer_of(result));
    if result != wanted {
        return fails(&format!("the library answers {}, the Rust build {}", answer_of(result), answer_of(wanted)));
    }
    if library != reference {
        return fails("the arrays differ");
    }
    if answer_of(result) != 0 && library != arrays() {
        return fails("it was turned down, and the library wrote");
    }
    if library::script_start(script) != console::script_start(script) {
        return fails("the starts differ");
    }
    // 12 is of the arrays; any other refusal is of the script, which then has no start.
    if (library::script_start(script) != 0) != matches!(answer_of(result), 0 | 12) {
        return fails("a script that does not read has a start, or one that reads has none");
    }
    if answer_of(result) == 0 {
        let (events, n) = (count_of(result) as usize & 0xffff, count_of(result) as usize >> 16);
        let start = library::script_start(script);
        let mut back = vec![UNUSED; script.len()];
        let written = library::write_script(n, start, &library.0[..events], &library.1[..2 * events], &mut back);
        if answer_of(written) != 0 || back != script {
            return fails("what was read is not written back to the same bytes");
        }
    }
    Ok(())
}

/// Writes a script into an array of this length on both builds, and reads what was written.
fn check_write(tally: &mut Tally, n: usize, start: u64, kinds: &[u8], operands: &[u8], room: usize) -> Result<(), String> {
    let (mut library, mut reference) = (vec![UNUSED; room], vec![UNUSED; room]);
    let result = library::write_script(n, start, kinds, operands, &mut library);
    let wanted = console::write_script(n, start, kinds, operands, &mut reference);
    let fails = |what: &str| {
        let sizes = format!("n = {n}, start = {start}, {} kinds and {} operands into {room} bytes", kinds.len(), operands.len());
        Err(with_script(&format!("writing {sizes}: {what}; the kinds and operands:"), &[kinds, operands].concat()))
    };
    tally.count(answer_of(result));
    if result != wanted {
        return fails(&format!("the library answers {}, the Rust build {}", answer_of(result), answer_of(wanted)));
    }
    if library != reference {
        return fails("the bytes differ");
    }
    if answer_of(result) != 0 {
        return if library.iter().any(|&byte| byte != UNUSED) { fails("it was turned down, and the library wrote") } else { Ok(()) };
    }
    let (mut kinds_back, mut operands_back) = (vec![UNUSED; kinds.len()], vec![UNUSED; operands.len()]);
    let read = library::read_script(&library[..count_of(result) as usize], &mut kinds_back, &mut operands_back);
    if answer_of(read) != 0 || count_of(read) as usize != kinds.len() + 65_536 * n || kinds_back != kinds || operands_back != operands {
        return fails("what was written does not read back");
    }
    Ok(())
}

fn check_read_whole(tally: &mut Tally, script: &[u8]) -> Result<(), String> {
    check_read(tally, script, MAX_EVENTS, 2 * MAX_EVENTS)
}

/// Operands of any value, 0 where an event's kind does not use one.
fn some_operands(random: &mut Random, kinds: &[u8]) -> Vec<u8> {
    kinds.iter().flat_map(|&kind| [random.byte(), if uses_b(kind) { random.byte() } else { 0 }]).collect()
}

/// Events of all kinds.
fn some_script(random: &mut Random, events: usize) -> Script {
    let kinds: Vec<u8> = (0..events).map(|_| random.between(1, 9) as u8).collect();
    let operands = some_operands(random, &kinds);
    Script { n: random.between(2, 16), start: random.number().max(1), kinds, operands }
}

/// Numbers of events at the limits and at the ends of E's two bytes.
const SIZES: [usize; 14] = [0, 1, 2, 3, 255, 256, 257, 4094, 4095, 4096, 4097, 4098, 65534, 65535];

/// Lengths a little shorter and longer.
fn around(length: usize) -> std::ops::RangeInclusive<usize> {
    length.saturating_sub(4)..=length + 4
}

/// Every length of a script around what its E asks for, and every one around a script's head.
pub fn check_lengths() -> Result<Tally, String> {
    let mut random = Random::new(1);
    let mut tally = Tally::default();
    for events in SIZES {
        let mut script = some_script(&mut random, events).bytes();
        script.extend([0; 4]);
        for length in around(length(events)).chain(0..=2 * HEAD).filter(|&length| length <= script.len()) {
            check_read_whole(&mut tally, &script[..length])?;
        }
        check_program(&script[..length(events)])?;
        check_program(&script)?;
    }
    Ok(tally)
}

/// Every length of the lent arrays around what a script needs; and numbers that a script cannot have.
pub fn check_rooms() -> Result<Tally, String> {
    let mut random = Random::new(2);
    let mut tally = Tally::default();
    for events in SIZES.into_iter().filter(|&events| events <= MAX_EVENTS + 2) {
        let script = some_script(&mut random, events);
        let bytes = script.bytes();
        for kinds in around(events) {
            for operands in around(2 * events) {
                check_read(&mut tally, &bytes, kinds, operands)?;
            }
        }
        for room in around(length(events)).chain([0, length(events) + 1000]) {
            check_write(&mut tally, script.n, script.start, &script.kinds, &script.operands, room)?;
        }
        let more = [&script.operands[..], &[0; 4]].concat();
        for operands in around(2 * events) {
            check_write(&mut tally, script.n, script.start, &script.kinds, &more[..operands], length(events))?;
        }
        for n in [0, 1, 2, 15, 16, 17, 255, 256, 258, 1 << 32 | 2, usize::MAX] {
            for start in [0, 1, 1 << 32, u64::MAX] {
                check_write(&mut tally, n, start, &script.kinds, &script.operands, length(events))?;
                check_write(&mut tally, n, start, &script.kinds, &script.operands, length(events) - 1)?;
            }
        }
    }
    Ok(tally)
}

/// Each byte of a script of all kinds with every value: read, and its parts written.
pub fn check_each_value() -> Result<Tally, String> {
    let mut tally = Tally::default();
    let kinds: Vec<u8> = (1..=9).collect();
    let operands = some_operands(&mut Random::new(3), &kinds);
    let bytes = Script { n: 3, start: 1, kinds, operands }.bytes();
    for at in 0..bytes.len() {
        for value in 0..=255 {
            let mut damaged = bytes.clone();
            damaged[at] = value;
            check_read_whole(&mut tally, &damaged)?;
            let (kinds, operands) = damaged[HEAD..].split_at(9);
            let start = u64::from_le_bytes(damaged[3..HEAD].try_into().unwrap());
            check_write(&mut tally, usize::from(damaged[0]), start, kinds, operands, damaged.len())?;
        }
    }
    Ok(tally)
}

/// Every set of faults together: the answer is the first of 9, 10, 1, 11, 12 that applies, and of 10, 1, 11, 12 where a script is written.
pub fn check_orders() -> Result<Tally, String> {
    let mut tally = Tally::default();
    for faults in 0..1 << 8 {
        let has = |fault: usize| faults >> fault & 1 == 1;
        let mut wrong = Script::with_faults([0, 1, 2, 3].map(has));
        let events = wrong.kinds.len();
        if has(4) {
            wrong.operands.push(0);
        }
        let room = length(events) - usize::from(has(5));
        check_write(&mut tally, wrong.n, wrong.start, &wrong.kinds, &wrong.operands, room)?;
        let mut bytes = wrong.bytes();
        if has(7) {
            bytes.truncate(HEAD - 1);
        }
        check_read(&mut tally, &bytes, events - usize::from(has(5)), 2 * events - usize::from(has(6)))?;
        check_program(&bytes)?;
    }
    Ok(tally)
}

/// How many bytes of the longest script one case damages.
const CHUNK: usize = 500;

/// Cases that damage each byte of the longest script.
pub const CHUNKS: usize = (HEAD + 3 * MAX_EVENTS).div_ceil(CHUNK);

/// Each byte of a part of the longest script damaged.
pub fn check_each_byte(chunk: usize) -> Result<Tally, String> {
    let mut tally = Tally::default();
    let mut bytes = some_script(&mut Random::new(4), MAX_EVENTS).bytes();
    let end = bytes.len().min((chunk + 1) * CHUNK);
    for at in chunk * CHUNK..end {
        let byte = bytes[at];
        for value in [0, byte ^ 1, byte ^ 0x80, 0xff] {
            bytes[at] = value;
            check_read_whole(&mut tally, &bytes)?;
        }
        bytes[at] = byte;
    }
    Ok(tally)
}

/// A script with a few bytes changed, cut or added, read by both builds and rehearsed by both programs.
pub fn check_damaged(case: usize, examples: &[Script]) -> Result<Tally, String> {
    let mut random = Random::new(case as u64);
    let mut tally = Tally::default();
    let whole = script_of(case, examples).bytes();
    for _ in 0..4 {
        let mut bytes = whole.clone();
        for _ in 0..random.below(3) {
            let at = if random.percent(50) { random.below(HEAD + 4).min(bytes.len() - 1) } else { random.below(bytes.len()) };
            bytes[at] = if random.percent(80) { random.of(&[0, 1, 2, 9, 10, 16, 17, 255]) } else { random.byte() };
        }
        match random.below(4) {
            0 => bytes.truncate(random.below(bytes.len() + 1)),
            1 => bytes.extend(vec![0; random.below(8)]),
            _ => (),
        }
        check_read_whole(&mut tally, &bytes)?;
        check_program(&bytes)?;
    }
    Ok(tally)
}
