//! Air limits (02, F-5): what they lead to, by name, and F-5's two claims of scripts, each under many limits.

use crate::calls::{call_of, Call};
use crate::random::Random;
use crate::runs::{check_claims, check_rehearsal, check_singly, run, Ran};
use crate::scripts::{check_made, never, with_script, Script};
use crate::tally::Tally;
use reference::calls::Answer;
use reference::console;
use reference::network::{Network, ERROR, LENGTH, MAX_PACKETS};

/// 7 where 128 packets would be none too many: by the call, and by the packet that Deliver is of.
const SOLICIT: &str = "7 of Solicit, by a limit below 128";
const DOWN: &str = "7 of Down, by a limit below 128";
const DUPLICATE: &str = "7 of Duplicate, by a limit below 128";
const REQUEST: &str = "7 of Deliver, a request, by a limit below 128";
const AN_ERROR: &str = "7 of Deliver, an error, by a limit below 128";
const PREVIEW: &str = "7 of Preview, by a limit below 128";
pub const DRAIN: &str = "7 of a packet that is drained, by a limit below 128";

/// A call after which as many packets are in the air as the limit, and were fewer before.
const REACHED: &str = "a limit below 128 that is reached";

/// 14, and 1 where the limit is too high besides.
const TOO_HIGH: &str = "14 of Open";
const AFTER_1: &str = "1 of Open, before 14";

/// What single calls can meet.
pub const OF_CALLS: [&str; 9] = [SOLICIT, DOWN, DUPLICATE, REQUEST, AN_ERROR, PREVIEW, REACHED, TOO_HIGH, AFTER_1];

/// A network under the highest limit.
fn unlimited(network: &Network) -> Network {
    Network { limit: MAX_PACKETS as u8, ..*network }
}

/// What a call met, by the network before it, its answer and the network after it.
pub fn met_by(before: &Network, call: Call, answer: u32, after: &Network) -> Option<&'static str> {
    let by_limit = |otherwise: Answer, name| otherwise.is_ok().then_some(name);
    match (call, answer) {
        (Call::Open(..), 14) => Some(TOO_HIGH),
        (Call::Open(_, _, limit), 1) if limit > MAX_PACKETS => Some(AFTER_1),
        (Call::Solicit(a, t), 7) => by_limit(unlimited(before).solicit(a, t), SOLICIT),
        (Call::Down(a, b), 7) => by_limit(unlimited(before).down(a, b), DOWN),
        (Call::Duplicate(k), 7) => by_limit(unlimited(before).duplicate(k), DUPLICATE),
        (Call::Deliver(k), 7) => by_limit(unlimited(before).deliver(k), if before.packets[k].kind == ERROR { AN_ERROR } else { REQUEST }),
        (Call::Preview(k), 7) => by_limit(unlimited(before).deliver(k), PREVIEW),
        _ => (before.in_air < after.in_air && after.in_air == after.limit && usize::from(after.limit) < MAX_PACKETS).then_some(REACHED),
    }
}

/// How many packets draining loses by 7 where 128 would be none too many, in the Rust build alone.
pub fn lost_by_draining(before: &Network) -> u64 {
    let mut network = *before;
    let mut lost = 0;
    while network.in_air > 0 {
        if let Err(number) = network.deliver(0) {
            lost += u64::from(number == 7 && unlimited(&network).deliver(0).is_ok());
            network.remove_packet(0);
        }
    }
    lost
}

/// Both claims, by the limit of the first run.
pub const OF_128: &str = "a first run with limit 128";
pub const OF_ANOTHER: &str = "a first run with a limit that turns events down";
pub const NOT_REACHED: &str = "a first run with a limit that turns events down, and does not reach it";

/// Memory opened by both builds with a limit, and bytes past the layout.
fn opened(script: &Script, limit: usize) -> Result<Vec<u8>, String> {
    let mut memory = vec![0xc3; LENGTH + 3];
    let mut reference = memory.clone();
    let result = library::open(&mut memory, script.n, script.start, limit);
    let wanted = console::open(&mut reference, script.n, script.start, limit);
    if result != 0 || wanted != 0 || memory != reference {
        return Err(format!("Open with limit {limit}: the library gives {result}, the Rust build {wanted}, or the bytes differ"));
    }
    Ok(memory)
}

/// A script under a limit, as a run and as a rehearsal, by both builds.
fn under(script: &Script, limit: usize) -> Result<Ran, String> {
    let ran = run(&opened(script, limit)?, &script.kinds, &script.operands, script.kinds.len() + 1)?;
    check_rehearsal(&script.bytes(), limit, &ran)?;
    if let Some(index) = (0..script.kinds.len()).find(|&index| never(ran.line(index).answer)) {
        return Err(format!("event {index} of a script is answered {}", ran.line(index).answer));
    }
    check_made(ran.network())?;
    Ok(ran)
}

/// The same, where asked also by the library's single calls.
fn under_counted(tally: &mut Tally, script: &Script, limit: usize, singly: bool) -> Result<Ran, String> {
    let ran = under(script, limit)?;
    if singly {
        check_singly(&opened(script, limit)?, &script.kinds, &script.operands, &ran)?;
    }
    for (index, kind, a, b) in script.events() {
        tally.count_call(call_of(kind, a, b), ran.line(index).answer);
    }
    Ok(ran)
}

/// The claims with limit 128, whose single calls `scripts::check` makes; then another limit, mostly one that turns events down. Of one script of four
/// the claims are held against that run too, and the single calls under other limits are made.
fn check_all(tally: &mut Tally, script: &Script, random: &mut Random) -> Result<(), String> {
    let singly = random.below(4) == 0;
    let first = under(script, MAX_PACKETS)?;
    check_claims(&first, 0, |again| under_counted(tally, script, again, singly))?;
    let highest = usize::from(first.tally().highest);
    let limit = if highest > 0 && random.percent(90) { random.below(highest) } else { random.below(MAX_PACKETS + 1) };
    let other = under_counted(tally, script, limit, singly)?;
    tally.count_named(OF_128, u64::from(highest > 0));
    if !singly {
        return Ok(());
    }
    check_claims(&other, 0, |again| under(script, again)).map_err(|what| format!("after a run with limit {limit}, {what}"))?;
    let turned_down = limit < highest;
    tally.count_named(OF_ANOTHER, u64::from(turned_down && other.tally().highest > 0));
    tally.count_named(NOT_REACHED, u64::from(turned_down && usize::from(other.tally().highest) < limit));
    Ok(())
}

/// A script under many limits.
pub fn check(script: &Script, random: &mut Random) -> Result<Tally, String> {
    let mut tally = Tally::default();
    check_all(&mut tally, script, random).map_err(|what| with_script(&what, &script.bytes()))?;
    Ok(tally)
}
