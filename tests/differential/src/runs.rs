//! Runs of events and rehearsals by both builds (02, F-5), on networks that calls made or not, with every refusal; and what their tallies
//! tell of the air limit.

use crate::calls::{answer_to, by_library, call_of, calls_but_open, difference, is_refused, line_of, tallied_of, Call, Desk, OUT};
use crate::networks::{some_event, some_network};
use crate::random::Random;
use crate::scripts::Script;
use crate::tally::Tally;
use reference::console::{self, PRINTOUT_BYTES};
use reference::network::{Bytes, Network, LENGTH, MAX_PACKETS};
use reference::running::{self, Line};
use reference::script::{HEAD, MAX_EVENTS, TRACE};
use std::mem::offset_of;

/// What stands in a lent array before a call.
const UNUSED_LINE: u64 = 0xa5a5_a5a5_a5a5_a5a5;
const UNUSED: u8 = 0xa5;

/// Where the limit stands.
const LIMIT_AT: usize = offset_of!(Network, limit);

/// What a run gave: its result, its lines, and the memory that it left.
pub struct Ran {
    pub result: u64,
    lines: Vec<u64>,
    memory: Vec<u8>,
}

impl Ran {
    pub fn answer(&self) -> u32 {
        tallied_of(self.result).0
    }

    pub fn tally(&self) -> running::Tally {
        tallied_of(self.result).2
    }

    /// The events that it told of.
    fn events(&self) -> usize {
        self.tally().calls as usize
    }

    pub fn line(&self, index: usize) -> Line {
        unpacked(self.lines[index])
    }

    /// The network that it left.
    pub fn network(&self) -> &Network {
        Network::of(&self.memory).unwrap()
    }
}

/// A line out of its number.
fn unpacked(number: u64) -> Line {
    Line { answer: number as u32, sent: (number >> 32) as u8, in_air: (number >> 40) as u8, hops: (number >> 48) as u8 }
}

/// The first place where two lists differ.
fn place<T: PartialEq>(a: &[T], b: &[T]) -> Option<usize> {
    (0..a.len().max(b.len())).find(|&at| a.get(at) != b.get(at))
}

/// A run on both builds, with an array of so many lines. Turned down, it leaves all; else its tally is that of its lines.
pub fn run(memory: &[u8], kinds: &[u8], operands: &[u8], room: usize) -> Result<Ran, String> {
    let by = |build: fn(&mut [u8], &[u8], &[u8], &mut [u64]) -> u64| {
        let (mut memory, mut lines) = (memory.to_vec(), vec![UNUSED_LINE; room]);
        let result = build(&mut memory, kinds, operands, &mut lines);
        Ran { result, lines, memory }
    };
    let (ran, wanted) = (by(library::run), by(console::run));
    if ran.result != wanted.result {
        return Err(format!("the run gives {:?}, the Rust build {:?}", tallied_of(ran.result), tallied_of(wanted.result)));
    }
    if let Some(at) = place(&ran.lines, &wanted.lines) {
        return Err(format!("line {at} of the run is {:?}, of the Rust build {:?}", unpacked(ran.lines[at]), unpacked(wanted.lines[at])));
    }
    if ran.memory != wanted.memory {
        return Err(format!("after the run: {}", difference(&ran.memory, &wanted.memory)));
    }
    if ran.answer() != 0 {
        if ran.result != u64::from(ran.answer()) || ran.memory != memory || ran.lines.iter().any(|&line| line != UNUSED_LINE) {
            return Err(format!("the run is turned down with {}, and counts or writes", ran.answer()));
        }
        return Ok(ran);
    }
    let told = || (0..kinds.len()).map(|index| ran.line(index));
    let tally = running::Tally { calls: kinds.len() as u32, highest: told().map(|line| line.in_air).max().unwrap_or(0) };
    if (0, 0, tally) != tallied_of(ran.result) || ran.lines[kinds.len()..].iter().any(|&line| line != UNUSED_LINE) {
        return Err(format!("the run's lines have {tally:?}, and it gives {:?}; or it wrote past them", tallied_of(ran.result)));
    }
    Ok(ran)
}

/// The same events by the library's single calls, each on the memory that the one before left: the same lines, and the same bytes.
pub fn check_singly(memory: &[u8], kinds: &[u8], operands: &[u8], ran: &Ran) -> Result<(), String> {
    let mut memory = memory.to_vec();
    for (index, (&kind, pair)) in kinds.iter().zip(operands.chunks_exact(2)).enumerate() {
        let result = by_library(call_of(kind, pair[0], pair[1]), &mut memory, &mut []);
        let line = line_of(kind, result, &memory);
        if line != ran.line(index) {
            return Err(format!("line {index} of the run is {:?}, and a single call tells {line:?}", ran.line(index)));
        }
    }
    // A call that is turned down leaves the free places, and a run writes them, also one of no events.
    let none = library::run(&mut memory, &[], &[], &mut []);
    if none != 0 {
        return Err(format!("a run of no events gives {:?}", tallied_of(none)));
    }
    if memory != ran.memory {
        return Err(format!("the run, and after it the single calls: {}", difference(&ran.memory, &memory)));
    }
    Ok(())
}

/// A rehearsal on both builds, into an array of so many bytes: its result, and the array.
fn rehearse(script: &[u8], limit: usize, room: usize) -> Result<(u64, Vec<u8>), String> {
    let by = |build: fn(&[u8], usize, &mut [u8]) -> u64| {
        let mut out = vec![UNUSED; room];
        (build(script, limit, &mut out), out)
    };
    let (told, wanted) = (by(library::rehearse), by(console::rehearse));
    if told.0 != wanted.0 {
        return Err(format!("the rehearsal gives {:?}, the Rust build {:?}", tallied_of(told.0), tallied_of(wanted.0)));
    }
    if let Some(at) = place(&told.1, &wanted.1) {
        let line = told.1[..at].iter().filter(|&&byte| byte == b'\n').count();
        let text = |out: &[u8]| String::from_utf8_lossy(out).lines().nth(line).unwrap_or("(no line)").to_string();
        return Err(format!("line {line} of the rehearsal and of the Rust build:\n{}\n{}", text(&told.1), text(&wanted.1)));
    }
    if tallied_of(told.0).0 != 0 && (told.0 >= 100 || told.1.iter().any(|&byte| byte != UNUSED)) {
        return Err(format!("the rehearsal is turned down with {:?}, and counts or writes", tallied_of(told.0)));
    }
    Ok(told)
}

/// A rehearsal of the script under the limit that a run of its events had: the same tally.
pub fn check_rehearsal(script: &[u8], limit: usize, ran: &Ran) -> Result<(), String> {
    let (result, out) = rehearse(script, limit, PRINTOUT_BYTES + 1)?;
    let (answer, length, tally) = tallied_of(result);
    if (answer, tally) != (ran.answer(), ran.tally()) {
        return Err(format!("the rehearsal has {tally:?}, the run {:?}", ran.tally()));
    }
    // What both builds write ends with a line, and no byte of the text is one that stood there before.
    if out[..length].contains(&UNUSED) || length > 0 && out[length - 1] != b'\n' || out[length..].iter().any(|&byte| byte != UNUSED) {
        return Err(format!("the text of the rehearsal is not of {length} bytes"));
    }
    Ok(())
}

/// 02: "running again with limit h gives every answer as before", and every byte but the limit.
fn check_same(first: &Ran, again: &Ran) -> Result<(), String> {
    if let Some(at) = place(&first.lines, &again.lines) {
        return Err(format!("line {at} was {:?} and is {:?}", first.line(at), again.line(at)));
    }
    let mut memory = again.memory.clone();
    memory[LIMIT_AT] = first.memory[LIMIT_AT];
    if memory != first.memory {
        return Err(difference(&memory, &first.memory));
    }
    Ok(())
}

/// 02: "some event that was accepted is answered 7": the first after which the count was the highest. All before it tell the same.
fn check_turned_down(first: &Ran, again: &Ran) -> Result<(), String> {
    let highest = first.tally().highest;
    let index = (0..first.events()).find(|&index| first.line(index).in_air == highest).unwrap();
    if let Some(at) = place(&first.lines[..index], &again.lines[..index]) {
        return Err(format!("line {at}, before event {index}, was {:?} and is {:?}", first.line(at), again.line(at)));
    }
    if is_refused(u64::from(first.line(index).answer)) || again.line(index).answer != 7 {
        return Err(format!("line {index} was {:?} and is {:?}", first.line(index), again.line(index)));
    }
    Ok(())
}

/// F-5's two claims of a first run, from memory with so many packets in the air. The events are run again under the highest count and under
/// one less, where the packets that were there before are within these.
pub fn check_claims(first: &Ran, in_air: u8, mut again: impl FnMut(usize) -> Result<Ran, String>) -> Result<(), String> {
    let highest = first.tally().highest;
    if in_air <= highest {
        let again = again(usize::from(highest));
        again.and_then(|again| check_same(first, &again)).map_err(|what| format!("again with limit {highest}: {what}"))?;
    }
    if in_air < highest {
        let again = again(usize::from(highest) - 1);
        again.and_then(|again| check_turned_down(first, &again)).map_err(|what| format!("again with limit {}: {what}", highest - 1))?;
    }
    Ok(())
}

/// By whether the events led to more packets than there were before them.
pub const HIGHER: &str = "a run to more packets than before";
pub const NO_HIGHER: &str = "a run to no more packets than before";

/// Events on a random network: as a run, in two runs, by single calls; and again under other limits.
pub fn check_network(case: usize) -> Result<Tally, String> {
    let mut random = Random::new(case as u64);
    let mut tally = Tally::default();
    let network = some_network(&mut random);
    let mut bytes = network.bytes().to_vec();
    bytes.extend([0xc3; 5]);
    let (mut kinds, mut operands) = (vec![], vec![]);
    for _ in 0..random.of(&[0, 1, 2, 10, 40, 100]) {
        let (kind, a, b) = some_event(&mut random, network.stations(), usize::from(network.in_air));
        kinds.push(kind);
        operands.extend([a, b]);
    }
    let events = kinds.len();
    let first = run(&bytes, &kinds, &operands, events + random.below(3))?;
    check_singly(&bytes, &kinds, &operands, &first)?;
    let (start, end) = kinds.split_at(random.below(events + 1));
    let begun = run(&bytes, start, &operands[..2 * start.len()], start.len())?;
    let ended = run(&begun.memory, end, &operands[2 * start.len()..], end.len())?;
    if [begun.lines, ended.lines].concat() != first.lines[..events] || ended.memory != first.memory {
        return Err(format!("a run of {} events and then one of {} tell or leave something else", start.len(), end.len()));
    }
    check_claims(&first, network.in_air, |limit| {
        let mut bytes = bytes.clone();
        bytes[LIMIT_AT] = limit as u8;
        let again = run(&bytes, &kinds, &operands, first.lines.len())?;
        check_singly(&bytes, &kinds, &operands, &again)?;
        Ok(again)
    })?;
    tally.count_named(if network.in_air < first.tally().highest { HIGHER } else { NO_HIGHER }, 1);
    (0..events).for_each(|index| tally.count(first.line(index).answer));
    Ok(tally)
}

/// Every set of faults together: a run is answered with the first of 10, 1, 11, 12 that applies.
fn check_run_orders(tally: &mut Tally) -> Result<(), String> {
    let network = some_network(&mut Random::new(5));
    for faults in 0..1 << 7 {
        let has = |fault: usize| faults >> fault & 1 == 1;
        let mut bytes = network.bytes().to_vec();
        let mut kinds = vec![TRACE; if has(0) { MAX_EVENTS + 1 } else { 3 }];
        let mut operands = vec![0; 2 * kinds.len() + usize::from(has(1))];
        if has(2) {
            bytes.pop();
        }
        if has(3) {
            bytes[0] ^= 1;
        }
        if has(4) {
            kinds[2] = 10;
        }
        if has(5) {
            (kinds[1], operands[3]) = (4, 1);
        }
        let room = kinds.len() - usize::from(has(6));
        let wanted = [(10, has(0) || has(1)), (1, has(2) || has(3)), (11, has(4) || has(5)), (12, has(6))];
        let wanted = wanted.iter().find(|(_, applies)| *applies).map_or(0, |(number, _)| *number);
        let answer = run(&bytes, &kinds, &operands, room)?.answer();
        if answer != wanted {
            return Err(format!("a run with the faults {faults:07b} is answered {answer}"));
        }
        tally.count(answer);
    }
    Ok(())
}

/// The same of a rehearsal: 9, 10, 1, 11, 14, 12.
fn check_rehearsal_orders(tally: &mut Tally) -> Result<(), String> {
    for faults in 0..1 << 8 {
        let has = |fault: usize| faults >> fault & 1 == 1;
        let mut bytes = Script::with_faults([2, 3, 4, 5].map(has)).bytes();
        if has(1) {
            bytes.push(0);
        }
        if has(0) {
            bytes.truncate(HEAD - 1);
        }
        let (limit, room) = (MAX_PACKETS + usize::from(has(6)), PRINTOUT_BYTES - usize::from(has(7)));
        let wanted = [(9, has(0)), (10, has(1)), (1, has(2) || has(3)), (11, has(4) || has(5)), (14, has(6)), (12, has(7))];
        let wanted = wanted.iter().find(|(_, applies)| *applies).map_or(0, |(number, _)| *number);
        let answer = tallied_of(rehearse(&bytes, limit, room)?.0).0;
        if answer != wanted {
            return Err(format!("a rehearsal with the faults {faults:08b} is answered {answer}"));
        }
        tally.count(answer);
    }
    Ok(())
}

/// So many Traces in a network of two stations.
fn traces(events: usize) -> Script {
    Script { n: 2, start: 1, kinds: vec![TRACE; events], operands: [0, 1].repeat(events) }
}

/// Every number of lines around that of the events, and every room around a text's.
fn check_rooms(tally: &mut Tally) -> Result<(), String> {
    for events in [0, 1, 2, 255, 256, MAX_EVENTS - 1, MAX_EVENTS] {
        let script = traces(events);
        let memory = Network::fresh(2, 1, 0);
        for room in events.saturating_sub(3)..=events + 3 {
            let ran = run(memory.bytes(), &script.kinds, &script.operands, room)?;
            if ran.answer() != if room < events { 12 } else { 0 } {
                return Err(format!("{events} events with {room} lines are answered {}", ran.answer()));
            }
            tally.count(ran.answer());
        }
        for room in [0, 1, PRINTOUT_BYTES / 2, PRINTOUT_BYTES - 1, PRINTOUT_BYTES, PRINTOUT_BYTES + 1000] {
            let (answer, _, _) = tallied_of(rehearse(&script.bytes(), 0, room)?.0);
            if answer != if room < PRINTOUT_BYTES { 12 } else { 0 } {
                return Err(format!("a rehearsal of {events} events into {room} bytes is answered {answer}"));
            }
            tally.count(answer);
        }
    }
    Ok(())
}

/// Every limit up to 520, and larger ones that look like one up to 128 in fewer bits.
fn check_each_limit(tally: &mut Tally) -> Result<(), String> {
    let larger = [1 << 16, (1 << 16) + 128, 1 << 32, (1 << 32) + 1, 1 << 63, usize::MAX - 127, usize::MAX];
    let script = traces(1);
    for limit in (0..=520).chain(larger) {
        let wanted = if limit > 128 { 14 } else { 0 };
        let mut desk = Desk::new(&[UNUSED; LENGTH + 1]);
        for (n, start) in [(2, 1), (16, u64::MAX), (1, 1), (17, 1), (2, 0), (258, 1)] {
            let call = Call::Open(n, start, limit);
            let answer = answer_to(call, desk.call(call, 0)?);
            if answer != if (2..=16).contains(&n) && start > 0 { wanted } else { 1 } {
                return Err(format!("{call:?} is answered {answer}"));
            }
            if answer == 0 && (desk.network().limit as usize, library::limit(desk.memory())) != (limit, (limit as u64) << 32) {
                return Err(format!("{call:?}, and the limit is then {}", { desk.network().limit }));
            }
            tally.count(answer);
        }
        let (answer, _, _) = tallied_of(rehearse(&script.bytes(), limit, PRINTOUT_BYTES)?.0);
        if answer != wanted {
            return Err(format!("a rehearsal with limit {limit} is answered {answer}"));
        }
        tally.count(answer);
    }
    Ok(())
}

/// Every value of the limit's byte, on networks with many packets in the air and with few: out of range where it is over 128, or the
/// packets are over it.
fn check_limit_bytes(tally: &mut Tally) -> Result<(), String> {
    for seed in 0..12 {
        let mut random = Random::new(seed);
        let mut network = some_network(&mut random);
        for limit in 0..=u8::MAX {
            network.limit = limit;
            let wanted = usize::from(limit) <= MAX_PACKETS && network.in_air <= limit;
            for call in calls_but_open(0, 1, random.below(MAX_PACKETS)) {
                let answer = answer_to(call, Desk::new(network.bytes()).call(call, OUT)?);
                if (answer != 1) != wanted {
                    return Err(format!("limit {limit} with {} packets in the air: {call:?} is answered {answer}", { network.in_air }));
                }
                tally.count_call(call, answer);
            }
        }
    }
    Ok(())
}

/// The tests of runs that are no random networks.
const TESTS: [fn(&mut Tally) -> Result<(), String>; 5] =
    [check_run_orders, check_rehearsal_orders, check_rooms, check_each_limit, check_limit_bytes];

pub const CASES: usize = TESTS.len() + 6_000;

pub fn check(case: usize) -> Result<Tally, String> {
    let Some(test) = TESTS.get(case) else { return check_network(case) };
    let mut tally = Tally::default();
    test(&mut tally)?;
    Ok(tally)
}
