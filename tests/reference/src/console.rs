//! The functions of include/srp.h on byte slices, in place. A result has the answer in its low half and a count in its high half; those of
//! `drain`, `run` and `rehearse` have the answer in their lowest 16 bits and two counts of 24 bits above it.

use crate::calls::{Answer, Drained};
use crate::label::{new_label as new_label_in_range, Label, Split};
use crate::network::{Bytes, Network, Row, MAX_STATIONS, MAX_SUCCESSORS};
use crate::printout;
use crate::running::Tally;
use crate::script;

/// The room that a rehearsal's text has to have.
pub const PRINTOUT_BYTES: usize = 184_320;

fn result(answer: u32, count: u32) -> u64 {
    u64::from(answer) | u64::from(count) << 32
}

fn result_of_two(answer: u32, first: u32, second: u32) -> u64 {
    u64::from(answer) | u64::from(first) << 16 | u64::from(second) << 40
}

/// What a call tells: packets sent, or a trace's hops.
fn told(answer: Answer) -> u64 {
    match answer {
        Ok(done) => result(done.outcome, done.sent + done.hops),
        Err(number) => result(number, 0),
    }
}

/// "A console slice shorter than the layout (for Open too) .. counts as memory out of range; Open tests the length only." 14 is "tested at
/// Open after 1".
pub fn open(memory: &mut [u8], n: usize, start: u64, limit: usize) -> u64 {
    shown(Network::of_mut(memory).ok_or(1).and_then(|network| {
        script::test_opening(n, start)?;
        script::test_limit(limit)?;
        network.open(n, start, limit);
        Ok(0)
    }))
}

/// The network in a slice, where it is in range.
fn ranged(memory: &[u8]) -> Result<&Network, u32> {
    Network::of(memory).filter(|network| network.in_range()).ok_or(1)
}

/// A step on memory that is in range, else 1.
fn made<T>(memory: &mut [u8], step: impl FnOnce(&mut Network) -> Result<T, u32>) -> Result<T, u32> {
    let network = Network::of_mut(memory).filter(|network| network.in_range()).ok_or(1u32)?;
    let answer = step(network)?;
    network.settle();
    Ok(answer)
}

fn call(memory: &mut [u8], step: impl FnOnce(&mut Network) -> Answer) -> u64 {
    told(made(memory, step))
}

pub fn up(memory: &mut [u8], a: usize, b: usize) -> u64 {
    call(memory, |network| network.up(a, b))
}

pub fn down(memory: &mut [u8], a: usize, b: usize) -> u64 {
    call(memory, |network| network.down(a, b))
}

pub fn solicit(memory: &mut [u8], a: usize, t: usize) -> u64 {
    call(memory, |network| network.solicit(a, t))
}

pub fn give_up(memory: &mut [u8], a: usize) -> u64 {
    call(memory, |network| network.give_up(a))
}

pub fn expire(memory: &mut [u8], a: usize, t: usize) -> u64 {
    call(memory, |network| network.expire(a, t))
}

pub fn deliver(memory: &mut [u8], k: usize) -> u64 {
    call(memory, |network| network.deliver(k))
}

pub fn lose(memory: &mut [u8], k: usize) -> u64 {
    call(memory, |network| network.lose(k))
}

pub fn duplicate(memory: &mut [u8], k: usize) -> u64 {
    call(memory, |network| network.duplicate(k))
}

pub fn drain(memory: &mut [u8]) -> u64 {
    match made(memory, |network| Ok(network.drain())) {
        Ok(Drained { deliveries, losses }) => result_of_two(0, deliveries, losses),
        Err(number) => result_of_two(number, 0, 0),
    }
}

/// The length of a text and a tally, or the number that turned the call down.
fn tallied(answer: Result<(usize, Tally), u32>) -> u64 {
    match answer {
        Ok((length, tally)) => result_of_two(0, length as u32, tally.calls + 65_536 * u32::from(tally.highest)),
        Err(number) => result_of_two(number, 0, 0),
    }
}

/// A run of events on the network, whose lines go to a lent array: 10, 1, 11, 12.
pub fn run(memory: &mut [u8], kinds: &[u8], operands: &[u8], lines: &mut [u64]) -> u64 {
    let sizes = script::test_sizes(kinds, operands);
    tallied(sizes.and_then(|()| {
        made(memory, |network| {
            script::test_events(kinds, operands)?;
            let told = lines.get_mut(..kinds.len()).ok_or(12u32)?;
            Ok((0, network.run(kinds, operands, |index, line| told[index] = line.packed())))
        })
    }))
}

/// A script rehearsed under a limit, whose text goes to a lent array: 9, 10, 1, 11, 14, 12.
pub fn rehearse(script: &[u8], limit: usize, out: &mut [u8]) -> u64 {
    tallied(printout::rehearse_under(script, limit).and_then(|(text, tally)| {
        if out.len() < PRINTOUT_BYTES {
            return Err(12);
        }
        out[..text.len()].copy_from_slice(&text);
        Ok((text.len(), tally))
    }))
}

pub fn trace(memory: &[u8], a: usize, t: usize) -> u64 {
    told(ranged(memory).and_then(|network| network.trace(a, t)))
}

/// A number to show, or the number that turned the call down.
fn shown(count: Result<u32, u32>) -> u64 {
    match count {
        Ok(count) => result(0, count),
        Err(number) => result(number, 0),
    }
}

/// Writes bytes to show, 12 where there is no room; how many.
fn put(bytes: &[u8], out: &mut [u8]) -> Result<u32, u32> {
    out.get_mut(..bytes.len()).ok_or(12u32)?.copy_from_slice(bytes);
    Ok(bytes.len() as u32)
}

pub fn size(memory: &[u8]) -> u64 {
    shown(ranged(memory).map(|network| u32::from(network.n)))
}

pub fn air(memory: &[u8]) -> u64 {
    shown(ranged(memory).map(|network| u32::from(network.in_air)))
}

pub fn limit(memory: &[u8]) -> u64 {
    shown(ranged(memory).map(|network| u32::from(network.limit)))
}

pub fn link(memory: &[u8], a: usize, b: usize) -> u64 {
    shown(ranged(memory).and_then(|network| {
        network.test_pair(a, b)?;
        Ok(u32::from(network.link(a, b)))
    }))
}

pub fn label(memory: &[u8], i: usize, t: usize, out: &mut [u8]) -> u64 {
    shown(ranged(memory).and_then(|network| {
        network.test_station(i.max(t))?;
        put(network.labels[i][t].bytes(), out)
    }))
}

pub fn row(memory: &[u8], i: usize, t: usize, out: &mut [u8]) -> u64 {
    shown(ranged(memory).and_then(|network| {
        network.test_station(i.max(t))?;
        let mut row = network.rows[i][t];
        row.settle();
        put(row.bytes(), out)
    }))
}

pub fn record(memory: &[u8], i: usize, source: usize, out: &mut [u8]) -> u64 {
    shown(ranged(memory).and_then(|network| {
        network.test_pair(i, source)?;
        put(network.records[i][source].bytes(), out)
    }))
}

pub fn station(memory: &[u8], i: usize, out: &mut [u8]) -> u64 {
    shown(ranged(memory).and_then(|network| {
        network.test_station(i)?;
        put(network.kept[i].bytes(), out)
    }))
}

pub fn packet(memory: &[u8], k: usize, out: &mut [u8]) -> u64 {
    shown(ranged(memory).and_then(|network| {
        network.test_packet(k)?;
        put(network.packets[k].bytes(), out)
    }))
}

/// What Deliver tells, and 12 after its refusals.
pub fn preview(memory: &[u8], k: usize, out: &mut [u8]) -> u64 {
    told(ranged(memory).and_then(|network| {
        let (done, preview) = network.preview(k)?;
        put(preview.bytes(), out)?;
        Ok(done)
    }))
}

/// Where a station stands in a row, or the row's count, and how many places were looked at: 1 for no row, 2 for no station.
pub fn find(row: &[u8], station: usize) -> u64 {
    shown(Row::of(row).filter(|row| usize::from(row.count) <= MAX_SUCCESSORS).ok_or(1).and_then(|row| {
        if station >= MAX_STATIONS {
            return Err(2);
        }
        let place = row.position(station).unwrap_or(usize::from(row.count));
        Ok(place as u32 + 65_536 * row.looked_at(station) as u32)
    }))
}

pub fn read_script(script: &[u8], kinds: &mut [u8], operands: &mut [u8]) -> u64 {
    shown(script::read(script, kinds, operands).map(|sizes| sizes.events as u32 + 65_536 * u32::from(sizes.n)))
}

pub fn script_start(script: &[u8]) -> u64 {
    script::start(script)
}

pub fn write_script(n: usize, start: u64, kinds: &[u8], operands: &[u8], out: &mut [u8]) -> u64 {
    shown(script::write(n, start, kinds, operands, out).map(|length| length as u32))
}

/// The new label's d and m, or 0 and a number; "a label out of range" is 1.
pub fn new_label(own: Label, cached: Label, advertised: Label) -> u64 {
    if !(own.in_range() && cached.in_range() && advertised.in_range()) {
        return result(1, 0);
    }
    match new_label_in_range(Split::Simplest, own, cached, advertised) {
        Ok(label) => result(label.m, label.d),
        Err(number) => result(number, 0),
    }
}
