//! What the numbers of sendings (02, F-4) lead to, by name, so that the tests can be asked to meet each of it.

use crate::calls::Call;
use reference::network::{Network, ERROR, MAX_PACKETS};
use std::cmp::Ordering;

/// An error is delivered to a station whose row names its sender: its number beside the entry's.
pub const LOWER: &str = "an error lower than the entry";
pub const EQUAL: &str = "an error equal to the entry";
pub const HIGHER: &str = "an error higher than the entry";

/// 13, by the call; by the station of Down that would send, and by what else Deliver would answer.
const SOLICIT: &str = "13 of Solicit";
const DOWN_FIRST: &str = "13 of Down, its first station";
const DOWN_SECOND: &str = "13 of Down, its second station";
const DELIVER: [(u32, &str); 6] = [
    (102, "13 of Deliver, else 102"),
    (103, "13 of Deliver, else 103"),
    (112, "13 of Deliver, else 112"),
    (114, "13 of Deliver, else 114"),
    (115, "13 of Deliver, else 115"),
    (123, "13 of Deliver, else 123"),
];
pub const DRAIN: &str = "13 of a packet that is drained";

/// 13 where the air has no room either, and 8 where no number of a sending is left either.
const SOLICIT_BEFORE_7: &str = "13 of Solicit, before 7";
const DOWN_BEFORE_7: &str = "13 of Down, before 7";
const DELIVER_BEFORE_7: &str = "13 of Deliver, before 7";
const SOLICIT_AFTER_8: &str = "8 of Solicit, before 13";

/// What single calls can meet. A reply is not passed on after 113: own label above the advertised one, cached label above the own one, and
/// so the cached one above the advertised one.
pub const OF_CALLS: [&str; 16] = [
    LOWER,
    EQUAL,
    HIGHER,
    SOLICIT,
    DOWN_FIRST,
    DOWN_SECOND,
    DELIVER[0].1,
    DELIVER[1].1,
    DELIVER[2].1,
    DELIVER[3].1,
    DELIVER[4].1,
    DELIVER[5].1,
    SOLICIT_BEFORE_7,
    DOWN_BEFORE_7,
    DELIVER_BEFORE_7,
    SOLICIT_AFTER_8,
];

/// The network where these stations have sent nothing yet.
fn renewed(network: &Network, stations: &[usize]) -> Network {
    let mut network = *network;
    stations.iter().for_each(|&i| network.kept[i].serial = 0);
    network
}

/// What a delivered error meets in the rows of its receiver.
fn met_by_error(before: &Network, k: usize) -> Vec<&'static str> {
    let e = before.packets[k];
    if e.kind != ERROR {
        return vec![];
    }
    let rows = before.rows[usize::from(e.receiver)].iter().take(before.stations()).enumerate();
    let entries =
        rows.filter(|(t, _)| e.mask >> t & 1 == 1).filter_map(|(_, row)| row.successors().iter().find(|entry| entry.station == e.sender));
    let name = |kept: u64| match { e.serial }.cmp(&kept) {
        Ordering::Less => LOWER,
        Ordering::Equal => EQUAL,
        Ordering::Greater => HIGHER,
    };
    entries.map(|entry| name(entry.serial)).collect()
}

/// What Deliver would answer, had its receiver a number left and the air room.
fn otherwise(before: &Network, k: usize) -> u32 {
    let mut alone = renewed(before, &[usize::from(before.packets[k].receiver)]);
    alone.packets[0] = before.packets[k];
    alone.in_air = 1;
    alone.limit = MAX_PACKETS as u8;
    alone.deliver(0).expect("a packet alone in the air").outcome
}

/// What a call met, by the network before it and its answer.
pub fn met_by(before: &Network, call: Call, answer: u32) -> Vec<&'static str> {
    let mut met = vec![];
    match (call, answer) {
        (Call::Deliver(k), 121..=123) => met = met_by_error(before, k),
        (Call::Deliver(k), 13) => {
            let outcome = otherwise(before, k);
            met.extend(DELIVER.iter().filter(|(number, _)| *number == outcome).map(|(_, name)| *name));
            if renewed(before, &[usize::from(before.packets[k].receiver)]).deliver(k) == Err(7) {
                met.push(DELIVER_BEFORE_7);
            }
        }
        (Call::Solicit(a, t), 13) => {
            met.push(SOLICIT);
            if renewed(before, &[a]).solicit(a, t) == Err(7) {
                met.push(SOLICIT_BEFORE_7);
            }
        }
        (Call::Solicit(a, _), 8) if before.kept[a].serial == u64::MAX && before.neighbours(a).next().is_some() => met.push(SOLICIT_AFTER_8),
        (Call::Down(a, b), 13) => {
            for (other, name) in [(b, DOWN_FIRST), (a, DOWN_SECOND)] {
                if renewed(before, &[other]).down(a, b) == Err(13) {
                    met.push(name);
                }
            }
            if renewed(before, &[a, b]).down(a, b) == Err(7) {
                met.push(DOWN_BEFORE_7);
            }
        }
        _ => (),
    }
    met
}

/// How many packets draining loses by 13, in the Rust build alone.
pub fn lost_by_draining(before: &Network) -> u64 {
    let mut network = *before;
    let mut lost = 0;
    while network.in_air > 0 {
        if let Err(number) = network.deliver(0) {
            lost += u64::from(number == 13);
            network.remove_packet(0);
        }
    }
    lost
}

/// In a network that calls from Open made, each packet and each entry has a number that its sender has used.
pub fn check(network: &Network) -> Result<(), String> {
    let used = |sender: u8, serial: u64| (1..=network.kept[usize::from(sender)].serial).contains(&serial);
    for packet in network.air() {
        if !used(packet.sender, packet.serial) {
            return Err(format!("a packet in the air has a number that {} has not used: {packet:?}", { packet.sender }));
        }
    }
    for i in 0..network.stations() {
        for t in 0..network.stations() {
            for entry in network.rows[i][t].successors() {
                if !used(entry.station, entry.serial) {
                    return Err(format!("the route of {i} for {t} has a number that {} has not used: {entry:?}", { entry.station }));
                }
            }
        }
    }
    Ok(())
}
