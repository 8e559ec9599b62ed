//! Damaged memory: a byte changed here and there, or one clause of the range test broken.

use crate::calls::{answer_to, place, Call, Desk, OUT};
use crate::networks::{some_call, some_network};
use crate::random::Random;
use crate::scripts::{script_of, Script};
use crate::tally::Tally;
use reference::label::{Label, UNASSIGNED};
use reference::network::{
    Bytes, Network, Packet, Record, Row, Station, Successor, ERROR, LENGTH, MAX_PACKETS, MAX_STATIONS, NO_PACKET, NO_ROW, REPLY, REQUEST,
};
use std::mem::{offset_of, size_of};

/// A byte of the layout, mostly one that tells something of a network of n stations with packets in the air.
fn some_byte(random: &mut Random, network: &Network) -> usize {
    let n = network.stations();
    let pair = MAX_STATIONS * random.below(n) + random.below(n);
    let packet = random.below(usize::from(network.in_air).max(1));
    let station = random.below(n);
    let (pick, anywhere) = (random.below(15), random.below(LENGTH));
    // A byte of an entry of a table: one of those that are named, or any.
    let mut of = |table: usize, size: usize, place: usize, named: &[usize]| {
        table + size * place + if random.percent(50) { random.of(named) } else { random.below(size) }
    };
    let kept = [offset_of!(Station, sought), offset_of!(Station, active)];
    let row = [0, 1, 2, 3].map(|entry| offset_of!(Row, entries) + size_of::<Successor>() * entry);
    let record = [offset_of!(Record, destination), offset_of!(Record, last_hop), offset_of!(Record, passed)];
    let fields = [offset_of!(Packet, sender), offset_of!(Packet, receiver), offset_of!(Packet, kind), offset_of!(Packet, reset)];
    match pick {
        0 | 1 => of(offset_of!(Network, kept), size_of::<Station>(), station, &kept),
        2 => offset_of!(Network, links) + pair,
        3 => of(offset_of!(Network, labels), size_of::<Label>(), pair, &[0]),
        4 => offset_of!(Network, rows) + size_of::<Row>() * pair + offset_of!(Row, count),
        5 | 6 => of(offset_of!(Network, rows), size_of::<Row>(), pair, &row),
        7 => of(offset_of!(Network, records), size_of::<Record>(), pair, &record),
        8 | 9 => of(offset_of!(Network, packets), size_of::<Packet>(), packet, &fields),
        10 => offset_of!(Network, n),
        11 => offset_of!(Network, in_air),
        12 => offset_of!(Network, version),
        13 => offset_of!(Network, limit),
        _ => anywhere,
    }
}

/// The network after a script, or a random one.
pub fn whole_network(random: &mut Random, case: usize, examples: &[Script]) -> Box<Network> {
    if random.percent(50) {
        return some_network(random);
    }
    let script = script_of(case, examples);
    let limit = if random.percent(50) { MAX_PACKETS } else { random.below(MAX_PACKETS + 1) };
    let mut network = Network::fresh(script.n, script.start, limit);
    for (_, kind, a, b) in script.events() {
        let _ = network.event(kind, a, b);
    }
    network
}

/// A packet in the air, of this kind and in range.
fn packet_of<'a>(random: &mut Random, network: &'a mut Network, kind: u8) -> &'a mut Packet {
    network.in_air = network.in_air.max(1);
    network.limit = network.limit.max(1);
    let search = Packet { number: 1, destination: 1, label: UNASSIGNED, ..NO_PACKET };
    let packet = &mut network.packets[random.below(usize::from(network.in_air))];
    *packet = Packet { receiver: 1, kind, ..if kind == ERROR { NO_PACKET } else { search } };
    packet
}

/// A row of a station for another, of one successor and in range.
fn row_of(network: &mut Network, i: usize, t: usize) -> &mut Row {
    let successor = Successor { station: ((i + 1) % network.stations()) as u8, label: UNASSIGNED, serial: 0 };
    let row = &mut network.rows[i][t];
    *row = NO_ROW;
    row.put(successor);
    row
}

/// How many ways there are to break a network.
const CLAUSES: usize = 41;

/// Breaks one clause of 01's "Memory is in range if ..", or one of docs/LAYOUT.md's on bytes that have no meaning.
fn break_clause(random: &mut Random, network: &mut Network, clause: usize) {
    let n = network.stations();
    let (i, station) = (random.below(n), n as u8 + random.below(3) as u8);
    let t = (i + random.between(1, n - 1)) % n;
    let flag = random.between(2, 255) as u8;
    let search = random.of(&[REQUEST, REPLY]);
    let no_label =
        random.of(&[Label::new(0, 0, 1), Label::new(0, 1, 2), Label::new(0, 0, 0), Label::new(1, 1, 1), Label::new(u64::MAX, 3, 2)]);
    match clause {
        0 => network.n = random.of(&[0, 1, 17, 18, 255]),
        1 => network.kept[i].sought = station,
        2 => network.kept[i].active = flag,
        3 => network.links[i.min(t)][i.max(t)] = flag,
        4 => network.labels[i][t] = no_label,
        5 => network.labels[i][i].s = 0,
        6 => network.labels[i][i].m = 1,
        7 => network.labels[i][i].d = random.of(&[0, 2, u32::MAX]),
        8 => network.labels[i][i] = UNASSIGNED,
        9 => network.rows[i][i].count = random.between(1, 255) as u8,
        10 => network.rows[i][t].count = random.between(5, 255) as u8,
        11 => row_of(network, i, t).entries[0].station = station,
        12 => row_of(network, i, t).entries[0].station = i as u8,
        13 => row_of(network, i, t).entries[0].label = no_label,
        14 => {
            let row = row_of(network, i, t);
            row.entries[1] = row.entries[0];
            row.count = 2;
        }
        15 => network.records[i][t].destination = station,
        16 => network.records[i][t].cached = no_label,
        17 => network.records[i][t].last_hop = station,
        18 => network.records[i][t].passed = flag,
        19 => network.in_air = random.between(129, 255) as u8,
        20 => packet_of(random, network, search).kind = random.of(&[0, 4, 255]),
        21 => packet_of(random, network, search).sender = station,
        22 => packet_of(random, network, ERROR).receiver = station,
        23 => packet_of(random, network, ERROR).sender = 1,
        24 => packet_of(random, network, search).source = station,
        25 => packet_of(random, network, search).number = 0,
        26 => packet_of(random, network, search).destination = station,
        27 => packet_of(random, network, search).label = no_label,
        28 => packet_of(random, network, search).mask = 1 << random.below(16),
        29 => packet_of(random, network, REQUEST).reset = flag,
        30 => packet_of(random, network, REPLY).reset = 1,
        31 => packet_of(random, network, ERROR).number = 1 << random.below(32),
        32 => packet_of(random, network, ERROR).label = random.of(&[UNASSIGNED, Label::new(1, 0, 1), Label::new(1 << 63, 0, 0)]),
        33 => packet_of(random, network, ERROR).source = 1,
        34 => packet_of(random, network, ERROR).destination = 1,
        35 => packet_of(random, network, ERROR).reset = 1,
        36 => network.version = random.of(&[0, 1, n as u8, 16, 17, 18, 20, 147, 255]),
        37 => network.limit = random.between(129, 255) as u8,
        // The packets in the air are over the limit, and each of them is in range.
        38 => {
            packet_of(random, network, ERROR);
            network.limit = random.below(usize::from(network.in_air)) as u8;
        }
        39 => {
            let packet = *packet_of(random, network, ERROR);
            network.packets.fill(packet);
            network.limit = network.limit.min(127);
            network.in_air = random.between(usize::from(network.limit) + 1, MAX_PACKETS) as u8;
        }
        // A mask with a bit for no station; with 16 stations there is none.
        _ if n < MAX_STATIONS => packet_of(random, network, ERROR).mask = 1 << random.between(n, MAX_STATIONS - 1),
        _ => network.n = 0,
    }
}

/// Calls on a network of which one clause was broken: each is turned down with 1, but Open.
pub fn check_clauses(case: usize, examples: &[Script]) -> Result<Tally, String> {
    let mut random = Random::new(case as u64);
    let mut tally = Tally::default();
    let network = whole_network(&mut random, case, examples);
    for clause in 0..CLAUSES {
        let mut broken = network.clone();
        break_clause(&mut random, &mut broken, clause);
        let call = some_call(&mut random, network.stations(), usize::from(network.in_air));
        let result = Desk::new(broken.bytes()).call(call, OUT).map_err(|what| format!("clause {clause} is broken: {what}"))?;
        let answer = answer_to(call, result);
        if answer != 1 && !matches!(call, Call::Open(..)) {
            return Err(format!("clause {clause} is broken, and {call:?} is answered {answer}"));
        }
        tally.count_call(call, answer);
    }
    Ok(tally)
}

/// Calls on a network of which a few bytes were changed.
pub fn check_bytes(case: usize, examples: &[Script]) -> Result<Tally, String> {
    let mut random = Random::new(case as u64);
    let mut tally = Tally::default();
    let network = whole_network(&mut random, case, examples);
    for trial in 0..30 {
        let mut bytes = network.bytes().to_vec();
        let mut changes = vec![];
        for _ in 0..random.of(&[1, 1, 1, 2, 3]) {
            let at = some_byte(&mut random, &network);
            bytes[at] = match random.below(4) {
                0 => bytes[at] ^ 1 << random.below(8),
                1 => random.of(&[0, 1, 2, 3, 4, 5, 16, 17, 128, 129, 255]),
                2 => random.below(network.stations() + 2) as u8,
                _ => random.byte(),
            };
            changes.push(format!("{} is {}", place(at), bytes[at]));
        }
        let mut desk = Desk::new(&bytes);
        for _ in 0..2 {
            let call = some_call(&mut random, network.stations(), usize::from(network.in_air));
            let result = desk.call(call, OUT).map_err(|what| format!("trial {trial}, where {}: {what}", changes.join(", ")))?;
            tally.count_call(call, answer_to(call, result));
        }
    }
    Ok(tally)
}
