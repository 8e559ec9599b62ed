//! Memory that no list of calls makes: random networks in range, and slices of other lengths.

use crate::calls::{answer_of, answer_to, Call, Desk, OUT, PREVIEW};
use crate::limits;
use crate::random::Random;
use crate::serials;
use crate::tally::Tally;
use reference::label::{Label, UNASSIGNED};
use reference::network::{
    Bytes, Network, Packet, Record, Row, Station, Successor, ERROR, LENGTH, MAX_PACKETS, MAX_STATIONS, MAX_SUCCESSORS, NO_PACKET, NO_ROW,
    REPLY, REQUEST, VERSION,
};
use reference::script::{uses_b, DELIVER, DUPLICATE, LOSE, UP};
use std::mem::size_of;

/// The numbers that a network's labels are made of, and those of its sendings: few, so that equal and neighbouring ones meet.
struct Palette {
    s: [u64; 3],
    d: [u32; 4],
    serials: [u64; 4],
}

impl Palette {
    fn new(random: &mut Random) -> Palette {
        let s = match random.below(4) {
            0 | 1 => [1, 2, 3],
            2 => [u64::MAX - 1, u64::MAX, u64::MAX],
            _ => [1, random.number().max(1), u64::MAX],
        };
        let d = match random.below(4) {
            0 | 1 => [1, 2, 3, 4],
            2 => [2, u32::MAX / 2, u32::MAX / 2 + 1, u32::MAX / 2 + 2],
            _ => [1, 2, u32::MAX - 1, u32::MAX],
        };
        let serials = match random.below(5) {
            0 | 1 => [0, 1, 2, 3],
            2 => [u64::MAX - 3, u64::MAX - 2, u64::MAX - 1, u64::MAX],
            3 => [1, 1 << 32, (1 << 32) + 1, 1 << 63],
            _ => {
                let any = random.number() >> 1;
                [random.number() % 2, any, any + 1, u64::MAX]
            }
        };
        Palette { s, d, serials }
    }

    fn serial(&self, random: &mut Random) -> u64 {
        random.of(&self.serials)
    }

    /// A label of a station for another: any in range.
    fn label(&self, random: &mut Random) -> Label {
        if random.percent(20) {
            return UNASSIGNED;
        }
        let d = random.of(&self.d);
        let m = match random.below(3) {
            0 => 0,
            1 => d - 1,
            _ => random.below(d as usize) as u32,
        };
        Label::new(random.of(&self.s), m, d)
    }

    fn own_label(&self, random: &mut Random) -> Label {
        Label::new(random.of(&self.s), 0, 1)
    }
}

/// Request numbers: few, and the last that there are.
fn some_number(random: &mut Random) -> u32 {
    random.of(&[0, 1, 2, 3, u32::MAX - 1, u32::MAX])
}

/// A row in range, of low labels only now and then, which stay where a reply is taken.
fn some_row(random: &mut Random, palette: &Palette, n: usize, holder: usize) -> Row {
    let mut row = NO_ROW;
    let low = random.percent(30);
    for _ in 0..random.between(0, 2 * MAX_SUCCESSORS) {
        let station = random.below(n);
        let label = if low { palette.own_label(random) } else { palette.label(random) };
        let serial = palette.serial(random);
        if station != holder {
            row.put(Successor { station: station as u8, label, serial });
        }
    }
    row
}

/// A packet in range. A reply mostly tells of the request that its receiver knows.
fn some_packet(random: &mut Random, palette: &Palette, network: &Network) -> Packet {
    let n = network.stations();
    let receiver = random.below(n);
    let sender = (receiver + random.between(1, n - 1)) % n;
    let ends = Packet { sender: sender as u8, receiver: receiver as u8, serial: palette.serial(random), ..NO_PACKET };
    let kind = random.of(&[REQUEST, REPLY, REPLY, ERROR]);
    if kind == ERROR {
        return Packet { kind, mask: (random.number() % (1 << n)) as u16, ..ends };
    }
    let source = random.below(n);
    let known = if source == receiver {
        (network.kept[receiver].number, network.kept[receiver].sought)
    } else {
        (network.records[receiver][source].number, network.records[receiver][source].destination)
    };
    let (number, destination) = if kind == REPLY && random.percent(80) { known } else { (some_number(random), random.below(n) as u8) };
    Packet {
        kind,
        source: source as u8,
        number: number.max(1),
        destination,
        label: palette.label(random),
        reset: u8::from(kind == REQUEST && random.percent(40)),
        ..ends
    }
}

/// A random network in range. Where nothing of it stands, its bytes are what they are, or any.
pub fn some_network(random: &mut Random) -> Box<Network> {
    let n = random.between(2, MAX_STATIONS);
    let palette = Palette::new(random);
    let mut network = Network::fresh(n, 1, MAX_PACKETS);
    if random.percent(50) {
        let mut bytes = vec![0; LENGTH];
        random.fill(&mut bytes);
        *network = *Network::of(&bytes).unwrap();
        network.version = VERSION;
        network.n = n as u8;
    }
    let density = random.of(&[0, 20, 50, 90, 100]);
    let rows = random.of(&[30, 70, 100]);
    for i in 0..n {
        network.kept[i] = Station {
            number: some_number(random),
            sought: random.below(n) as u8,
            active: u8::from(random.percent(40)),
            serial: palette.serial(random),
        };
        for t in 0..n {
            if i < t {
                network.links[i][t] = u8::from(random.percent(density));
            }
            if i == t {
                network.labels[i][i] = palette.own_label(random);
                network.rows[i][i].count = 0;
                continue;
            }
            network.labels[i][t] = palette.label(random);
            let mut row = if random.percent(rows) { some_row(random, &palette, n, i) } else { NO_ROW };
            // What stands past the count stays.
            row.entries[usize::from(row.count)..].copy_from_slice(&network.rows[i][t].entries[usize::from(row.count)..]);
            network.rows[i][t] = row;
            network.records[i][t] = Record {
                number: some_number(random),
                destination: random.below(n) as u8,
                cached: palette.label(random),
                last_hop: random.below(n) as u8,
                passed: u8::from(random.percent(30)),
            };
        }
    }
    let in_air = match random.below(3) {
        0 => random.below(10),
        1 => random.below(MAX_PACKETS + 1),
        _ => random.between(MAX_PACKETS - 3, MAX_PACKETS),
    };
    put_packets(random, &palette, &mut network, in_air);
    // A limit that the packets are within: the highest, or one that is near or reached.
    network.limit = match random.below(4) {
        0 | 1 => MAX_PACKETS,
        2 => (in_air + random.below(4)).min(MAX_PACKETS),
        _ => random.between(in_air, MAX_PACKETS),
    } as u8;
    network
}

/// So many packets in the air, each in range.
fn put_packets(random: &mut Random, palette: &Palette, network: &mut Network, in_air: usize) {
    network.in_air = in_air as u8;
    for k in 0..in_air {
        network.packets[k] = some_packet(random, palette, network);
    }
}

/// An air that is full: as many packets as the limit.
pub fn fill_air(random: &mut Random, network: &mut Network) {
    let palette = Palette::new(random);
    put_packets(random, &palette, network, usize::from(network.limit));
}

/// Air limits, some of them over 128.
fn some_limit(random: &mut Random) -> usize {
    random.of(&[0, 1, 7, 127, 128, 129, 130, 255, 256, 384, 1 << 32, usize::MAX])
}

/// A station that there mostly is, or a number that is none.
fn some_station(random: &mut Random, n: usize) -> usize {
    match random.below(20) {
        0 => random.of(&[n, n + 1, 255, 256, 1 << 32, usize::MAX]),
        1 => 256 + random.below(n),
        _ => random.below(n),
    }
}

fn some_place(random: &mut Random, in_air: usize) -> usize {
    match random.below(20) {
        0 => random.of(&[in_air, 127, 128, 255, 256, 1 << 32, usize::MAX]),
        _ => random.below(in_air.max(1)),
    }
}

/// A call that mostly names stations and packets that there are.
pub fn some_call(random: &mut Random, n: usize, in_air: usize) -> Call {
    const WEIGHTS: [usize; 22] = [1, 6, 8, 10, 4, 3, 60, 3, 8, 10, 1, 1, 2, 2, 2, 2, 2, 2, 12, 1, 1, 4];
    let (a, b) = (some_station(random, n), some_station(random, n));
    let k = some_place(random, in_air);
    match random.weighted(&WEIGHTS) {
        0 => {
            let (n, start) = (random.of(&[0, 1, 2, 9, 16, 17, 18, 258, usize::MAX]), random.of(&[0, 1, 7, u64::MAX]));
            Call::Open(n, start, some_limit(random))
        }
        1 => Call::Up(a, b),
        2 => Call::Down(a, b),
        3 => Call::Solicit(a, b),
        4 => Call::GiveUp(a),
        5 => Call::Expire(a, b),
        6 => Call::Deliver(k),
        7 => Call::Lose(k),
        8 => Call::Duplicate(k),
        9 => Call::Trace(a, b),
        10 => Call::Size,
        11 => Call::Air,
        12 => Call::Link(a, b),
        13 => Call::Label(a, b),
        14 => Call::Row(a, b),
        15 => Call::Record(a, b),
        16 => Call::Station(a),
        17 => Call::Packet(k),
        18 => Call::Preview(k),
        19 => Call::Drain,
        20 => Call::Limit,
        _ => some_run(random, n, in_air),
    }
}

/// An event that mostly names stations and packets that there are.
pub fn some_event(random: &mut Random, n: usize, in_air: usize) -> (u8, u8, u8) {
    const WEIGHTS: [usize; 9] = [5, 6, 10, 4, 3, 50, 8, 12, 5];
    let kind = UP + random.weighted(&WEIGHTS) as u8;
    let a = if matches!(kind, DELIVER | LOSE | DUPLICATE) { some_place(random, in_air) } else { some_station(random, n) };
    let b = if uses_b(kind) { some_station(random, n) } else { 0 };
    (kind, a as u8, b as u8)
}

/// A run of such an event, now and then of what may be none.
fn some_run(random: &mut Random, n: usize, in_air: usize) -> Call {
    let (kind, a, b) = some_event(random, n, in_air);
    if random.percent(5) {
        return Call::Run(random.of(&[0, kind, 10, 255]), a, random.byte());
    }
    Call::Run(kind, a, b)
}

/// Around what a preview shows, or what one of the other calls does.
fn some_out_length(random: &mut Random, call: Call) -> usize {
    const SIZES: [usize; 5] = [size_of::<Station>(), size_of::<Label>(), size_of::<Record>(), size_of::<Packet>(), size_of::<Row>()];
    match call {
        Call::Preview(_) => random.of(&[0, size_of::<Row>(), PREVIEW - 1, PREVIEW, PREVIEW, PREVIEW + 1, PREVIEW + 1, OUT]),
        Call::Run(..) => random.of(&[0, 7, 8, 8, 8, 16, OUT]),
        _ => match random.below(6) {
            0 => random.of(&[0, OUT]),
            _ => random.of(&SIZES) - random.below(2),
        },
    }
}

/// Draining, and how many packets it loses by 13, and by 7 under a limit below 128. One of eight is repeated by single calls.
fn drain(tally: &mut Tally, desk: &mut Desk, random: &mut Random) -> Result<(), String> {
    tally.count_named(serials::DRAIN, serials::lost_by_draining(desk.network()));
    tally.count_named(limits::DRAIN, limits::lost_by_draining(desk.network()));
    tally.count_drain(desk.drain(random.percent(12))?);
    Ok(())
}

/// Draining a random network, whose air is mostly full, and again with what it left and some packets more.
pub fn check_drain(case: usize) -> Result<Tally, String> {
    let mut random = Random::new(case as u64);
    let mut tally = Tally::default();
    let mut network = some_network(&mut random);
    if random.percent(70) {
        fill_air(&mut random, &mut network);
    }
    let mut bytes = network.bytes().to_vec();
    bytes.extend([0xc3; 5]);
    let mut desk = Desk::new(&bytes);
    drain(&mut tally, &mut desk, &mut random)?;
    for a in 0..desk.network().stations() {
        let t = (a + 1) % desk.network().stations();
        tally.count_call(Call::Solicit(a, t), answer_of(desk.call(Call::Solicit(a, t), 0)?));
    }
    drain(&mut tally, &mut desk, &mut random)?;
    Ok(tally)
}

/// Calls one after the other on a random network.
pub fn check_network(case: usize) -> Result<Tally, String> {
    let mut random = Random::new(case as u64);
    let mut tally = Tally::default();
    let mut bytes = some_network(&mut random).bytes().to_vec();
    bytes.extend([0xc3; 5]);
    if !Network::of(&bytes).unwrap().in_range() {
        return Err("the Rust build takes this network for one out of range".into());
    }
    let mut desk = Desk::new(&bytes);
    for step in 0..40 {
        let call = some_call(&mut random, desk.network().stations(), usize::from(desk.network().in_air));
        let out_length = some_out_length(&mut random, call);
        let result = match call {
            Call::Preview(k) => desk.preview(k, out_length),
            _ => desk.call(call, out_length),
        };
        let result = result.map_err(|what| format!("call {step}: {what}"))?;
        if answer_to(call, result) == 1 && !matches!(call, Call::Open(..)) {
            return Err(format!("call {step}: {call:?}: a network in range is taken for one out of range"));
        }
        let (before, answer) = (desk.network_before(), answer_to(call, result));
        for name in serials::met_by(before, call, answer).into_iter().chain(limits::met_by(before, call, answer, desk.network())) {
            tally.count_named(name, 1);
        }
        tally.count_call(call, answer_to(call, result));
    }
    Ok(tally)
}

/// Calls on slices of other lengths: shorter ones are turned down with 1, and what stands past the layout is kept.
pub fn check_lengths(case: usize) -> Result<Tally, String> {
    let mut random = Random::new(case as u64);
    let mut tally = Tally::default();
    let network = some_network(&mut random);
    for length in [0, 1, random.below(LENGTH), LENGTH - 1, LENGTH, LENGTH + 1, LENGTH + 1000] {
        let mut bytes = vec![0; length];
        random.fill(&mut bytes);
        let whole = length.min(LENGTH);
        bytes[..whole].copy_from_slice(&network.bytes()[..whole]);
        let mut desk = Desk::new(&bytes);
        for call in std::iter::repeat_with(|| some_call(&mut random, network.stations(), 1)).take(10).chain([
            Call::Drain,
            Call::Open(9, 1, 128),
            Call::Open(9, 1, 129),
            Call::Size,
        ]) {
            let result = desk.call(call, OUT).map_err(|what| format!("a slice of {length} bytes: {what}"))?;
            if length < LENGTH && answer_to(call, result) != 1 {
                return Err(format!("{call:?} takes a slice of {length} bytes"));
            }
            tally.count_call(call, answer_to(call, result));
        }
        if desk.memory()[whole..] != bytes[whole..] {
            return Err(format!("bytes past the layout changed, of a slice of {length}"));
        }
    }
    Ok(tally)
}
