//! Calls on memory, each made on both builds, and what differs.

use reference::calls::{Answer, Drained};
use reference::label::Label;
use reference::network::{Network, Packet, Preview, Record, Row, Station, ERROR, LENGTH};
use reference::printout::put_event;
use reference::running::{Line, Tally};
use reference::script;
use std::mem::{offset_of, size_of};

/// Every function of include/srp.h that takes memory.
#[derive(Clone, Copy, PartialEq, Eq, Debug)]
pub enum Call {
    Open(usize, u64, usize),
    Up(usize, usize),
    Down(usize, usize),
    Solicit(usize, usize),
    GiveUp(usize),
    Expire(usize, usize),
    Deliver(usize),
    Lose(usize),
    Duplicate(usize),
    Drain,
    /// A run of one event: its kind and operands.
    Run(u8, u8, u8),
    Trace(usize, usize),
    Size,
    Air,
    Limit,
    Link(usize, usize),
    Label(usize, usize),
    Row(usize, usize),
    Record(usize, usize),
    Station(usize),
    Packet(usize),
    Preview(usize),
}

/// The call by one of the builds, whose functions have the same names.
macro_rules! made_by {
    ($name:ident: $($build:ident)::+) => {
        pub fn $name(call: Call, memory: &mut [u8], out: &mut [u8]) -> u64 {
            use $($build)::+ as build;
            match call {
                Call::Open(n, start, limit) => build::open(memory, n, start, limit),
                Call::Up(a, b) => build::up(memory, a, b),
                Call::Down(a, b) => build::down(memory, a, b),
                Call::Solicit(a, t) => build::solicit(memory, a, t),
                Call::GiveUp(a) => build::give_up(memory, a),
                Call::Expire(a, t) => build::expire(memory, a, t),
                Call::Deliver(k) => build::deliver(memory, k),
                Call::Lose(k) => build::lose(memory, k),
                Call::Duplicate(k) => build::duplicate(memory, k),
                Call::Drain => build::drain(memory),
                Call::Run(kind, a, b) => in_lines(out, |lines| build::run(memory, &[kind], &[a, b], lines)),
                Call::Trace(a, t) => build::trace(memory, a, t),
                Call::Size => build::size(memory),
                Call::Air => build::air(memory),
                Call::Limit => build::limit(memory),
                Call::Link(a, b) => build::link(memory, a, b),
                Call::Label(i, t) => build::label(memory, i, t, out),
                Call::Row(i, t) => build::row(memory, i, t, out),
                Call::Record(i, source) => build::record(memory, i, source, out),
                Call::Station(i) => build::station(memory, i, out),
                Call::Packet(k) => build::packet(memory, k, out),
                Call::Preview(k) => build::preview(memory, k, out),
            }
        }
    };
}

made_by!(by_library: library);
made_by!(by_reference: reference::console);

/// Bytes lent as lines, as many as they are.
fn in_lines(bytes: &mut [u8], call: impl FnOnce(&mut [u64]) -> u64) -> u64 {
    let mut lines: Vec<u64> = bytes.chunks_exact(8).map(|line| u64::from_le_bytes(line.try_into().unwrap())).collect();
    let result = call(&mut lines);
    bytes.chunks_exact_mut(8).zip(lines).for_each(|(bytes, line)| bytes.copy_from_slice(&line.to_le_bytes()));
    result
}

/// Every call but Open, each with these stations and this packet.
pub fn calls_but_open(a: usize, b: usize, k: usize) -> [Call; 21] {
    [
        Call::Up(a, b),
        Call::Down(a, b),
        Call::Solicit(a, b),
        Call::GiveUp(a),
        Call::Expire(a, b),
        Call::Deliver(k),
        Call::Lose(k),
        Call::Duplicate(k),
        Call::Drain,
        Call::Run(script::EXPIRE, a as u8, b as u8),
        Call::Trace(a, b),
        Call::Size,
        Call::Air,
        Call::Limit,
        Call::Link(a, b),
        Call::Label(a, b),
        Call::Row(a, b),
        Call::Record(a, b),
        Call::Station(a),
        Call::Packet(k),
        Call::Preview(k),
    ]
}

/// The call of an event.
pub fn call_of(kind: u8, a: u8, b: u8) -> Call {
    let (a, b) = (usize::from(a), usize::from(b));
    match kind {
        script::UP => Call::Up(a, b),
        script::DOWN => Call::Down(a, b),
        script::SOLICIT => Call::Solicit(a, b),
        script::GIVE_UP => Call::GiveUp(a),
        script::EXPIRE => Call::Expire(a, b),
        script::DELIVER => Call::Deliver(a),
        script::LOSE => Call::Lose(a),
        script::DUPLICATE => Call::Duplicate(a),
        _ => Call::Trace(a, b),
    }
}

pub fn answer_of(result: u64) -> u32 {
    result as u32
}

pub fn count_of(result: u64) -> u32 {
    (result >> 32) as u32
}

/// What draining tells: its answer, and the two counts.
pub fn drained_of(result: u64) -> (u32, Drained) {
    ((result & 0xffff) as u32, Drained { deliveries: (result >> 16 & 0xff_ffff) as u32, losses: (result >> 40) as u32 })
}

/// What a run or a rehearsal tells: its answer, the length of its text, and its tally.
pub fn tallied_of(result: u64) -> (u32, usize, Tally) {
    let second = result >> 40;
    let tally = Tally { calls: (second & 0xffff) as u32, highest: (second >> 16) as u8 };
    ((result & 0xffff) as u32, (result >> 16 & 0xff_ffff) as usize, tally)
}

/// The answer in the result of a call.
pub fn answer_to(call: Call, result: u64) -> u32 {
    match call {
        Call::Drain | Call::Run(..) => drained_of(result).0,
        _ => answer_of(result),
    }
}

pub fn is_refused(result: u64) -> bool {
    (1..100).contains(&answer_of(result))
}

/// Longer than anything that a call shows.
pub const OUT: usize = 130;

/// The bytes that a preview shows.
pub const PREVIEW: usize = size_of::<Preview>();

/// The same bytes twice, one slice for each build, and an output slice for each.
pub struct Desk {
    library: Vec<u8>,
    reference: Vec<u8>,
    before: Vec<u8>,
    /// Where the library delivers a packet that it previews.
    copy: Vec<u8>,
    library_out: [u8; OUT],
    reference_out: [u8; OUT],
}

const UNUSED: u8 = 0x5a;

/// The result of a call whose output slice is too short.
const NO_ROOM: u64 = 12;

impl Desk {
    pub fn new(bytes: &[u8]) -> Desk {
        Desk {
            library: bytes.to_vec(),
            reference: bytes.to_vec(),
            before: bytes.to_vec(),
            copy: bytes.to_vec(),
            library_out: [UNUSED; OUT],
            reference_out: [UNUSED; OUT],
        }
    }

    /// The memory that both have after a call in which nothing differed.
    pub fn memory(&self) -> &[u8] {
        &self.library
    }

    pub fn network(&self) -> &Network {
        Network::of(&self.reference).unwrap()
    }

    /// The network before the last call.
    pub fn network_before(&self) -> &Network {
        Network::of(&self.before).unwrap()
    }

    /// Keeps what stands in memory before a call, and clears the output slices.
    fn begin(&mut self) {
        self.before.copy_from_slice(&self.library);
        self.library_out = [UNUSED; OUT];
        self.reference_out = [UNUSED; OUT];
    }

    /// A call on both builds. The result that both gave, or what differs.
    pub fn call(&mut self, call: Call, out_length: usize) -> Result<u64, String> {
        self.begin();
        let result = by_library(call, &mut self.library, &mut self.library_out[..out_length]);
        let wanted = by_reference(call, &mut self.reference, &mut self.reference_out[..out_length]);
        if result != wanted {
            return Err(format!("{call:?}: the library gives {}, the Rust build {}", shown(call, result), shown(call, wanted)));
        }
        self.compare(result).map_err(|what| format!("{call:?}, result {}: {what}", shown(call, result)))?;
        Ok(result)
    }

    /// Draining memory in range, on both builds: the air is empty after it, and the counts are within 02's bound. Where `singly` the
    /// library's own single calls repeat it on a copy: the same counts, and the same bytes.
    pub fn drain(&mut self, singly: bool) -> Result<Drained, String> {
        let most = turn_limit(self.network().stations(), usize::from(self.network().in_air));
        self.copy.copy_from_slice(&self.library);
        let (answer, drained) = drained_of(self.call(Call::Drain, 0)?);
        let Drained { deliveries, losses } = drained;
        if answer != 0 || self.network().in_air != 0 || (deliveries + losses) as usize > most {
            return Err(format!("Drain: answer {answer}, {drained:?} of at most {most}, {} packets left", self.network().in_air));
        }
        if singly && deliveries + losses > 0 {
            let repeated = drain_singly(&mut self.copy, most);
            if repeated != drained {
                return Err(format!("Drain: {drained:?}, and single calls make {repeated:?}"));
            }
            if self.copy != self.library {
                return Err(format!("Drain, and after it the single calls: {}", difference(&self.library, &self.copy)));
            }
        }
        Ok(drained)
    }

    /// An event of a script, by the library's entry point and in place by the Rust build, which has no range test here.
    pub fn event(&mut self, index: usize, kind: u8, a: u8, b: u8) -> Result<u64, String> {
        self.begin();
        let result = by_library(call_of(kind, a, b), &mut self.library, &mut []);
        let network = Network::of_mut(&mut self.reference).unwrap();
        let answer = network.event(kind, a, b);
        let wanted_line = line(index, kind, a, b, Line::of(answer, network.in_air));
        let line = line(index, kind, a, b, line_of(kind, result, &self.library));
        if line != wanted_line {
            return Err(format!("the library's line and the Rust build's:\n{line}{wanted_line}"));
        }
        self.compare(result).map_err(|what| format!("the memory after this event:\n{line}{what}"))?;
        Ok(result)
    }

    /// A preview on both builds, and the library's own Deliver on a copy of the memory: the results are the same, what the preview shows is
    /// what the copy then has, and the memory is as it was.
    pub fn preview(&mut self, k: usize, out_length: usize) -> Result<u64, String> {
        let result = self.call(Call::Preview(k), out_length)?;
        let shown = |result| shown(Call::Preview(k), result);
        let fails = |what: String| Err(format!("Preview({k}) into {out_length} bytes, result {}: {what}", shown(result)));
        if self.library != self.before {
            return fails("the library wrote to the memory".into());
        }
        self.copy.copy_from_slice(&self.library);
        let delivered = library::deliver(&mut self.copy, k);
        let wanted = if is_refused(delivered) || out_length >= PREVIEW { delivered } else { NO_ROOM };
        if result != wanted {
            return fails(format!("Deliver on a copy gives {}", shown(delivered)));
        }
        if !is_refused(result) {
            let wanted = self.delivered(k);
            if self.library_out[..PREVIEW] != wanted {
                return fails(format!("shown is {:02x?}, and Deliver on a copy leaves {wanted:02x?}", &self.library_out[..PREVIEW]));
            }
        }
        Ok(result)
    }

    /// What the library shows of the copy after packet k was delivered there, in the places of a preview.
    fn delivered(&self, k: usize) -> [u8; PREVIEW] {
        let (before, after) = (Network::of(&self.library).unwrap(), Network::of(&self.copy).unwrap());
        let packet = before.packets[k];
        let (i, t) = (usize::from(packet.receiver), usize::from(packet.destination));
        let mut bytes = [0; PREVIEW];
        let (label, rest) = bytes.split_at_mut(size_of::<Label>());
        let (row, mask) = rest.split_at_mut(size_of::<Row>());
        if packet.kind == ERROR {
            let emptied = |t: &usize| before.rows[i][*t].count > 0 && after.rows[i][*t].count == 0;
            let emptied = (0..before.stations()).filter(emptied).fold(0u16, |mask, t| mask | 1 << t);
            mask.copy_from_slice(&emptied.to_le_bytes());
        } else {
            library::label(&self.copy, i, t, label);
            library::row(&self.copy, i, t, row);
        }
        bytes
    }

    /// Whether all bytes are the same, and as before where the call was turned down, which then counts nothing.
    fn compare(&self, result: u64) -> Result<(), String> {
        if is_refused(result) && count_of(result) != 0 {
            return Err("it was turned down, and the library counts".into());
        }
        if is_refused(result) && (self.library != self.before || self.library_out != [UNUSED; OUT]) {
            return Err("it was turned down, and the library wrote".into());
        }
        if self.library != self.reference {
            return Err(difference(&self.library, &self.reference));
        }
        if self.library_out != self.reference_out {
            return Err(format!("shown: the library has {:02x?}, the Rust build {:02x?}", self.library_out, self.reference_out));
        }
        Ok(())
    }
}

fn shown(call: Call, result: u64) -> String {
    match call {
        Call::Drain => format!("{:?}", drained_of(result)),
        Call::Run(..) => format!("{:?}", tallied_of(result)),
        _ => format!("answer {} and count {}", answer_of(result), count_of(result)),
    }
}

/// 02: "at most p + p·n·(n − 1) + p·n + (n − 1)·(n·(n − 1) + p + p·n)".
fn turn_limit(n: usize, p: usize) -> usize {
    p + p * n * (n - 1) + p * n + (n - 1) * (n * (n - 1) + p + p * n)
}

/// Packet 0 by the library's Deliver, and by its Lose where that gives 7 or 13, until it gives another refusal; but for no more than so many
/// packets.
fn drain_singly(memory: &mut [u8], most: usize) -> Drained {
    let mut drained = Drained::default();
    for _ in 0..most {
        let result = library::deliver(memory, 0);
        if matches!(answer_of(result), 7 | 13) {
            library::lose(memory, 0);
            drained.losses += 1;
        } else if is_refused(result) {
            break;
        } else {
            drained.deliveries += 1;
        }
    }
    drained
}

/// A result read as an event's answer.
fn told(kind: u8, result: u64) -> Answer {
    if is_refused(result) {
        return Err(answer_of(result));
    }
    let (sent, hops) = if kind == script::TRACE { (0, count_of(result)) } else { (count_of(result), 0) };
    Ok(reference::calls::Done { outcome: answer_of(result), sent, hops })
}

/// The line of an event that a call made, by its result and the memory after it.
pub fn line_of(kind: u8, result: u64, memory: &[u8]) -> Line {
    Line::of(told(kind, result), Network::of(memory).unwrap().in_air)
}

pub fn line(index: usize, kind: u8, a: u8, b: u8, line: Line) -> String {
    let mut out = Vec::new();
    put_event(&mut out, index, kind, a, b, line);
    String::from_utf8(out).unwrap()
}

/// The first byte that differs, by the layout's name for its place.
pub fn difference(library: &[u8], reference: &[u8]) -> String {
    let at = library.iter().zip(reference).position(|(a, b)| a != b).unwrap();
    format!("{}: the library has {}, the Rust build {}", place(at), library[at], reference[at])
}

/// What a byte of the layout belongs to.
pub fn place(at: usize) -> String {
    /// Tables: name, first byte, bytes of an entry, and whether it is held by one station for another.
    const TABLES: [(&str, usize, usize, bool); 8] = [
        ("version", offset_of!(Network, version), 1, false),
        ("n", offset_of!(Network, n), 1, false),
        ("station", offset_of!(Network, kept), size_of::<Station>(), false),
        ("link", offset_of!(Network, links), 1, true),
        ("label", offset_of!(Network, labels), 16, true),
        ("row", offset_of!(Network, rows), size_of::<Row>(), true),
        ("record", offset_of!(Network, records), size_of::<Record>(), true),
        ("packets in the air", offset_of!(Network, in_air), 1, false),
    ];
    let packets = offset_of!(Network, packets);
    if at >= LENGTH {
        return format!("byte {at}, past the layout");
    }
    if at == offset_of!(Network, limit) {
        return "the air limit".into();
    }
    if at >= packets {
        let (k, byte) = ((at - packets) / size_of::<Packet>(), (at - packets) % size_of::<Packet>());
        return format!("packet {k}, its byte {byte}");
    }
    let (name, first, size, for_another) = *TABLES.iter().rfind(|table| at >= table.1).unwrap();
    let (entry, byte) = ((at - first) / size, (at - first) % size);
    if for_another {
        format!("{name} of {} for {}, its byte {byte}", entry / 16, entry % 16)
    } else {
        format!("{name} {entry}, its byte {byte}")
    }
}
