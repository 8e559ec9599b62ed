//! 01, "The network's memory", in the bytes of docs/LAYOUT.md: `Network` is these bytes, so every step works in place on the slice
//! that a console lends. Stations, counts, kinds and flags are one byte each; a flag is 1 for yes.

use crate::label::{Label, UNASSIGNED};

pub const MAX_STATIONS: usize = 16;
pub const MAX_SUCCESSORS: usize = 4;
pub const MAX_PACKETS: usize = 128;

/// What the first byte of the layout is.
pub const VERSION: u8 = 19;

pub const REQUEST: u8 = 1;
pub const REPLY: u8 = 2;
pub const ERROR: u8 = 3;

/// What a station keeps of its own requests, and the number of its last sending (02, F-4).
#[repr(C, packed)]
#[derive(Clone, Copy, PartialEq, Eq, Debug)]
pub struct Station {
    pub number: u32,
    pub sought: u8,
    pub active: u8,
    pub serial: u64,
}

/// An entry of a row: a station with the label that it advertised, and "the number of the reply that made it".
#[repr(C, packed)]
#[derive(Clone, Copy, PartialEq, Eq, Debug)]
pub struct Successor {
    pub station: u8,
    pub label: Label,
    pub serial: u64,
}

#[repr(C, packed)]
#[derive(Clone, Copy, PartialEq, Eq, Debug)]
pub struct Row {
    pub count: u8,
    pub entries: [Successor; MAX_SUCCESSORS],
}

#[repr(C, packed)]
#[derive(Clone, Copy, PartialEq, Eq, Debug)]
pub struct Record {
    pub number: u32,
    pub destination: u8,
    pub cached: Label,
    pub last_hop: u8,
    pub passed: u8,
}

/// A packet. The fields that its kind does not use are 0. "Each packet carries its sending's number".
#[repr(C, packed)]
#[derive(Clone, Copy, PartialEq, Eq, Debug)]
pub struct Packet {
    pub sender: u8,
    pub receiver: u8,
    pub kind: u8,
    pub source: u8,
    pub number: u32,
    pub destination: u8,
    pub label: Label,
    pub reset: u8,
    pub mask: u16,
    pub serial: u64,
}

/// What a preview shows: a label and a row, or a mask, and 0 for the rest.
#[repr(C, packed)]
#[derive(Clone, Copy, PartialEq, Eq, Debug)]
pub struct Preview {
    pub label: Label,
    pub row: Row,
    pub mask: u16,
}

#[repr(C, packed)]
#[derive(Clone, Copy, PartialEq, Eq, Debug)]
pub struct Network {
    pub version: u8,
    pub n: u8,
    /// What each station keeps.
    pub kept: [Station; MAX_STATIONS],
    /// The link of a and b is at \[a]\[b] for a below b.
    pub links: [[u8; MAX_STATIONS]; MAX_STATIONS],
    pub labels: [[Label; MAX_STATIONS]; MAX_STATIONS],
    pub rows: [[Row; MAX_STATIONS]; MAX_STATIONS],
    pub records: [[Record; MAX_STATIONS]; MAX_STATIONS],
    pub in_air: u8,
    pub packets: [Packet; MAX_PACKETS],
    /// The air limit (02, F-5).
    pub limit: u8,
}

pub const LENGTH: usize = size_of::<Network>();
const _: () = assert!(LENGTH == 40_932 && align_of::<Network>() == 1 && cfg!(target_endian = "little"));

/// The bytes of an entry as the layout has them.
///
/// # Safety
/// For structs without padding: all their bytes are set.
pub unsafe trait Bytes: Sized {
    fn bytes(&self) -> &[u8] {
        unsafe { std::slice::from_raw_parts((self as *const Self).cast(), size_of::<Self>()) }
    }
}

unsafe impl Bytes for Station {}
unsafe impl Bytes for Label {}
unsafe impl Bytes for Row {}
unsafe impl Bytes for Record {}
unsafe impl Bytes for Packet {}
unsafe impl Bytes for Preview {}
unsafe impl Bytes for Network {}

pub const NO_STATION: Station = Station { number: 0, sought: 0, active: 0, serial: 0 };
pub const NO_LABEL: Label = Label::new(0, 0, 0);
pub const NO_SUCCESSOR: Successor = Successor { station: 0, label: NO_LABEL, serial: 0 };
pub const NO_ROW: Row = Row { count: 0, entries: [NO_SUCCESSOR; MAX_SUCCESSORS] };
pub const NO_RECORD: Record = Record { number: 0, destination: 0, cached: UNASSIGNED, last_hop: 0, passed: 0 };
pub const NO_PACKET: Packet =
    Packet { sender: 0, receiver: 0, kind: 0, source: 0, number: 0, destination: 0, label: NO_LABEL, reset: 0, mask: 0, serial: 0 };
pub const NO_PREVIEW: Preview = Preview { label: NO_LABEL, row: NO_ROW, mask: 0 };

pub const NO_NETWORK: Network = Network {
    version: VERSION,
    n: 0,
    kept: [NO_STATION; MAX_STATIONS],
    links: [[0; MAX_STATIONS]; MAX_STATIONS],
    labels: [[UNASSIGNED; MAX_STATIONS]; MAX_STATIONS],
    rows: [[NO_ROW; MAX_STATIONS]; MAX_STATIONS],
    records: [[NO_RECORD; MAX_STATIONS]; MAX_STATIONS],
    in_air: 0,
    packets: [NO_PACKET; MAX_PACKETS],
    limit: 0,
};

impl Row {
    pub fn successors(&self) -> &[Successor] {
        &self.entries[..usize::from(self.count)]
    }

    pub fn is_empty(&self) -> bool {
        self.count == 0
    }

    /// A row as the console shows it.
    pub fn of(bytes: &[u8]) -> Option<&Row> {
        (bytes.len() >= size_of::<Row>()).then(|| unsafe { &*bytes.as_ptr().cast() })
    }

    pub fn position(&self, station: usize) -> Option<usize> {
        self.successors().iter().position(|entry| usize::from(entry.station) == station)
    }

    /// "how many places it looked at: up to and with the hit, or the row's count if there is none".
    pub fn looked_at(&self, station: usize) -> usize {
        self.position(station).map_or(usize::from(self.count), |at| at + 1)
    }

    /// Takes the entry at a place out; later ones move up.
    pub fn remove(&mut self, at: usize) {
        let last = usize::from(self.count) - 1;
        self.entries.copy_within(at + 1..=last, at);
        self.entries[last] = NO_SUCCESSOR;
        self.count -= 1;
    }

    /// "j's entry, if still there, is replaced in its own place, else appended last, the first entry leaving a full row".
    pub fn put(&mut self, entry: Successor) {
        if let Some(at) = self.position(usize::from(entry.station)) {
            self.entries[at] = entry;
            return;
        }
        if usize::from(self.count) == MAX_SUCCESSORS {
            self.remove(0);
        }
        self.entries[usize::from(self.count)] = entry;
        self.count += 1;
    }

    /// Zeros past the count.
    pub fn settle(&mut self) {
        for at in 0..MAX_SUCCESSORS {
            if at >= usize::from(self.count) {
                self.entries[at] = NO_SUCCESSOR;
            }
        }
    }

    /// "successors whose stored label it isn't above leave the row".
    pub fn keep_below(&mut self, label: Label) {
        for at in (0..usize::from(self.count)).rev() {
            if !label.above(self.entries[at].label) {
                self.remove(at);
            }
        }
    }
}

impl Network {
    /// "In fresh memory every station is passive with last sought 0, and every record has number, destination and last hop 0, C
    /// unassigned and nothing passed." "Station t's label for itself is (start, 0/1) .. All other labels start unassigned." "Open takes
    /// an air limit of 0 to 128" (02, F-5).
    pub fn open(&mut self, n: usize, start: u64, limit: usize) {
        *self = NO_NETWORK;
        self.n = n as u8;
        self.limit = limit as u8;
        for t in 0..n {
            self.labels[t][t] = Label::new(start, 0, 1);
        }
    }

    pub fn fresh(n: usize, start: u64, limit: usize) -> Box<Network> {
        let mut network = Box::new(NO_NETWORK);
        network.open(n, start, limit);
        network
    }

    /// The network in the first bytes of a slice, if it is long enough.
    pub fn of(bytes: &[u8]) -> Option<&Network> {
        // Every value of every byte is one of a `Network`: its fields are numbers without padding, and it may stand at any address.
        (bytes.len() >= LENGTH).then(|| unsafe { &*bytes.as_ptr().cast() })
    }

    pub fn of_mut(bytes: &mut [u8]) -> Option<&mut Network> {
        // As above; the slice is borrowed for as long as the network is.
        (bytes.len() >= LENGTH).then(|| unsafe { &mut *bytes.as_mut_ptr().cast() })
    }

    pub fn stations(&self) -> usize {
        usize::from(self.n)
    }

    pub fn air(&self) -> &[Packet] {
        &self.packets[..usize::from(self.in_air)]
    }

    /// Whether the link of two stations is up. A station has none with itself.
    pub fn link(&self, a: usize, b: usize) -> bool {
        a != b && self.links[a.min(b)][a.max(b)] == 1
    }

    pub fn set_link(&mut self, a: usize, b: usize, up: bool) {
        self.links[a.min(b)][a.max(b)] = u8::from(up);
    }

    /// A station's up neighbours, ascending.
    pub fn neighbours(&self, i: usize) -> impl Iterator<Item = usize> + '_ {
        (0..self.stations()).filter(move |&j| self.link(i, j))
    }

    pub fn append(&mut self, packet: Packet) {
        self.packets[usize::from(self.in_air)] = packet;
        self.in_air += 1;
    }

    /// 02, F-4: "Each station now numbers its sendings from 1 in 64 bits". The number of the sending that it makes now.
    pub fn next_serial(&mut self, from: usize) -> u64 {
        let serial = self.kept[from].serial + 1;
        self.kept[from].serial = serial;
        serial
    }

    /// "Broadcast appends one copy for each up neighbour, ascending." It has "one number .., none .. with no up neighbour".
    pub fn broadcast(&mut self, from: usize, packet: Packet) {
        if self.neighbours(from).next().is_none() {
            return;
        }
        let serial = self.next_serial(from);
        for to in 0..self.stations() {
            if self.link(from, to) {
                self.append(Packet { sender: from as u8, receiver: to as u8, serial, ..packet });
            }
        }
    }

    /// "removes packet k, later ones move up".
    pub fn remove_packet(&mut self, k: usize) {
        let last = usize::from(self.in_air) - 1;
        self.packets.copy_within(k + 1..=last, k);
        self.packets[last] = NO_PACKET;
        self.in_air -= 1;
    }

    /// The packets that stay keep their order.
    pub fn drop_packets(&mut self, dropped: impl Fn(&Packet) -> bool) {
        let mut kept = 0;
        for k in 0..usize::from(self.in_air) {
            let packet = self.packets[k];
            if !dropped(&packet) {
                self.packets[kept] = packet;
                kept += 1;
            }
        }
        self.packets[kept..usize::from(self.in_air)].fill(NO_PACKET);
        self.in_air = kept as u8;
    }

    /// "Memory is in range if ..", and its bytes have a meaning (docs/LAYOUT.md, "What is turned down"). Nothing is asked of the sendings'
    /// numbers; 02's F-5 asks that "the kept limit is at most 128 and the air count at most that limit".
    pub fn in_range(&self) -> bool {
        let n = self.stations();
        self.version == VERSION
            && (2..=MAX_STATIONS).contains(&n)
            && usize::from(self.in_air) <= MAX_PACKETS
            && usize::from(self.limit) <= MAX_PACKETS
            && self.in_air <= self.limit
            && (0..n).all(|i| self.station_in_range(i))
            && self.air().iter().all(|packet| self.packet_in_range(packet))
    }

    fn is_station(&self, station: u8) -> bool {
        station < self.n
    }

    fn station_in_range(&self, i: usize) -> bool {
        let n = self.stations();
        self.is_station(self.kept[i].sought)
            && is_flag(self.kept[i].active)
            && (i + 1..n).all(|j| is_flag(self.links[i][j]))
            && (0..n).all(|t| {
                if t == i {
                    self.own_in_range(i)
                } else {
                    self.labels[i][t].in_range() && self.row_in_range(i, &self.rows[i][t]) && self.record_in_range(&self.records[i][t])
                }
            })
    }

    /// "each station's label for itself is (s, 0/1) with its own row empty"; that every label is in range holds s above 0.
    fn own_in_range(&self, i: usize) -> bool {
        let label = self.labels[i][i];
        label.s > 0 && label.m == 0 && label.d == 1 && self.rows[i][i].is_empty()
    }

    fn row_in_range(&self, holder: usize, row: &Row) -> bool {
        usize::from(row.count) <= MAX_SUCCESSORS
            && row.successors().iter().enumerate().all(|(at, entry)| {
                self.is_station(entry.station)
                    && usize::from(entry.station) != holder
                    && entry.label.in_range()
                    && row.entries[..at].iter().all(|before| before.station != entry.station)
            })
    }

    fn record_in_range(&self, record: &Record) -> bool {
        self.is_station(record.destination) && record.cached.in_range() && self.is_station(record.last_hop) && is_flag(record.passed)
    }

    fn packet_in_range(&self, packet: &Packet) -> bool {
        let search = || {
            self.is_station(packet.source)
                && packet.number >= 1
                && self.is_station(packet.destination)
                && packet.label.in_range()
                && packet.mask == 0
        };
        let no_search =
            || packet.source == 0 && packet.number == 0 && packet.destination == 0 && packet.label == NO_LABEL && packet.reset == 0;
        self.is_station(packet.sender)
            && self.is_station(packet.receiver)
            && packet.sender != packet.receiver
            && match packet.kind {
                REQUEST => search() && is_flag(packet.reset),
                REPLY => search() && packet.reset == 0,
                ERROR => no_search() && u32::from(packet.mask) >> self.n == 0,
                _ => false,
            }
    }

    /// The bytes that an accepted call leaves where the network has nothing (docs/LAYOUT.md, "After a call"): the version, zeros past each
    /// count, and in the places of no station what stood there, but for a flag that was not 1.
    pub fn settle(&mut self) {
        self.version = VERSION;
        self.kept.iter_mut().for_each(|station| settle_flag(&mut station.active));
        self.links.as_flattened_mut().iter_mut().for_each(settle_flag);
        self.records.as_flattened_mut().iter_mut().for_each(|record| settle_flag(&mut record.passed));
        self.rows.as_flattened_mut().iter_mut().for_each(Row::settle);
        self.packets[usize::from(self.in_air)..].fill(NO_PACKET);
    }
}

fn is_flag(byte: u8) -> bool {
    byte < 2
}

fn settle_flag(flag: &mut u8) {
    *flag = u8::from(*flag == 1);
}
