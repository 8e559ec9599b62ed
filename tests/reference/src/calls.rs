//! 01, "What each call does", on memory in range, as 02's F-4, F-5 and F-6 amend it. A call that is turned down ends with the first number of
//! 01's table that applies, before it writes anything; the tests come in 01's order, with 13 in its place: 2, 3 to 6, 8, 13, 7.

use crate::label::{new_label, Label, Split, UNASSIGNED};
use crate::network::{Network, Packet, Preview, Record, Station, Successor, ERROR, NO_PACKET, NO_PREVIEW, NO_ROW, REPLY, REQUEST};

/// What an accepted call tells: its outcome number (0: none), the packets that it sent, and Trace's hops.
#[derive(Clone, Copy, PartialEq, Eq, Debug)]
pub struct Done {
    pub outcome: u32,
    pub sent: u32,
    pub hops: u32,
}

/// What draining tells.
#[derive(Clone, Copy, PartialEq, Eq, Default, Debug)]
pub struct Drained {
    pub deliveries: u32,
    pub losses: u32,
}

/// An accepted call, or the number that turned it down.
pub type Answer = Result<Done, u32>;

fn done(outcome: u32, sent: usize) -> Answer {
    Ok(Done { outcome, sent: sent as u32, hops: 0 })
}

fn refused_if(refused: bool, number: u32) -> Result<(), u32> {
    if refused {
        Err(number)
    } else {
        Ok(())
    }
}

impl Network {
    /// 2 where one is no station, or the two are equal.
    pub fn test_pair(&self, a: usize, b: usize) -> Result<(), u32> {
        refused_if(a >= self.stations() || b >= self.stations() || a == b, 2)
    }

    pub fn test_station(&self, a: usize) -> Result<(), u32> {
        refused_if(a >= self.stations(), 2)
    }

    pub fn test_packet(&self, k: usize) -> Result<(), u32> {
        refused_if(k >= usize::from(self.in_air), 6)
    }

    /// 13: "a station that would send has used 2^64 − 1". It would not where it has no packet to send.
    fn test_serial(&self, from: usize, sent: usize) -> Result<(), u32> {
        refused_if(sent > 0 && self.kept[from].serial == u64::MAX, 13)
    }

    /// 7 where so many packets gone and so many sent make more than the network's limit: F-5's "7 then reads that limit".
    fn test_room(&self, gone: usize, sent: usize) -> Result<(), u32> {
        refused_if(usize::from(self.in_air) - gone + sent > usize::from(self.limit), 7)
    }

    pub fn up(&mut self, a: usize, b: usize) -> Answer {
        self.test_pair(a, b)?;
        refused_if(self.link(a, b), 3)?;
        self.set_link(a, b, true);
        done(0, 0)
    }

    /// "Down first sets it down, drops packets between a and b, takes each out of the other's rows; then a, then b, broadcasts an
    /// error with the mask of its rows emptied, if any."
    pub fn down(&mut self, a: usize, b: usize) -> Answer {
        self.test_pair(a, b)?;
        refused_if(!self.link(a, b), 3)?;
        let between = |packet: &Packet| {
            let ends = (usize::from(packet.sender), usize::from(packet.receiver));
            ends == (a, b) || ends == (b, a)
        };
        let gone = self.air().iter().filter(|packet| between(packet)).count();
        // Entries leave whatever their number: none is above the last that there is.
        let lost = [(a, self.emptied(a, b, u16::MAX, u64::MAX)), (b, self.emptied(b, a, u16::MAX, u64::MAX))];
        // The link is up still, and each is a neighbour of the other.
        let copies = lost.map(|(i, mask)| if mask == 0 { 0 } else { self.neighbours(i).count() - 1 });
        self.test_serial(a, copies[0])?;
        self.test_serial(b, copies[1])?;
        let sent = copies.iter().sum();
        self.test_room(gone, sent)?;
        self.set_link(a, b, false);
        self.drop_packets(between);
        self.take_out(a, b, u16::MAX, u64::MAX);
        self.take_out(b, a, u16::MAX, u64::MAX);
        for (i, mask) in lost {
            if mask != 0 {
                self.broadcast(i, error(mask));
            }
        }
        done(0, sent)
    }

    /// "number + 1, t kept as last sought, a active, broadcasts a request with its label for t, reset bit 0".
    pub fn solicit(&mut self, a: usize, t: usize) -> Answer {
        self.test_pair(a, t)?;
        refused_if(self.kept[a].active == 1, 4)?;
        refused_if(self.kept[a].number == u32::MAX, 8)?;
        let sent = self.neighbours(a).count();
        self.test_serial(a, sent)?;
        self.test_room(0, sent)?;
        let number = self.kept[a].number + 1;
        self.kept[a] = Station { number, sought: t as u8, active: 1, ..self.kept[a] };
        let request = Packet { kind: REQUEST, source: a as u8, number, destination: t as u8, label: self.labels[a][t], ..NO_PACKET };
        self.broadcast(a, request);
        done(0, sent)
    }

    pub fn give_up(&mut self, a: usize) -> Answer {
        self.test_station(a)?;
        refused_if(self.kept[a].active == 0, 5)?;
        self.kept[a].active = 0;
        done(0, 0)
    }

    pub fn expire(&mut self, a: usize, t: usize) -> Answer {
        self.test_pair(a, t)?;
        self.rows[a][t] = NO_ROW;
        done(0, 0)
    }

    pub fn lose(&mut self, k: usize) -> Answer {
        self.test_packet(k)?;
        self.remove_packet(k);
        done(0, 0)
    }

    /// 02, F-3: "delivers packet 0 again and again, and loses it where Deliver gives 7, until the air is empty. It returns deliveries and
    /// losses." F-4: "loses a packet answered 13 just as one answered 7".
    pub fn drain(&mut self) -> Drained {
        let mut drained = Drained::default();
        while self.in_air > 0 {
            match self.deliver(0) {
                Ok(_) => drained.deliveries += 1,
                Err(7 | 13) => {
                    self.remove_packet(0);
                    drained.losses += 1;
                }
                Err(number) => panic!("Deliver of packet 0 gives {number}"),
            }
        }
        drained
    }

    /// The copy has the packet's number: "a duplicate keeps it".
    pub fn duplicate(&mut self, k: usize) -> Answer {
        self.test_packet(k)?;
        self.test_room(0, 1)?;
        self.append(self.packets[k]);
        done(0, 0)
    }

    /// "Deliver(k): removes packet k, later ones move up, then the receiver i acts."
    pub fn deliver(&mut self, k: usize) -> Answer {
        self.deliver_by(Split::Simplest, k)
    }

    pub fn deliver_by(&mut self, split: Split, k: usize) -> Answer {
        self.test_packet(k)?;
        match self.packets[k].kind {
            REQUEST => self.deliver_request(k),
            REPLY => self.deliver_reply(split, k),
            _ => self.deliver_error(k),
        }
    }

    /// "A preview gives the outcome, the number of packets sent, and the receiver's label and row for the packet's destination. For an
    /// error it gives the emptied mask instead. All equal what Deliver gives on a copy of the network".
    pub fn preview(&self, k: usize) -> Result<(Done, Preview), u32> {
        let mut after = *self;
        let done = after.deliver(k)?;
        let packet = self.packets[k];
        let (i, t) = (usize::from(packet.receiver), usize::from(packet.destination));
        if packet.kind == ERROR {
            let emptied = |t: &usize| !self.rows[i][*t].is_empty() && after.rows[i][*t].is_empty();
            let mask = (0..self.stations()).filter(emptied).fold(0, |mask, t| mask | 1 << t);
            return Ok((done, Preview { mask, ..NO_PREVIEW }));
        }
        let mut row = after.rows[i][t];
        row.settle();
        Ok((done, Preview { label: after.labels[i][t], row, mask: 0 }))
    }

    fn deliver_request(&mut self, k: usize) -> Answer {
        let r = self.packets[k];
        let (i, source, t) = (usize::from(r.receiver), usize::from(r.source), usize::from(r.destination));
        // "101, nothing done, if i is the source or i's record for the source has a number not below R's."
        if i == source || self.records[i][source].number >= r.number {
            self.remove_packet(k);
            return done(101, 0);
        }
        // "if i's row isn't empty and (own s > R's s, or R's label is above i's and the reset bit is 0), it replies with its label"
        let own = self.labels[i][t];
        let replies = i == t || !self.rows[i][t].is_empty() && (own.s > r.label.s || r.label.above(own) && r.reset == 0);
        // "with the reset bit set and own s ≤ R's s, own s becomes R's s + 1 (104 and no reply if that exceeds 64 bits)"
        let raised = if i == t && r.reset == 1 && own.s <= r.label.s { r.label.s.checked_add(1) } else { Some(own.s) };
        let copies = match raised {
            _ if !replies => self.neighbours(i).count(),
            Some(_) => 1,
            None => 0,
        };
        self.test_serial(i, copies)?;
        self.test_room(1, copies)?;

        self.remove_packet(k);
        // "the record is rewritten with R's number, destination, label as C, j, and nothing passed."
        self.records[i][source] = Record { number: r.number, destination: r.destination, cached: r.label, last_hop: r.sender, passed: 0 };
        if !replies {
            self.broadcast(i, onward(&r, own));
            return done(103, copies);
        }
        let Some(s) = raised else { return done(104, 0) };
        self.labels[i][t].s = s;
        self.reply(&r, i, r.sender);
        done(102, 1)
    }

    /// It sends one packet at most, in the place of the one that is gone, so it is never turned down with 7.
    fn deliver_reply(&mut self, split: Split, k: usize) -> Answer {
        let v = self.packets[k];
        let (i, source, t) = (usize::from(v.receiver), usize::from(v.source), usize::from(v.destination));
        // "111, nothing done, if i is the destination, or V's number and destination don't both match (at the source: its last request;
        // elsewhere: its record). C is unassigned at the source, else the record's."
        let record = self.records[i][source];
        let (number, destination, cached) = if i == source {
            (self.kept[i].number, self.kept[i].sought, UNASSIGNED)
        } else {
            (record.number, record.destination, record.cached)
        };
        if i == t || v.number != number || v.destination != destination {
            self.remove_packet(k);
            return done(111, 0);
        }
        // "New label with i's label: 112, 113, 114 set nothing."
        let own = self.labels[i][t];
        let taken = new_label(split, own, cached, v.label);
        // "if i isn't the source, hasn't passed a reply, has a non-empty row, C is above its label and the last hop's link is up, it
        // sends a reply with its label there and marks the record." A label that is taken leaves j in the row.
        let passes_on = i != source
            && record.passed == 0
            && (taken.is_ok() || !self.rows[i][t].is_empty())
            && cached.above(taken.unwrap_or(own))
            && self.link(i, usize::from(record.last_hop));
        self.test_serial(i, usize::from(passes_on))?;

        self.remove_packet(k);
        // "Otherwise 115: the label is taken; ..; a source becomes passive." F-4: "A row entry keeps the number of the reply that made it."
        let outcome = match taken {
            Err(number) => number,
            Ok(label) => {
                self.labels[i][t] = label;
                let row = &mut self.rows[i][t];
                row.keep_below(label);
                row.put(Successor { station: v.sender, label: v.label, serial: v.serial });
                if i == source {
                    self.kept[i].active = 0;
                }
                115
            }
        };
        if passes_on {
            self.reply(&v, i, record.last_hop);
        }
        done(outcome, usize::from(passes_on))
    }

    /// Station i replies with its label to the request that a packet tells of, and marks its record.
    fn reply(&mut self, about: &Packet, i: usize, to: u8) {
        let serial = self.next_serial(i);
        self.append(Packet {
            sender: i as u8,
            receiver: to,
            kind: REPLY,
            label: self.labels[i][usize::from(about.destination)],
            reset: 0,
            serial,
            ..*about
        });
        self.records[i][usize::from(about.source)].passed = 1;
    }

    /// "Error from j: j leaves each row i holds for a masked destination. 121 nothing removed; 122 none emptied; 123 some emptied, and
    /// i broadcasts an error masking those." F-4: "An error with a lower number leaves that entry in place."
    fn deliver_error(&mut self, k: usize) -> Answer {
        let e = self.packets[k];
        let (i, j) = (usize::from(e.receiver), usize::from(e.sender));
        let emptied = self.emptied(i, j, e.mask, e.serial);
        let sent = if emptied == 0 { 0 } else { self.neighbours(i).count() };
        self.test_serial(i, sent)?;
        self.test_room(1, sent)?;
        self.remove_packet(k);
        let removed = self.take_out(i, j, e.mask, e.serial);
        if emptied != 0 {
            self.broadcast(i, error(emptied));
        }
        let outcome = match (removed, emptied) {
            (false, _) => 121,
            (true, 0) => 122,
            _ => 123,
        };
        done(outcome, sent)
    }

    /// The mask of i's rows, for destinations of a mask, that j alone stands in, by an entry that an error of this number takes out.
    fn emptied(&self, i: usize, j: usize, mask: u16, serial: u64) -> u16 {
        let alone = |t: &usize| {
            let row = &self.rows[i][*t];
            mask >> t & 1 == 1 && row.count == 1 && usize::from(row.entries[0].station) == j && serial >= row.entries[0].serial
        };
        (0..self.stations()).filter(alone).fold(0, |emptied, t| emptied | 1 << t)
    }

    /// Takes j out of i's rows for destinations of a mask, where this number is not lower than the entry's; whether it took one out.
    fn take_out(&mut self, i: usize, j: usize, mask: u16, serial: u64) -> bool {
        let mut removed = false;
        for t in 0..self.stations() {
            let row = &mut self.rows[i][t];
            match row.position(j) {
                Some(at) if mask >> t & 1 == 1 && serial >= row.entries[at].serial => {
                    row.remove(at);
                    removed = true;
                }
                _ => (),
            }
        }
        removed
    }

    /// "repeatedly to the row's first entry. 131 at t, 132 at an empty row, 133 after n−1 hops with neither, plus the hops".
    pub fn trace(&self, a: usize, t: usize) -> Answer {
        self.test_pair(a, t)?;
        let (mut at, mut hops) = (a, 0);
        let outcome = loop {
            if at == t {
                break 131;
            }
            if self.rows[at][t].is_empty() {
                break 132;
            }
            if hops == self.stations() - 1 {
                break 133;
            }
            at = usize::from(self.rows[at][t].entries[0].station);
            hops += 1;
        };
        Ok(Done { outcome, sent: 0, hops: hops as u32 })
    }
}

/// A request sent on by a station with this label: "The new label is i's if R's is above it, else R's. The bit is 0 if both are unassigned
/// or own s > R's s; else 1 if R's label isn't above i's and the two denominators sum past 4,294,967,295; else R's."
fn onward(r: &Packet, own: Label) -> Packet {
    let label = if r.label.above(own) { own } else { r.label };
    let reset = if own == UNASSIGNED && r.label == UNASSIGNED || own.s > r.label.s {
        0
    } else if !r.label.above(own) && u64::from(own.d) + u64::from(r.label.d) > u64::from(u32::MAX) {
        1
    } else {
        r.reset
    };
    Packet { label, reset, ..*r }
}

fn error(mask: u16) -> Packet {
    Packet { kind: ERROR, mask, ..NO_PACKET }
}
