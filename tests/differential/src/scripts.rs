//! Scripts: how they are made, and the test of one.

use crate::calls::{answer_of, call_of, Call, Desk, OUT, PREVIEW};
use crate::changeover;
use crate::program::rehearse;
use crate::random::Random;
use crate::serials;
use crate::tally::Tally;
use reference::label::{Split, UNASSIGNED};
use reference::network::{Network, ERROR, LENGTH, MAX_PACKETS, MAX_SUCCESSORS, REQUEST};
use reference::script::{self, DELIVER, DOWN, DUPLICATE, EXPIRE, GIVE_UP, LOSE, MAX_EVENTS, SOLICIT, TRACE, UP};

/// A script before it is bytes.
#[derive(Clone)]
pub struct Script {
    pub n: usize,
    pub start: u64,
    pub kinds: Vec<u8>,
    pub operands: Vec<u8>,
}

impl Script {
    /// A script of three events, where asked with a fault: n, start, a kind, an unused operand.
    pub fn with_faults([n, start, kind, operand]: [bool; 4]) -> Script {
        Script {
            n: if n { 17 } else { 4 },
            start: if start { 0 } else { 9 },
            kinds: vec![1, 4, if kind { 10 } else { 9 }],
            operands: vec![0, 1, 2, u8::from(operand), 3, 0],
        }
    }

    pub fn of(bytes: &[u8]) -> Result<Script, u32> {
        let (sizes, kinds, operands) = script::parse(bytes)?;
        Ok(Script { n: usize::from(sizes.n), start: sizes.start, kinds: kinds.to_vec(), operands: operands.to_vec() })
    }

    pub fn bytes(&self) -> Vec<u8> {
        let mut bytes = vec![self.n as u8];
        bytes.extend((self.kinds.len() as u16).to_le_bytes());
        bytes.extend(self.start.to_le_bytes());
        bytes.extend(&self.kinds);
        bytes.extend(&self.operands);
        bytes
    }

    pub fn events(&self) -> impl Iterator<Item = (usize, u8, u8, u8)> + '_ {
        self.kinds.iter().zip(self.operands.chunks_exact(2)).enumerate().map(|(index, (&kind, pair))| (index, kind, pair[0], pair[1]))
    }

    /// The first events alone.
    fn cut(&self, events: usize) -> Script {
        Script { kinds: self.kinds[..events].to_vec(), operands: self.operands[..2 * events].to_vec(), ..*self }
    }
}

/// What a script is like.
pub struct Style {
    pub name: &'static str,
    /// How often each kind of event comes, from Up to Trace.
    weights: [usize; 9],
    /// How many of a hundred events have operands of any value.
    wild: usize,
    /// How many of a hundred packets are taken from the front of the air.
    front: usize,
    /// Whether errors are late: in every other stretch of events they stay in the air.
    late_errors: bool,
    /// Whether one station is sought by all, and the stations that have a label for it move: each that does has new neighbours, and seeks again.
    moves: bool,
}

/// How many events a stretch has.
const STRETCH: usize = 40;

/// The most events that a station's move has: a link down for each successor, two up, and Solicit.
const MOVE: usize = MAX_SUCCESSORS + 3;

/// What a style has where it says nothing else.
const PLAIN: Style = Style { name: "", weights: [1; 9], wild: 0, front: 50, late_errors: false, moves: false };

pub const STYLES: [Style; 5] = [
    Style { name: "packets in order", weights: [1, 1, 6, 2, 1, 60, 1, 1, 5], front: 95, ..PLAIN },
    Style { name: "packets late, twice or never", weights: [1, 1, 5, 3, 2, 35, 8, 12, 4], wild: 2, front: 30, late_errors: true, ..PLAIN },
    Style { name: "links that come and go", weights: [9, 8, 6, 3, 3, 45, 2, 2, 5], wild: 2, front: 60, late_errors: true, ..PLAIN },
    Style { name: "an air that is nearly full", weights: [2, 1, 14, 12, 2, 22, 1, 30, 2], wild: 1, ..PLAIN },
    Style { name: "operands of any value", weights: [4, 2, 3, 2, 2, 8, 2, 2, 3], wild: 50, ..PLAIN },
];

/// Labels are split again and again, between others than neighbours too.
pub const MOVING: Style =
    Style { name: "stations that move, and one that all seek", weights: [1, 1, 6, 4, 4, 60, 2, 1, 3], front: 90, moves: true, ..PLAIN };

/// Starts at the ends of 64 bits and between.
pub fn some_start(random: &mut Random) -> u64 {
    match random.below(6) {
        0 | 1 => 1,
        2 => u64::MAX,
        3 => u64::MAX - 1,
        4 => random.number() % 1000 + 1,
        _ => random.number().max(1),
    }
}

/// A script that grows together with the network that its events leave.
struct Growing {
    script: Script,
    network: Box<Network>,
    /// So many of the first events split the old way.
    old: usize,
}

impl Growing {
    fn new(n: usize, start: u64, old: usize) -> Growing {
        Growing { script: Script { n, start, kinds: vec![], operands: vec![] }, network: Network::fresh(n, start, MAX_PACKETS), old }
    }

    fn push(&mut self, kind: u8, a: u8, b: u8) {
        let split = if self.script.kinds.len() < self.old { Split::Mediant } else { Split::Simplest };
        self.script.kinds.push(kind);
        self.script.operands.extend([a, b]);
        let _ = self.network.event_by(split, kind, a, b);
    }

    /// A tree over the stations, and some links more.
    fn push_links(&mut self, random: &mut Random, room: usize, style: &Style) {
        let n = self.script.n;
        let density = random.of(&[0, 10, 30, 100]) / if style.moves { 10 } else { 1 };
        let tree = random.below(3);
        for b in 1..n {
            let parent = match tree {
                0 => b - 1,
                1 => 0,
                _ => random.below(b),
            };
            for a in 0..b {
                if (a == parent || random.percent(density)) && self.script.kinds.len() < room {
                    self.push(UP, a as u8, b as u8);
                }
            }
        }
    }

    /// An event that is likely to be accepted, where its kind can be.
    fn push_fitting(&mut self, random: &mut Random, style: &Style) {
        let kind = UP + random.weighted(&style.weights) as u8;
        let n = self.script.n;
        let network = &self.network;
        let pairs = || (0..n * n).map(|place| (place / n, place % n)).filter(|(a, b)| a != b);
        let chosen = match kind {
            UP => random.among(pairs().filter(|&(a, b)| !network.link(a, b))),
            DOWN => random.among(pairs().filter(|&(a, b)| network.link(a, b))),
            SOLICIT => random.among(pairs().filter(|&(a, t)| network.kept[a].active == 0 && !(style.moves && t > 0))),
            GIVE_UP => random.among((0..n).filter(|&a| network.kept[a].active == 1).map(|a| (a, 0))),
            EXPIRE => random.among(pairs().filter(|&(a, t)| !network.rows[a][t].is_empty())),
            DELIVER | LOSE | DUPLICATE => self.some_packet(random, style).map(|k| (k, 0)),
            _ if random.percent(30) => random.among(pairs()),
            _ => random.among(pairs().filter(|&(a, t)| !network.rows[a][t].is_empty())),
        };
        // Where no event of the kind can be accepted it is mostly left out.
        if let Some((a, b)) = chosen {
            self.push(kind, a as u8, b as u8);
        } else if random.percent(5) {
            self.push(kind, random.below(n) as u8, if script::uses_b(kind) { random.below(n) as u8 } else { 0 });
        }
    }

    /// A packet in the air: the first, the first that is no error, or any, or any that is no request, since these are few.
    fn some_packet(&self, random: &mut Random, style: &Style) -> Option<usize> {
        let air = self.network.air();
        if self.holds_errors(style) {
            return air.iter().position(|packet| packet.kind != ERROR);
        }
        if random.percent(style.front) {
            return (!air.is_empty()).then_some(0);
        }
        let any = random.percent(60) || air.iter().all(|packet| packet.kind == REQUEST);
        random.among((0..air.len()).filter(|&k| any || air[k].kind != REQUEST))
    }

    fn holds_errors(&self, style: &Style) -> bool {
        style.late_errors && self.script.kinds.len() / STRETCH % 2 == 1
    }

    /// A route's first link goes down, so that its holder sends an error, and comes up again; another that has the holder in its row seeks
    /// the destination anew. Nothing where no route is so.
    fn push_parting(&mut self, random: &mut Random) {
        let n = self.script.n;
        let network = &self.network;
        let routes = (0..n * n).map(|place| (place / n, place % n)).filter(|&(i, t)| network.rows[i][t].count == 1);
        let seekers = routes.flat_map(|(i, t)| (0..n).map(move |j| (i, t, j))).filter(|&(i, t, j)| {
            let passive = network.kept[j].active == 0;
            passive && network.link(i, j) && network.rows[j][t].position(i).is_some()
        });
        let Some((i, t, j)) = random.among(seekers) else { return };
        let next = network.rows[i][t].entries[0].station;
        self.push(DOWN, i as u8, next);
        self.push(UP, i as u8, next);
        self.push(SOLICIT, j as u8, t as u8);
    }

    /// A station that has a label for station 0 loses its successors' links, gets one or two to stations that are above it, mostly, and seeks 0
    /// again. Nothing where no station is so.
    fn push_move(&mut self, random: &mut Random) {
        let n = self.script.n;
        let movers = (1..n).filter(|&i| self.network.labels[i][0] != UNASSIGNED && self.network.kept[i].active == 0);
        let Some(i) = random.among(movers) else { return };
        let lost: Vec<_> = self.network.rows[i][0].successors().iter().map(|entry| entry.station).collect();
        for j in lost {
            self.push(DOWN, i as u8, j);
        }
        for _ in 0..random.between(1, 2) {
            let any = random.percent(10);
            let above = |j: usize| self.network.labels[j][0].above(self.network.labels[i][0]);
            let others = (0..n).filter(|&j| j != i && !self.network.link(i, j) && (any || above(j)));
            if let Some(j) = random.among(others) {
                self.push(UP, i as u8, j as u8);
            }
        }
        self.push(SOLICIT, i as u8, 0);
    }

    /// Any kind with any operands, most of them near the numbers of stations and packets.
    fn push_wild(&mut self, random: &mut Random) {
        let kind = random.between(usize::from(UP), usize::from(TRACE)) as u8;
        let mut operand = || match random.below(4) {
            0 => random.byte(),
            1 => random.between(MAX_PACKETS - 2, MAX_PACKETS + 2) as u8,
            _ => random.below(self.script.n + 2) as u8,
        };
        let (a, b) = (operand(), operand());
        self.push(kind, a, if script::uses_b(kind) { b } else { 0 });
    }

    fn grow(&mut self, random: &mut Random, style: &Style, events: usize) {
        while self.script.kinds.len() < events {
            if random.percent(style.wild) {
                self.push_wild(random);
            } else if style.moves && self.script.kinds.len() + MOVE <= events && random.percent(5) {
                self.push_move(random);
            } else if self.holds_errors(style) && self.script.kinds.len() + 3 <= events && random.percent(20) {
                self.push_parting(random);
            } else {
                self.push_fitting(random, style);
            }
        }
    }
}

/// A script of a style, of a network of n stations.
pub fn styled(random: &mut Random, style: &Style, n: usize, start: u64, events: usize) -> Script {
    styled_over(random, style, n, start, events, 0)
}

/// One of which so many of the first events split the old way.
pub fn styled_over(random: &mut Random, style: &Style, n: usize, start: u64, events: usize, old: usize) -> Script {
    let mut growing = Growing::new(n, start, old);
    if !random.percent(10) {
        growing.push_links(random, events, style);
    }
    growing.grow(random, style, events);
    growing.script
}

/// A script that begins with the events of an example, all or most of them, and goes on in a style. Mostly it is the longest, which
/// leads to the largest denominators. So many of its first events split the old way.
pub fn continued(random: &mut Random, style: &Style, examples: &[Script], start: u64, events: usize, old: usize) -> Script {
    let longest = examples.iter().max_by_key(|script| script.kinds.len()).unwrap();
    let first = if random.percent(60) { longest } else { &examples[random.below(examples.len())] };
    let mut growing = Growing::new(first.n, start, old);
    let all = first.kinds.len();
    let taken = if random.percent(50) { all } else { random.between(2 * all / 3, all) };
    for (_, kind, a, b) in first.events().take(taken) {
        growing.push(kind, a, b);
    }
    growing.grow(random, style, events);
    growing.script
}

/// The script of a case. Every n is met with every style, and one of six has the most events that there can be. One round of seven goes
/// on from the examples, since these lead to where no chance does.
pub fn script_of(case: usize, examples: &[Script]) -> Script {
    let mut random = Random::new(case as u64);
    let (n, round) = (2 + case % 15, case / 15);
    let style = &STYLES[round % STYLES.len()];
    let events = match (n + round) % 6 {
        0 => MAX_EVENTS,
        1 => random.below(12),
        _ => random.between(12, 500),
    };
    let start = some_start(&mut random);
    if round % 7 == 6 {
        continued(&mut random, style, examples, start, events, 0)
    } else {
        styled(&mut random, style, n, start, events)
    }
}

/// What failed, with a script's bytes in hexadecimal.
pub fn with_script(what: &str, bytes: &[u8]) -> String {
    let digits: String = bytes.iter().map(|byte| format!("{byte:02x}")).collect();
    format!("{what}\nscript:\n{digits}")
}

/// What failed, with the script up to there.
fn failure(script: &Script, events: usize, what: String) -> String {
    with_script(&what, &script.cut(events).bytes())
}

/// Each route goes strictly lower: what demand 3 rests on, asked of the memory itself.
fn check_routes(network: &Network) -> Result<(), String> {
    for i in 0..network.stations() {
        for t in 0..network.stations() {
            for entry in network.rows[i][t].successors() {
                if !network.labels[i][t].above(network.labels[usize::from(entry.station)][t]) {
                    return Err(format!("the route of {i} for {t} over {} does not go lower", { entry.station }));
                }
            }
        }
    }
    Ok(())
}

/// Any question about the network.
fn question(random: &mut Random) -> Call {
    let (a, b) = (random.below(18), random.below(18));
    match random.below(9) {
        0 => Call::Size,
        1 => Call::Air,
        8 => Call::Limit,
        2 => Call::Link(a, b),
        3 => Call::Label(a, b),
        4 => Call::Row(a, b),
        5 => Call::Record(a, b),
        6 => Call::Station(a),
        _ => Call::Packet(random.below(MAX_PACKETS + 2)),
    }
}

/// A preview of any packet in the air, now and then of none, mostly into a slice that is long enough. One of five is held to the library's
/// own Deliver too, which takes three calls more.
fn check_some_preview(tally: &mut Tally, desk: &mut Desk, random: &mut Random) -> Result<(), String> {
    let in_air = usize::from(desk.network().in_air);
    let none = random.percent(2);
    if in_air == 0 && !none {
        return Ok(());
    }
    let k = if none { in_air + random.below(3) } else { random.below(in_air) };
    let out_length = if random.percent(5) { random.below(PREVIEW) } else { random.of(&[PREVIEW, PREVIEW + 1, OUT]) };
    let result = if random.percent(20) { desk.preview(k, out_length)? } else { desk.call(Call::Preview(k), out_length)? };
    tally.count_preview(answer_of(result));
    if never(answer_of(result)) {
        return Err(format!("Preview({k}) is answered {}", answer_of(result)));
    }
    Ok(())
}

/// What no event of a script is answered. Numbers of sendings begin at 1, so 13 is for memory that no script makes.
pub fn never(answer: u32) -> bool {
    matches!(answer, 1 | 13 | 133)
}

/// What holds of the memory after any events from Open.
pub fn check_made(network: &Network) -> Result<(), String> {
    check_routes(network)?;
    serials::check(network)
}

/// A script on both builds, event by event and as a whole by the rehearsal programs; after its last event the air is drained.
pub fn check(script: &Script, random: &mut Random) -> Result<Tally, String> {
    let mut tally = Tally::default();
    // Whatever stood in the memory before, and bytes past the layout.
    let mut bytes = vec![0; LENGTH + random.below(3)];
    random.fill(&mut bytes);
    let mut desk = Desk::new(&bytes);
    desk.call(Call::Open(script.n, script.start, MAX_PACKETS), 0).map_err(|what| failure(script, 0, what))?;
    for (index, kind, a, b) in script.events() {
        let fails = |what| failure(script, index + 1, what);
        let answer = answer_of(desk.event(index, kind, a, b).map_err(fails)?);
        tally.count(answer);
        if never(answer) {
            return Err(fails(format!("event {index} of a script is answered {answer}")));
        }
        for name in serials::met_by(desk.network_before(), call_of(kind, a, b), answer) {
            if name == serials::EQUAL {
                return Err(fails(format!("event {index} delivers {name}, which is another sending")));
            }
            tally.count_named(name, 1);
        }
        if answer == 115 {
            let other = changeover::is_other_split(desk.network_before(), (kind, a, b), desk.network());
            tally.count_named(changeover::OTHER_SPLIT, u64::from(other));
        }
        check_some_preview(&mut tally, &mut desk, random).map_err(fails)?;
        if random.percent(2) {
            desk.call(question(random), random.below(OUT)).map_err(fails)?;
            check_made(desk.network()).map_err(fails)?;
        }
    }
    let fails = |what| failure(script, script.kinds.len(), what);
    check_made(desk.network()).map_err(fails)?;
    tally.count_drain(desk.drain(random.percent(20)).map_err(fails)?);
    check_made(desk.network()).map_err(fails)?;
    check_program(&script.bytes())?;
    Ok(tally)
}

/// Previews of every packet in the air after a script. One that was cut where a preview differs shows it again.
pub fn check_previews(script: &Script) -> Result<(), String> {
    let mut desk = Desk::new(&[0; LENGTH]);
    desk.call(Call::Open(script.n, script.start, MAX_PACKETS), 0)?;
    for (index, kind, a, b) in script.events() {
        desk.event(index, kind, a, b)?;
    }
    for k in 0..=usize::from(desk.network().in_air) {
        desk.preview(k, OUT)?;
        desk.preview(k, PREVIEW - 1)?;
    }
    Ok(())
}

/// What the program prints of any bytes.
pub fn check_program(bytes: &[u8]) -> Result<(), String> {
    let printed = rehearse(bytes)?;
    let wanted = reference::printout::rehearse(bytes);
    if printed == wanted {
        return Ok(());
    }
    let (printed, wanted) = (String::from_utf8_lossy(&printed), String::from_utf8_lossy(&wanted));
    let at = printed
        .lines()
        .zip(wanted.lines())
        .position(|(a, b)| a != b)
        .unwrap_or_else(|| printed.lines().count().min(wanted.lines().count()));
    let line = |text: &str| text.lines().nth(at).unwrap_or("(no line)").to_string();
    let what = format!("line {} of the printouts, the program's and the Rust build's:\n{}\n{}", at + 1, line(&printed), line(&wanted));
    Err(with_script(&what, bytes))
}
