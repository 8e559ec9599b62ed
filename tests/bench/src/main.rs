//! The speed of the proved library beside the Rust build, both built for release, on the same inputs in one run. Prints tables in
//! Markdown.
//!
//! Each round times one build and then the other, for some milliseconds, since the machine may not be as fast in the next. The tables
//! have the medians of the rounds and of their ratios, and between which the middle half of the ratios lies.

use differential::calls::{answer_of, by_library, by_reference, call_of, Call, OUT};
use differential::networks::{fill_air, some_network};
use differential::program::root;
use differential::random::Random;
use differential::scripts::{styled, Script, STYLES};
use reference::calls::Drained;
use reference::console::PRINTOUT_BYTES;
use reference::label::{Label, UNASSIGNED};
use reference::network::{Bytes, Network, Row, Successor, LENGTH, MAX_PACKETS, MAX_STATIONS, MAX_SUCCESSORS};
use reference::script::{DELIVER, MAX_EVENTS};
use std::hint::black_box;
use std::io::Write;
use std::mem::size_of;
use std::path::Path;
use std::process::{Command, Stdio};
use std::time::Instant;

const ROUNDS: usize = 41;

/// Nanoseconds for each thing done, of each build, in each round.
#[derive(Default)]
struct Times {
    library: Vec<f64>,
    reference: Vec<f64>,
}

fn sorted(values: impl Iterator<Item = f64>) -> Vec<f64> {
    let mut values: Vec<f64> = values.collect();
    values.sort_by(f64::total_cmp);
    values
}

fn median(values: impl Iterator<Item = f64>) -> f64 {
    let values = sorted(values);
    values[values.len() / 2]
}

/// Nanoseconds with three digits or more.
fn rounded(time: f64) -> String {
    format!("{time:.*}", if time < 9.995 { 2 } else { usize::from(time < 99.95) })
}

impl Times {
    /// Rounds of both, one after the other; the first is left out.
    fn of(mut round: impl FnMut() -> (f64, f64)) -> Times {
        let mut times = Times::default();
        round();
        for _ in 0..ROUNDS {
            let (library, reference) = round();
            times.library.push(library);
            times.reference.push(reference);
        }
        times
    }

    fn print(&self, what: &str) {
        let ratios = sorted(self.library.iter().zip(&self.reference).map(|(a, b)| a / b));
        let (library, reference) = (median(self.library.iter().copied()), median(self.reference.iter().copied()));
        let [low, middle, high] = [1, 2, 3].map(|quarter| ratios[ROUNDS * quarter / 4]);
        println!("| {what} | {} | {} | {middle:.1} | {low:.1} to {high:.1} |", rounded(library), rounded(reference));
        eprintln!("bench: {what}");
    }
}

fn heading(title: &str) {
    println!("\n{title}\n\n| | Library | Rust build | Ratio | Middle half of {ROUNDS} rounds |\n|---|---|---|---|---|");
}

/// Nanoseconds for each of so many.
fn timed(count: usize, work: impl FnOnce()) -> f64 {
    let began = Instant::now();
    work();
    began.elapsed().as_nanos() as f64 / count as f64
}

// ---- The rehearsal programs

/// A whole run of a program, from its start to its end.
fn run_program(program: &Path, script: &[u8]) {
    let mut child = Command::new(program).stdin(Stdio::piped()).stdout(Stdio::null()).spawn().expect("the program starts");
    child.stdin.take().unwrap().write_all(script).unwrap();
    assert!(child.wait().unwrap().success());
}

/// Nanoseconds for each event: a run of the script, less a run of a script of no event. Of each the shortest of some runs is taken.
fn per_event(program: &Path, script: &Script) -> f64 {
    const RUNS: usize = 3;
    let none = Script { kinds: vec![], operands: vec![], ..script.clone() };
    let [all, none] = [script, &none].map(|script| {
        let bytes = script.bytes();
        sorted((0..RUNS).map(|_| timed(1, || run_program(program, &bytes))))[0]
    });
    (all - none) / script.kinds.len() as f64
}

fn bench_programs(scripts: &[(String, Script)]) {
    let library = root().join("target/bin/rehearse");
    let reference = root().join("target/cargo/release/rehearse");
    heading("Nanoseconds for each event of a rehearsal: a whole run of the program, less one of a script of no event, printing included.");
    for (what, script) in scripts {
        Times::of(|| (per_event(&library, script), per_event(&reference, script))).print(what);
    }
}

// ---- Console calls

type Make = fn(Call, &mut [u8], &mut [u8]) -> u64;

/// The events of a script as console calls, on one memory from Open on.
fn calls_of(make: Make, script: &Script) -> f64 {
    let mut memory = vec![0; LENGTH];
    timed(script.kinds.len(), || {
        make(Call::Open(script.n, script.start, MAX_PACKETS), &mut memory, &mut []);
        for (_, kind, a, b) in script.events() {
            black_box(make(call_of(kind, a, b), &mut memory, &mut []));
        }
    })
}

fn bench_scripts_by_calls(scripts: &[(String, Script)]) {
    heading("Nanoseconds for each console call, where a script's events are made as calls on one slice.");
    for (what, script) in scripts {
        Times::of(|| (calls_of(by_library, script), calls_of(by_reference, script))).print(what);
    }
}

type Run = fn(&mut [u8], &[u8], &[u8], &mut [u64]) -> u64;

/// The events of a script as one run, after Open, which is not timed.
fn run_of(make: Make, run: Run, script: &Script) -> f64 {
    let (mut memory, mut lines) = (vec![0; LENGTH], vec![0; MAX_EVENTS]);
    make(Call::Open(script.n, script.start, MAX_PACKETS), &mut memory, &mut []);
    timed(script.kinds.len(), || {
        black_box(run(&mut memory, &script.kinds, &script.operands, &mut lines));
    })
}

/// A script as one rehearsal, its text included.
fn rehearsal_of(rehearse: fn(&[u8], usize, &mut [u8]) -> u64, script: &Script) -> f64 {
    let (bytes, mut out) = (script.bytes(), vec![0; PRINTOUT_BYTES]);
    timed(script.kinds.len(), || {
        black_box(rehearse(&bytes, MAX_PACKETS, &mut out));
    })
}

fn bench_runs(scripts: &[(String, Script)]) {
    heading("Nanoseconds for each event of Run, where a script's events are one run.");
    for (what, script) in scripts {
        Times::of(|| (run_of(by_library, library::run, script), run_of(by_reference, reference::console::run, script))).print(what);
    }
    heading("Nanoseconds for each event of Rehearse, text included.");
    for (what, script) in scripts {
        Times::of(|| (rehearsal_of(library::rehearse, script), rehearsal_of(reference::console::rehearse, script))).print(what);
    }
}

/// The events of a script in place by the Rust build, with what a console call adds to them.
fn events_of(script: &Script, ranged: bool, settled: bool) -> f64 {
    let mut network = Network::fresh(script.n, script.start, MAX_PACKETS);
    timed(script.kinds.len(), || {
        for (_, kind, a, b) in script.events() {
            if ranged {
                assert!(black_box(&network).in_range());
            }
            let _ = black_box(network.event(kind, a, b));
            if settled {
                black_box(&mut network).settle();
            }
        }
    })
}

fn bench_parts(scripts: &[(String, Script)]) {
    println!("\nNanoseconds for each event in the Rust build alone.\n");
    println!("| | In place | with the range test | and with the free places put as the layout says |\n|---|---|---|---|");
    for (what, script) in scripts {
        let rounds: Vec<_> =
            (0..ROUNDS).map(|_| [(false, false), (true, false), (true, true)].map(|(r, s)| events_of(script, r, s))).collect();
        let [plain, ranged, settled] = [0, 1, 2].map(|part| rounded(median(rounds.iter().map(|round| round[part]))));
        println!("| {what} | {plain} | {ranged} | {settled} |");
        eprintln!("bench: {what}");
    }
}

/// One call, each time on the same bytes: they are copied before the call, and the copy's time is taken off.
fn calls_on(make: Make, network: &[u8], call: Call) -> f64 {
    const CALLS: usize = 300;
    let mut memory = network.to_vec();
    let mut out = [0; OUT];
    let copied = timed(CALLS, || (0..CALLS).for_each(|_| black_box(&mut memory).copy_from_slice(black_box(network))));
    let all = timed(CALLS, || {
        for _ in 0..CALLS {
            black_box(&mut memory).copy_from_slice(black_box(network));
            black_box(make(black_box(call), &mut memory, &mut out));
        }
    });
    all - copied
}

/// A network that a script leads to, with packets in the air, and a call on it that is answered so.
fn before_answer(scripts: &[(String, Script)], kind: u8, answer: u32) -> (Vec<u8>, Call) {
    for (_, script) in scripts.iter().filter(|(_, script)| script.n == MAX_STATIONS) {
        let mut network = Network::fresh(script.n, script.start, MAX_PACKETS);
        for (_, its_kind, a, b) in script.events() {
            let before = *network;
            let its_answer = network.event(its_kind, a, b).map_or_else(|number| number, |done| done.outcome);
            if (its_kind, its_answer) == (kind, answer) && before.in_air >= SOME_PACKETS {
                return (before.bytes().to_vec(), call_of(kind, a, b));
            }
        }
    }
    panic!("no event of kind {kind} is answered {answer}")
}

/// Such a network, and the packet whose delivery is answered so.
fn before_delivery(scripts: &[(String, Script)], answer: u32) -> (Vec<u8>, usize) {
    match before_answer(scripts, DELIVER, answer) {
        (network, Call::Deliver(k)) => (network, k),
        (_, call) => panic!("{call:?} delivers nothing"),
    }
}

/// Sixteen stations, each linked to all others, of which eight seek at once.
fn flood() -> Box<Network> {
    let mut network = Network::fresh(MAX_STATIONS, 1, MAX_PACKETS);
    for b in 1..MAX_STATIONS {
        (0..b).for_each(|a| assert!(network.up(a, b).is_ok()));
    }
    (0..8).for_each(|a| assert!(network.solicit(a, 15 - a).is_ok()));
    network
}

/// Of so many random networks, those of 16 stations with a full air: the one in which most packets are delivered and lost.
fn longest_drain() -> Box<Network> {
    const NETWORKS: u64 = 20_000;
    let full = |seed: u64| {
        let mut random = Random::new(seed);
        let mut network = some_network(&mut random);
        network.limit = MAX_PACKETS as u8;
        fill_air(&mut random, &mut network);
        network
    };
    let turns = |network: &Network| {
        let Drained { deliveries, losses } = network.to_owned().drain();
        deliveries + losses
    };
    (0..NETWORKS).map(full).filter(|network| network.stations() == MAX_STATIONS).max_by_key(|network| turns(network)).unwrap()
}

/// Drain at the console, for each packet delivered or lost: the range test, and what is read and written, come once.
fn bench_drains(scripts: &[(String, Script)]) {
    heading("Nanoseconds for each packet delivered or lost by Drain, in networks of 16 stations.");
    let (late, _) = before_answer(scripts, DELIVER, 103);
    let networks = [
        ("a full air, the longest of 20,000 random networks", *longest_drain()),
        ("all stations linked, eight seek", *flood()),
        ("30 packets or more of a script", *Network::of(&late).unwrap()),
    ];
    for (what, network) in networks {
        let Drained { deliveries, losses } = network.to_owned().drain();
        let turns = f64::from(deliveries + losses);
        let what = format!("{what}: {} in the air, {deliveries} delivered, {losses} lost", { network.in_air });
        let each = |make| calls_on(make, network.bytes(), Call::Drain) / turns;
        Times::of(|| (each(by_library), each(by_reference))).print(&what);
    }
}

/// So many packets at least are in the air where a call is timed by its answer.
const SOME_PACKETS: u8 = 30;

fn bench_calls(scripts: &[(String, Script)]) {
    use reference::script::{DOWN, DUPLICATE, EXPIRE, GIVE_UP, LOSE, SOLICIT, TRACE, UP};
    heading("Nanoseconds for each console call, by its answer, in networks of 16 stations with 30 packets or more in the air.");
    let calls = [
        ("Deliver, a request that is known (101)", DELIVER, 101),
        ("Deliver, a request that is answered (102)", DELIVER, 102),
        ("Deliver, a request that is sent on (103)", DELIVER, 103),
        ("Deliver, a reply to no request (111)", DELIVER, 111),
        ("Deliver, a reply that is taken (115)", DELIVER, 115),
        ("Deliver, an error (121)", DELIVER, 121),
        ("Deliver, an error that empties rows (123)", DELIVER, 123),
        ("Up", UP, 0),
        ("Down", DOWN, 0),
        ("Solicit", SOLICIT, 0),
        ("Give up", GIVE_UP, 0),
        ("Expire", EXPIRE, 0),
        ("Lose", LOSE, 0),
        ("Duplicate", DUPLICATE, 0),
        ("Trace that arrives (131)", TRACE, 131),
        ("Up, turned down (3)", UP, 3),
    ];
    for (what, kind, answer) in calls {
        let (network, call) = before_answer(scripts, kind, answer);
        assert_eq!(answer_of(by_library(call, &mut network.clone(), &mut [])), answer);
        Times::of(|| (calls_on(by_library, &network, call), calls_on(by_reference, &network, call))).print(what);
    }
    let previews = [
        ("Preview, a request that is answered (102)", 102),
        ("Preview, a reply that is taken (115)", 115),
        ("Preview, an error that empties rows (123)", 123),
    ];
    for (what, answer) in previews {
        let (network, k) = before_delivery(scripts, answer);
        let call = Call::Preview(k);
        assert_eq!(answer_of(by_library(call, &mut network.clone(), &mut [0; OUT])), answer);
        Times::of(|| (calls_on(by_library, &network, call), calls_on(by_reference, &network, call))).print(what);
    }
    let (network, _) = before_answer(scripts, DELIVER, 103);
    for (what, call) in
        [("Open", Call::Open(16, 1, MAX_PACKETS)), ("Size", Call::Size), ("Row", Call::Row(3, 0)), ("Packet", Call::Packet(7))]
    {
        Times::of(|| (calls_on(by_library, &network, call), calls_on(by_reference, &network, call))).print(what);
    }
}

/// A preview beside the row of its receiver and destination, which an error has as 0, and beside Deliver of the packet. Each round has the
/// three in turns.
fn bench_previews(scripts: &[(String, Script)]) {
    println!(
        "\nNanoseconds for each preview in the library alone, beside Row and beside Deliver of the same packet, in the same networks. Each \
         ratio is that of the preview to the call before it.\n"
    );
    println!("| | Preview | Row | Ratio | Deliver | Ratio |\n|---|---|---|---|---|---|");
    let packets = [
        ("a request that is known (101)", 101),
        ("a request that is answered (102)", 102),
        ("a request that is sent on (103)", 103),
        ("a reply that is taken (115)", 115),
        ("an error (121)", 121),
        ("an error that empties rows (123)", 123),
    ];
    for (what, answer) in packets {
        let (network, k) = before_delivery(scripts, answer);
        let packet = Network::of(&network).unwrap().packets[k];
        let row = Call::Row(usize::from(packet.receiver), usize::from(packet.destination));
        let round = || [Call::Preview(k), row, Call::Deliver(k)].map(|call| calls_on(by_library, &network, call));
        round();
        let rounds: Vec<_> = (0..ROUNDS).map(|_| round()).collect();
        let [preview, row, deliver] = [0, 1, 2].map(|call| rounded(median(rounds.iter().map(|round| round[call]))));
        let [to_row, to_deliver] = [1, 2].map(|call| median(rounds.iter().map(|round| round[0] / round[call])));
        println!("| {what} | {preview} | {row} | {to_row:.2} | {deliver} | {to_deliver:.2} |");
        eprintln!("bench: {what}");
    }
}

// ---- Rows, New label and scripts

/// A full row as the layout has it, searched for its first station, its last one, and one that it does not name.
fn bench_rows() {
    const TURNS: usize = 100_000;
    heading("Nanoseconds for each search of a row of four entries.");
    let mut row = [0; size_of::<Row>()];
    row[0] = MAX_SUCCESSORS as u8;
    for entry in 0..MAX_SUCCESSORS {
        row[1 + entry * size_of::<Successor>()] = 3 + entry as u8;
    }
    let search = |find: fn(&[u8], usize) -> u64, station| {
        timed(TURNS, || (0..TURNS).for_each(|_| assert_eq!(answer_of(find(black_box(&row), black_box(station))), 0)))
    };
    for (what, station) in [("its first station", 3), ("its last station", 6), ("a station that it does not name", 9)] {
        Times::of(|| (search(library::find, station), search(reference::console::find, station))).print(what);
    }
}

fn label_times(new_label: fn(Label, Label, Label) -> u64, triples: &[[Label; 3]]) -> f64 {
    const TURNS: usize = 20;
    timed(TURNS * triples.len(), || {
        for _ in 0..TURNS {
            for &[own, cached, advertised] in black_box(triples) {
                black_box(new_label(own, cached, advertised));
            }
        }
    })
}

fn bench_labels() {
    heading("Nanoseconds for each New label, over 4,096 triples of labels.");
    let mut random = Random::new(1);
    let mut some = |s: usize, most: usize| {
        let d = random.between(2, most) as u32;
        Label::new(random.between(1, s) as u64, random.below(d as usize) as u32, d)
    };
    let mixed = (0..4096).map(|_| [(); 3].map(|()| some(2, 1 << 30))).collect();
    let mut splits = |most: usize| -> Vec<[Label; 3]> {
        let pairs = std::iter::repeat_with(|| [some(1, most), some(1, most)]);
        pairs
            .filter(|[cached, advertised]| cached.above(*advertised))
            .map(|[cached, advertised]| [UNASSIGNED, cached, advertised])
            .take(4096)
            .collect()
    };
    let (small, large) = (splits(16), splits(u32::MAX as usize));
    let near = large.iter().map(|&[own, cached, _]| [own, cached, below(cached)]).collect();
    let split = [UNASSIGNED, Label::new(1, 2, 3), Label::new(1, 1, 2)];
    // Neighbours among Fibonacci's fractions; between them nothing fits.
    let longest = [UNASSIGNED, Label::new(1, 1_134_903_170, 1_836_311_903), Label::new(1, 1_836_311_903, 2_971_215_073)];
    for (what, triples) in [
        ("always a split, 2/3 and 1/2", vec![split; 4096]),
        ("random labels", mixed),
        ("splits of random ends, denominators up to 16", small),
        ("splits of random ends, denominators of 32 bits", large),
        ("splits of random ends of 32 bits that are near each other", near),
        ("the longest search: Fibonacci's fractions (114)", vec![longest; 4096]),
    ] {
        for &[own, cached, advertised] in &triples {
            assert_eq!(library::new_label(own, cached, advertised), reference::console::new_label(own, cached, advertised));
        }
        Times::of(|| (label_times(library::new_label, &triples), label_times(reference::console::new_label, &triples))).print(what);
    }
}

/// The next lower label of the same denominator, or the lowest.
fn below(label: Label) -> Label {
    Label { m: label.m.saturating_sub(1), ..label }
}

fn bench_script_bytes(script: &Script) {
    const TURNS: usize = 100;
    heading("Nanoseconds for each event of a script of 4,096 that is read or written; the arrays are not cleared.");
    let bytes = script.bytes();
    let mut arrays = (vec![0; 4096], vec![0; 8192]);
    let mut read = |read: fn(&[u8], &mut [u8], &mut [u8]) -> u64| {
        timed(TURNS * script.kinds.len(), || {
            (0..TURNS).for_each(|_| assert_eq!(answer_of(read(black_box(&bytes), &mut arrays.0, &mut arrays.1)), 0))
        })
    };
    Times::of(|| (read(library::read_script), read(reference::console::read_script))).print("read");
    let mut out = vec![0; bytes.len()];
    type Write = fn(usize, u64, &[u8], &[u8], &mut [u8]) -> u64;
    let mut write = |write: Write| {
        timed(TURNS * script.kinds.len(), || {
            (0..TURNS)
                .for_each(|_| assert_eq!(answer_of(write(script.n, script.start, black_box(&script.kinds), &script.operands, &mut out)), 0))
        })
    };
    Times::of(|| (write(library::write_script), write(reference::console::write_script))).print("written");
}

fn main() {
    let of = |style: usize, n: usize| styled(&mut Random::new(style as u64), &STYLES[style], n, 1, MAX_EVENTS);
    let mut scripts: Vec<_> = (0..STYLES.len()).map(|style| (format!("16 stations, {}", STYLES[style].name), of(style, 16))).collect();
    scripts.push((format!("4 stations, {}", STYLES[0].name), of(0, 4)));
    bench_programs(&scripts);
    bench_scripts_by_calls(&scripts);
    bench_runs(&scripts);
    bench_parts(&scripts);
    bench_calls(&scripts);
    bench_previews(&scripts);
    bench_drains(&scripts);
    bench_rows();
    bench_labels();
    bench_script_bytes(&scripts[0].1);
}
