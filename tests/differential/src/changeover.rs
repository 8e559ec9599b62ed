//! The changeover (02, F-6): lists "whose calls split the old way up to some place and the new way after it". The Rust build makes the first
//! events by the old split; the library takes the memory as it stands and goes on. "a walker's bound must hold across the changeover".

use crate::calls::{answer_of, count_of, Desk};
use crate::random::Random;
use crate::runs::run;
use crate::scripts::{check_made, continued, never, some_start, styled_over, with_script, Script, MOVING, STYLES};
use crate::tally::Tally;
use reference::label::Split;
use reference::network::{Bytes, Network, MAX_PACKETS, MAX_STATIONS};

const OTHER_LABEL: &str = "a changeover with a label that the new split would not have given";
pub const OTHER_SPLIT: &str = "a label that the old split would not have given";
const MIXED_HOP: &str = "a hop after the changeover between a label from before it and one from after it";
const BEGINNING: &str = "a changeover before the first event";
const END: &str = "a changeover after the last event";

/// What the tests of changeovers have to meet.
pub const NAMED: [&str; 5] = [OTHER_LABEL, OTHER_SPLIT, MIXED_HOP, BEGINNING, END];

/// The walks for t in memory: each hop goes lower, no station is met twice, and none has over n − 1 hops.
fn check_walks(network: &Network, t: usize) -> Result<(), String> {
    /// The most hops from a station, after these stations.
    fn most(network: &Network, t: usize, path: &mut Vec<usize>, known: &mut [Option<usize>; MAX_STATIONS]) -> Result<usize, String> {
        let at = path[path.len() - 1];
        if let Some(hops) = known[at] {
            return Ok(hops);
        }
        let mut hops = 0;
        for entry in network.rows[at][t].successors() {
            let next = usize::from(entry.station);
            if path.contains(&next) {
                return Err(format!("a walk for {t} meets {next} twice: {path:?}"));
            }
            if !network.labels[at][t].above(network.labels[next][t]) {
                return Err(format!("the hop of {at} for {t} to {next} does not go lower"));
            }
            path.push(next);
            hops = hops.max(1 + most(network, t, path, known)?);
            path.pop();
        }
        known[at] = Some(hops);
        Ok(hops)
    }
    let mut known = [None; MAX_STATIONS];
    for a in (0..network.stations()).filter(|&a| a != t) {
        let hops = most(network, t, &mut vec![a], &mut known)?;
        if hops >= network.stations() {
            return Err(format!("a walk from {a} for {t} has {hops} hops"));
        }
    }
    Ok(())
}

/// The library's tracer, from every station for t: it ends at t or at an empty row, by as many hops as the first entries have.
fn check_tracer(memory: &[u8], t: usize) -> Result<(), String> {
    let network = Network::of(memory).unwrap();
    for a in (0..network.stations()).filter(|&a| a != t) {
        let (mut at, mut hops) = (a, 0);
        while let Some(first) = network.rows[at][t].successors().first() {
            (at, hops) = (usize::from(first.station), hops + 1);
        }
        let result = library::trace(memory, a, t);
        let wanted = if at == t { 131 } else { 132 };
        if (answer_of(result), count_of(result)) != (wanted, hops) {
            return Err(format!("Trace({a}, {t}) gives {} and {} hops, not {wanted} and {hops}", answer_of(result), count_of(result)));
        }
    }
    Ok(())
}

/// Destinations whose labels or rows an event changed.
fn changed<'a>(before: &'a Network, after: &'a Network) -> impl Iterator<Item = usize> + 'a {
    let differs = |i: usize, t: usize| before.labels[i][t] != after.labels[i][t] || before.rows[i][t] != after.rows[i][t];
    (0..after.stations()).filter(move |&t| (0..after.stations()).any(|i| differs(i, t)))
}

/// The network that the first events leave when they split the old way, with its walks after each of them.
fn old_network(script: &Script, place: usize) -> Result<Box<Network>, String> {
    let mut network = Network::fresh(script.n, script.start, MAX_PACKETS);
    for (_, kind, a, b) in script.events().take(place) {
        let before = *network;
        let _ = network.event_by(Split::Mediant, kind, a, b);
        changed(&before, &network).try_for_each(|t| check_walks(&network, t))?;
    }
    Ok(network)
}

/// Whether the new split gives other labels for the first events than the old one gave.
fn has_other_labels(script: &Script, place: usize, old: &Network) -> bool {
    let mut network = Network::fresh(script.n, script.start, MAX_PACKETS);
    for (_, kind, a, b) in script.events().take(place) {
        let _ = network.event(kind, a, b);
    }
    network.labels != old.labels
}

/// Whether an event gives a label that the old split would not have given.
pub fn is_other_split(before: &Network, (kind, a, b): (u8, u8, u8), after: &Network) -> bool {
    let mut otherwise = *before;
    let _ = otherwise.event_by(Split::Mediant, kind, a, b);
    otherwise.labels != after.labels
}

/// A script that goes over at a place: its events after that on both builds, one by one and as one run, and the air drained at the end. After
/// each event the walks and the tracer, for the destinations whose labels or rows it changed; before the first for all.
fn check_at(tally: &mut Tally, script: &Script, place: usize) -> Result<(), String> {
    let old = old_network(script, place)?;
    let mut desk = Desk::new(&[old.bytes(), &[0xc3; 3]].concat());
    (0..script.n).try_for_each(|t| check_tracer(desk.memory(), t))?;
    tally.count_named(OTHER_LABEL, u64::from(has_other_labels(script, place, &old)));
    tally.count_named(BEGINNING, u64::from(place == 0));
    tally.count_named(END, u64::from(place == script.kinds.len()));
    // Labels that were taken after the changeover.
    let mut taken = [[false; MAX_STATIONS]; MAX_STATIONS];
    for (index, kind, a, b) in script.events().skip(place) {
        let answer = answer_of(desk.event(index, kind, a, b)?);
        if never(answer) {
            return Err(format!("event {index} after a changeover is answered {answer}"));
        }
        tally.count(answer);
        let (before, after) = (desk.network_before(), desk.network());
        for t in changed(before, after) {
            (0..script.n).for_each(|i| taken[i][t] |= before.labels[i][t] != after.labels[i][t]);
            check_walks(after, t)?;
            check_tracer(desk.memory(), t)?;
            let hops = (0..script.n).flat_map(|i| after.rows[i][t].successors().iter().map(move |entry| (i, usize::from(entry.station))));
            let mixed = hops.filter(|&(i, next)| next != t && taken[i][t] != taken[next][t]).count();
            tally.count_named(MIXED_HOP, mixed as u64);
        }
        tally.count_named(OTHER_SPLIT, u64::from(answer == 115 && is_other_split(before, (kind, a, b), after)));
    }
    check_made(desk.network())?;
    let ran = run(old.bytes(), &script.kinds[place..], &script.operands[2 * place..], script.kinds.len())?;
    if ran.network() != desk.network() {
        return Err("a run after the changeover leaves other memory than its events one by one".into());
    }
    tally.count_drain(desk.drain(true)?);
    (0..script.n).try_for_each(|t| check_walks(desk.network(), t).and_then(|()| check_tracer(desk.memory(), t)))
}

/// A script and the places where it goes over: each place of a short script, or one of a longer one, which now and then goes on from an example.
fn some_changeover(case: usize, examples: &[Script]) -> (Script, std::ops::RangeInclusive<usize>) {
    let mut random = Random::new(case as u64);
    let style = if random.percent(70) { &MOVING } else { &STYLES[case % STYLES.len()] };
    let start = some_start(&mut random);
    if case.is_multiple_of(8) {
        let (n, events) = (random.between(2, 8), random.below(61));
        let old = random.below(events + 1);
        return (styled_over(&mut random, style, n, start, events, old), 0..=events);
    }
    let (n, events) = (random.between(2, MAX_STATIONS), random.between(30, 900));
    let place = random.below(events + 1);
    let script = if case % 8 == 1 {
        continued(&mut random, style, examples, start, events, place)
    } else {
        styled_over(&mut random, style, n, start, events, place)
    };
    let place = place.min(script.kinds.len());
    (script, place..=place)
}

pub fn check(case: usize, examples: &[Script]) -> Result<Tally, String> {
    let mut tally = Tally::default();
    let (script, places) = some_changeover(case, examples);
    for place in places {
        check_at(&mut tally, &script, place)
            .map_err(|what| with_script(&format!("{what}\nin a list that goes over before event {place}"), &script.bytes()))?;
    }
    Ok(tally)
}
