//! Memory of other versions: another first byte, the layouts of versions 18 and 17, and the layout that had no version.

use crate::calls::{answer_to, calls_but_open, Call, Desk, OUT};
use crate::damage::whole_network;
use crate::random::Random;
use crate::scripts::Script;
use crate::tally::Tally;
use reference::network::{Bytes, Network, LENGTH, MAX_SUCCESSORS, VERSION};

/// A network in the layout of version 18, which had no air limit at its end.
fn bytes_of_18(network: &Network) -> Vec<u8> {
    let mut bytes = network.bytes()[..40_931].to_vec();
    bytes[0] = 18;
    bytes
}

/// What stood behind the stations in the layouts before 18: the parts that stand there now, with no number in a row's entry and in a packet.
fn rest_before(network: &Network) -> Vec<u8> {
    let mut bytes = network.links.as_flattened().to_vec();
    network.labels.as_flattened().iter().for_each(|label| bytes.extend(label.bytes()));
    for row in network.rows.as_flattened() {
        bytes.push(row.count);
        (0..MAX_SUCCESSORS).for_each(|entry| bytes.extend(&row.bytes()[1 + 25 * entry..][..17]));
    }
    network.records.as_flattened().iter().for_each(|record| bytes.extend(record.bytes()));
    bytes.push(network.in_air);
    network.packets.iter().for_each(|packet| bytes.extend(&packet.bytes()[..28]));
    bytes
}

/// A network in the layout of version 17: the version, n, and what each station kept of its own requests.
fn bytes_of_17(network: &Network) -> Vec<u8> {
    let mut bytes = vec![17, network.n];
    network.kept.iter().for_each(|station| bytes.extend(&station.bytes()[..6]));
    bytes.extend(rest_before(network));
    assert_eq!(bytes.len(), 31_587);
    bytes
}

/// A network in the layout that had no version: n in the first byte, then the last request numbers, the destinations last sought and the
/// flags "active" in a table each.
fn bytes_without_version(network: &Network) -> Vec<u8> {
    let mut bytes = vec![network.n];
    network.kept.iter().for_each(|station| bytes.extend({ station.number }.to_le_bytes()));
    bytes.extend(network.kept.map(|station| station.sought));
    bytes.extend(network.kept.map(|station| station.active));
    bytes.extend(rest_before(network));
    assert_eq!(bytes.len(), 31_586);
    bytes
}

/// The numbers that calls are made with: two stations and a packet.
#[derive(Clone, Copy)]
struct Operands(usize, usize, usize);

impl Operands {
    /// Numbers that are no station and no packet.
    const NONE: Operands = Operands(usize::MAX, usize::MAX, usize::MAX);

    /// Two stations that there are, and a packet if there is one.
    fn of(random: &mut Random, network: &Network) -> Operands {
        let n = network.stations();
        let a = random.below(n);
        Operands(a, (a + random.between(1, n - 1)) % n, random.below(usize::from(network.in_air).max(1)))
    }

    fn calls(self) -> [Call; 21] {
        calls_but_open(self.0, self.1, self.2)
    }
}

/// Every call but Open turns these bytes down with 1, whatever its numbers, and leaves them as they are; `Desk::call` holds both builds to
/// that.
fn check_turned_down(tally: &mut Tally, bytes: &[u8], operands: Operands) -> Result<(), String> {
    let mut desk = Desk::new(bytes);
    let calls = operands.calls().map(|call| (call, OUT)).into_iter().chain(Operands::NONE.calls().map(|call| (call, 0)));
    for (call, out_length) in calls {
        let result = desk.call(call, out_length)?;
        if result != 1 {
            return Err(format!("{call:?} gives {result:#x}"));
        }
        tally.count_call(call, answer_to(call, result));
    }
    if desk.memory() != bytes {
        return Err("the bytes changed".into());
    }
    Ok(())
}

/// No call turns the network down with 1, and each leaves the version.
fn check_taken(tally: &mut Tally, network: &Network, operands: Operands) -> Result<(), String> {
    for call in operands.calls() {
        let mut desk = Desk::new(network.bytes());
        let answer = answer_to(call, desk.call(call, OUT)?);
        if answer == 1 || desk.memory()[0] != VERSION {
            return Err(format!("{call:?} is answered {answer}, and the first byte is then {}", desk.memory()[0]));
        }
        tally.count_call(call, answer);
    }
    Ok(())
}

/// Open asks for the length alone, and writes the version.
fn check_opened(tally: &mut Tally, bytes: &[u8], n: usize) -> Result<(), String> {
    let mut desk = Desk::new(bytes);
    let call = Call::Open(n, 1, 128);
    let answer = answer_to(call, desk.call(call, 0)?);
    let wanted = if bytes.len() < LENGTH { (1, bytes[0], bytes[1]) } else { (0, VERSION, n as u8) };
    if (answer, desk.memory()[0], desk.memory()[1]) != wanted {
        return Err(format!("{call:?} is answered {answer}, and the first two bytes are then {:?}", &desk.memory()[..2]));
    }
    tally.count_call(call, answer);
    Ok(())
}

/// A network with its version, with others, and in the layouts before.
pub fn check(case: usize, examples: &[Script]) -> Result<Tally, String> {
    let mut random = Random::new(case as u64);
    let mut tally = Tally::default();
    let network = whole_network(&mut random, case, examples);
    let operands = Operands::of(&mut random, &network);
    check_taken(&mut tally, &network, operands)?;
    // 256 cases in a row have every first byte that there is. Where n stood once it was 2 to 16.
    for version in [0, 2, 16, 17, 18, 20, 255, network.n, case as u8, random.byte(), random.byte()] {
        if version == VERSION {
            continue;
        }
        let mut bytes = network.bytes().to_vec();
        bytes[0] = version;
        check_turned_down(&mut tally, &bytes, operands)
            .and_then(|()| check_opened(&mut tally, &bytes, network.stations()))
            .map_err(|what| format!("where the first byte is {version}: {what}"))?;
    }
    let layouts = [
        ("of version 18", bytes_of_18(&network)),
        ("of version 17", bytes_of_17(&network)),
        ("that had no version", bytes_without_version(&network)),
    ];
    for (name, before) in layouts {
        for length in [before.len(), LENGTH, LENGTH + 5] {
            let mut bytes = before.clone();
            bytes.resize(length, random.byte());
            check_turned_down(&mut tally, &bytes, operands)
                .and_then(|()| check_opened(&mut tally, &bytes, network.stations()))
                .map_err(|what| format!("in {length} bytes, of the layout {name}: {what}"))?;
        }
    }
    Ok(tally)
}
