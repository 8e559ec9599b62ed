//! 01, "Scripts and the printout": what a rehearsal prints.

use crate::label::UNASSIGNED;
use crate::network::{Network, MAX_PACKETS};
use crate::running::{Line, Tally};
use crate::script;

/// A line's fields are "decimal with one space between, and a line feed ends each line".
fn end_line(out: &mut [u8]) {
    *out.last_mut().unwrap() = b'\n';
}

/// A number and a space.
fn put(out: &mut Vec<u8>, mut number: u64) {
    let mut digits = [b' '; 21];
    let mut first = 20;
    loop {
        first -= 1;
        digits[first] = b'0' + (number % 10) as u8;
        number /= 10;
        if number == 0 {
            break;
        }
    }
    out.extend_from_slice(&digits[first..]);
}

/// "per event: index, kind, a, b, answer .., packets sent .., packets in the air after it, hops".
pub fn put_event(out: &mut Vec<u8>, index: usize, kind: u8, a: u8, b: u8, line: Line) {
    put(out, index as u64);
    for byte in [kind, a, b] {
        put(out, u64::from(byte));
    }
    put(out, u64::from(line.answer));
    for byte in [line.sent, line.in_air, line.hops] {
        put(out, u64::from(byte));
    }
    end_line(out);
}

/// "then `L` i t s m d successors in row order, for assigned labels with i ≠ t, ascending by i, then t".
pub fn put_labels(out: &mut Vec<u8>, network: &Network) {
    for i in 0..network.stations() {
        for t in 0..network.stations() {
            let label = network.labels[i][t];
            if i == t || label == UNASSIGNED {
                continue;
            }
            out.extend_from_slice(b"L ");
            for number in [i as u64, t as u64, label.s, u64::from(label.m), u64::from(label.d)] {
                put(out, number);
            }
            for entry in network.rows[i][t].successors() {
                put(out, u64::from(entry.station));
            }
            end_line(out);
        }
    }
}

/// A script rehearsed under an air limit: its text, and the tally, which "is returned and not printed" (02, F-5). Turned down with the
/// number of reading it, then with Open's 14.
pub fn rehearse_under(script: &[u8], limit: usize) -> Result<(Vec<u8>, Tally), u32> {
    let (sizes, kinds, operands) = script::parse(script)?;
    script::test_limit(limit)?;
    let mut out = Vec::new();
    let mut network = Network::fresh(usize::from(sizes.n), sizes.start, limit);
    let tally = network.run(kinds, operands, |index, line| {
        put_event(&mut out, index, kinds[index], operands[2 * index], operands[2 * index + 1], line);
    });
    put_labels(&mut out, &network);
    Ok((out, tally))
}

/// What the rehearsal program prints of a script: "A script turned down prints `R`, a space and the number." It "runs with limit 128".
pub fn rehearse(script: &[u8]) -> Vec<u8> {
    match rehearse_under(script, MAX_PACKETS) {
        Ok((text, _)) => text,
        Err(number) => {
            let mut out = b"R ".to_vec();
            put(&mut out, u64::from(number));
            end_line(&mut out);
            out
        }
    }
}
