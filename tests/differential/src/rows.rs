//! The search of a row: all rows of up to four entries from a few stations, those that name a station twice among them.

use crate::calls::{answer_of, count_of};
use crate::tally::Tally;
use reference::console;
use reference::label::Label;
use reference::network::{Bytes, Row, Successor, MAX_SUCCESSORS};
use std::mem::size_of;

/// The stations of the rows: those of networks, and bytes that name none.
const NAMED: [u8; 5] = [0, 1, 9, 15, 255];

/// What is searched for: stations that the rows name or don't, and numbers that no station has.
const SOUGHT: [usize; 11] = [0, 1, 2, 8, 9, 15, 16, 255, 256, 265, usize::MAX];

/// What a search gives: the place and how many places it looked at, or a number.
type Outcome = Result<(u32, u32), u32>;

fn outcome_of(result: u64) -> Outcome {
    match answer_of(result) {
        0 => Ok((count_of(result) % 65_536, count_of(result) / 65_536)),
        number => Err(number),
    }
}

/// 02's words: "it should end at the first entry that names the station. It also returns how many places it looked at: up to and with
/// the hit, or the row's count if there is none."
fn wanted(row: &[u8], station: usize) -> Outcome {
    let length = size_of::<Row>();
    if row.len() < length || usize::from(row[0]) > MAX_SUCCESSORS {
        return Err(1);
    }
    if station > 15 {
        return Err(2);
    }
    let count = u32::from(row[0]);
    for place in 0..count {
        if usize::from(row[1 + place as usize * size_of::<Successor>()]) == station {
            return Ok((place, place + 1));
        }
    }
    Ok((count, count))
}

/// The library, the Rust build and 02's words on one row.
fn check(row: &[u8], tally: &mut Tally) -> Result<(), String> {
    for station in SOUGHT {
        let [library, reference] = [library::find(row, station), console::find(row, station)];
        let (outcome, second, wanted) = (outcome_of(library), outcome_of(reference), wanted(row, station));
        if library != reference || outcome != wanted {
            return Err(format!("{station} in {row:?}: the library gives {outcome:?}, the Rust build {second:?}, 02 says {wanted:?}"));
        }
        tally.count(outcome.err().unwrap_or(0));
    }
    Ok(())
}

/// The row with these stations, all four places filled, of which so many count.
fn row_of(count: u8, stations: [u8; MAX_SUCCESSORS]) -> Row {
    let label = |station: u8| Label::new(u64::from(station), u32::MAX, 7);
    Row { count, entries: stations.map(|station| Successor { station, label: label(station), serial: !u64::from(station) }) }
}

/// All rows of up to four entries, with all that may stand past their count.
pub fn check_all() -> Result<Tally, String> {
    let mut tally = Tally::default();
    for a in NAMED {
        for b in NAMED {
            for c in NAMED {
                for d in NAMED {
                    for count in 0..=MAX_SUCCESSORS as u8 {
                        check(row_of(count, [a, b, c, d]).bytes(), &mut tally)?;
                    }
                }
            }
        }
    }
    Ok(tally)
}

/// Every count, and slices of every length around that of a row.
pub fn check_sizes() -> Result<Tally, String> {
    let mut tally = Tally::default();
    for count in 0..=u8::MAX {
        check(row_of(count, [1, 9, 15, 1]).bytes(), &mut tally)?;
    }
    let mut long = row_of(3, [9, 1, 9, 0]).bytes().to_vec();
    long.extend([0xa5; 8]);
    for length in 0..=long.len() {
        check(&long[..length], &mut tally)?;
    }
    Ok(tally)
}
