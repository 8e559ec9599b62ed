//! Runs the differential tests.
//!
//!     differential               all families
//!     differential FAMILY        one family
//!     differential FAMILY CASE   one case again
//!     differential script HEX..  one script again
//!
//! Every case is made from its number alone. The last lines say how often each answer was met; the exit status is 1 if a case failed
//! or an answer that can be met was not.

use differential::random::Random;
use differential::scripts::{self, Script};
use differential::tally::{Tally, ANSWERS};
use differential::{changeover, damage, labels, limits, networks, program, rows, runs, script_bytes, serials, versions};
use std::panic::{catch_unwind, AssertUnwindSafe};
use std::process::ExitCode;
use std::sync::atomic::{AtomicBool, AtomicU64, AtomicUsize, Ordering::Relaxed};
use std::sync::Mutex;
use std::time::{Duration, Instant};

type Check = Box<dyn Fn(usize) -> Result<Tally, String> + Sync>;

/// Tests of one sort.
struct Family {
    name: &'static str,
    cases: usize,
    check: Check,
    /// The answers that these tests have to meet, and those that their previews have to.
    meets: &'static [u32],
    previews: &'static [u32],
    /// Whether they have to deliver and to lose packets by draining.
    drains: bool,
    /// What they have to meet besides, by its name.
    named: Vec<&'static str>,
}

/// The scripts that the examples are.
fn examples() -> Vec<Script> {
    let folder = program::root().join("examples");
    let mut paths: Vec<_> = std::fs::read_dir(folder).unwrap().map(|entry| entry.unwrap().path()).collect();
    paths.retain(|path| path.extension().is_some_and(|end| end == "script"));
    paths.sort();
    paths.iter().map(|path| Script::of(&std::fs::read(path).unwrap()).unwrap()).collect()
}

/// New label is tried on this many random triples in a case.
const TRIPLES: usize = 10_000;

fn families() -> Vec<Family> {
    let scripts = examples();
    let [for_damage, for_memory, for_clauses, for_versions, for_limits, for_changeovers] = [(); 6].map(|()| scripts.clone());
    vec![
        Family {
            name: "labels",
            cases: 2 + 4_000_000 / TRIPLES,
            check: Box::new(|case| match case {
                0 => labels::check_cases(),
                1 => labels::check_small(),
                _ => labels::check_random(case, TRIPLES),
            }),
            meets: &[0, 1, 112, 113, 114],
            previews: &[],
            drains: false,
            named: labels::NAMED.to_vec(),
        },
        Family {
            name: "rows",
            cases: 2,
            check: Box::new(|case| if case == 0 { rows::check_all() } else { rows::check_sizes() }),
            meets: &[0, 1, 2],
            previews: &[],
            drains: false,
            named: vec![],
        },
        Family {
            name: "script-bytes",
            cases: 4 + script_bytes::CHUNKS,
            check: Box::new(|case| match case {
                0 => script_bytes::check_lengths(),
                1 => script_bytes::check_rooms(),
                2 => script_bytes::check_orders(),
                3 => script_bytes::check_each_value(),
                _ => script_bytes::check_each_byte(case - 4),
            }),
            meets: &[0, 1, 9, 10, 11, 12],
            previews: &[],
            drains: false,
            named: vec![],
        },
        Family {
            name: "networks",
            cases: 20_000,
            check: Box::new(networks::check_network),
            meets: &[0, 1, 2, 3, 4, 5, 6, 7, 8, 11, 12, 13, 14, 101, 102, 103, 104, 111, 112, 113, 114, 115, 121, 122, 123, 131, 132, 133],
            previews: &[6, 7, 12, 13, 101, 102, 103, 104, 111, 112, 113, 114, 115, 121, 122, 123],
            drains: false,
            named: [&serials::OF_CALLS[..], &limits::OF_CALLS].concat(),
        },
        Family {
            name: "drains",
            cases: 8_000,
            check: Box::new(networks::check_drain),
            meets: &[0, 4, 7, 8, 13],
            previews: &[],
            drains: true,
            named: vec![serials::DRAIN, limits::DRAIN],
        },
        Family {
            name: "runs",
            cases: runs::CASES,
            check: Box::new(runs::check),
            meets: &[
                0, 1, 2, 3, 4, 5, 6, 7, 8, 9, 10, 11, 12, 13, 14, 101, 102, 103, 104, 111, 112, 113, 114, 115, 121, 122, 123, 131, 132, 133,
            ],
            previews: &[1],
            drains: false,
            named: vec![runs::HIGHER, runs::NO_HIGHER],
        },
        Family {
            name: "memory-lengths",
            cases: 300,
            check: Box::new(networks::check_lengths),
            meets: &[0, 1],
            previews: &[1, 6],
            drains: false,
            named: vec![],
        },
        Family {
            name: "versions",
            cases: 512,
            check: Box::new(move |case| versions::check(case, &for_versions)),
            meets: &[0, 1],
            previews: &[1],
            drains: false,
            named: vec![],
        },
        Family {
            name: "broken-clauses",
            cases: 2_000,
            check: Box::new(move |case| damage::check_clauses(case, &for_clauses)),
            meets: &[1],
            previews: &[1],
            drains: false,
            named: vec![],
        },
        Family {
            name: "damaged-memory",
            cases: 12_000,
            check: Box::new(move |case| damage::check_bytes(case, &for_memory)),
            meets: &[0, 1, 2, 6],
            previews: &[1, 6, 101, 102, 103, 111, 112, 113, 115, 121, 122, 123],
            drains: false,
            named: vec![],
        },
        Family {
            name: "damaged-scripts",
            cases: 600,
            check: Box::new(move |case| script_bytes::check_damaged(case, &for_damage)),
            meets: &[0, 1, 9, 10, 11],
            previews: &[],
            drains: false,
            named: vec![],
        },
        Family {
            name: "scripts",
            cases: 2_520,
            check: Box::new(move |case| scripts::check(&scripts::script_of(case, &scripts), &mut Random::new(!case as u64))),
            meets: &[0, 2, 3, 4, 5, 6, 7, 101, 102, 103, 104, 111, 112, 114, 115, 121, 122, 123, 131, 132],
            previews: &[6, 7, 12, 101, 102, 103, 104, 111, 112, 114, 115, 121, 122, 123],
            drains: true,
            named: vec![serials::LOWER, serials::HIGHER, changeover::OTHER_SPLIT],
        },
        Family {
            name: "limits",
            cases: 2_520,
            check: Box::new(move |case| limits::check(&scripts::script_of(case, &for_limits), &mut Random::new(!case as u64))),
            meets: &[0, 2, 3, 4, 5, 6, 7, 101, 102, 103, 104, 111, 112, 114, 115, 121, 122, 123, 131, 132],
            previews: &[],
            drains: false,
            named: vec![limits::OF_128, limits::OF_ANOTHER, limits::NOT_REACHED],
        },
        Family {
            name: "changeovers",
            cases: 1_600,
            check: Box::new(move |case| changeover::check(case, &for_changeovers)),
            meets: &[0, 2, 3, 4, 5, 6, 7, 101, 102, 103, 104, 111, 112, 114, 115, 121, 122, 123, 131, 132],
            previews: &[],
            drains: true,
            named: changeover::NAMED.to_vec(),
        },
    ]
}

/// One case, also where the Rust build stops.
fn check_case(family: &Family, case: usize) -> Result<Tally, String> {
    catch_unwind(AssertUnwindSafe(|| (family.check)(case))).unwrap_or_else(|_| Err("the Rust build stopped".into()))
}

/// All cases of a family, on every processor; says on standard error how far it is.
fn check_family(family: &Family) -> Result<Tally, (usize, String)> {
    let all = Mutex::new(Tally::default());
    let failures = Mutex::new(Vec::new());
    let (next, done, calls, over) = (AtomicUsize::new(0), AtomicUsize::new(0), AtomicU64::new(0), AtomicBool::new(false));
    let work = || loop {
        let case = next.fetch_add(1, Relaxed);
        if case >= family.cases || over.load(Relaxed) {
            break;
        }
        match check_case(family, case) {
            Ok(tally) => {
                done.fetch_add(1, Relaxed);
                calls.fetch_add(tally.calls, Relaxed);
                all.lock().unwrap().add(&tally);
            }
            Err(what) => {
                failures.lock().unwrap().push((case, what));
                over.store(true, Relaxed);
            }
        }
    };
    std::thread::scope(|scope| {
        let workers = std::thread::available_parallelism().map_or(1, usize::from);
        let working: Vec<_> = (0..workers).map(|_| scope.spawn(work)).collect();
        let mut told = Instant::now();
        while working.iter().any(|worker| !worker.is_finished()) {
            std::thread::sleep(Duration::from_millis(20));
            if told.elapsed() > Duration::from_secs(5) {
                told = Instant::now();
                eprintln!("differential: {}: {} of {} cases, {} calls", family.name, done.load(Relaxed), family.cases, calls.load(Relaxed));
            }
        }
    });
    match failures.into_inner().unwrap().into_iter().min_by_key(|failure| failure.0) {
        Some(failure) => Err(failure),
        None => Ok(all.into_inner().unwrap()),
    }
}

/// How often each family met each answer, and all together.
fn print_met(title: &str, met: &[(&Family, [u64; ANSWERS])]) {
    let names: String = met.iter().map(|(family, _)| format!(" {:>15}", family.name)).collect();
    println!("{title:>7}{names} {:>15}", "all");
    for answer in 0..ANSWERS {
        let met: Vec<u64> = met.iter().map(|(_, met)| met[answer]).collect();
        let all: u64 = met.iter().sum();
        if all > 0 {
            let numbers: String = met.iter().map(|number| format!(" {number:>15}")).collect();
            println!("{answer:>7}{numbers} {all:>15}");
        }
    }
}

/// The answers that had to be met and were not.
fn missed<'a>(to_meet: &'a [u32], met: &'a [u64; ANSWERS]) -> impl Iterator<Item = u32> + 'a {
    to_meet.iter().copied().filter(|&answer| met[answer as usize] == 0)
}

/// These families.
fn check_all(families: &[Family]) -> ExitCode {
    let mut tallies = Vec::new();
    for family in families {
        let began = Instant::now();
        match check_family(family) {
            Ok(tally) => {
                println!(
                    "differential: {}: {} cases, {} calls, {:.1} s",
                    family.name,
                    family.cases,
                    tally.calls,
                    began.elapsed().as_secs_f64()
                );
                tallies.push((family, tally));
            }
            Err((case, what)) => return failed(family, case, &what),
        }
    }
    let met: Vec<_> = tallies.iter().map(|(family, tally)| (*family, tally.met)).collect();
    print_met("answer", &met);
    let previewed = tallies.iter().filter(|(family, _)| !family.previews.is_empty());
    let previewed: Vec<_> = previewed.map(|(family, tally)| (*family, tally.previewed)).collect();
    print_met("preview", &previewed);
    let mut code = ExitCode::SUCCESS;
    for (family, tally) in &tallies {
        if family.drains {
            println!("differential: {} drained {} packets by delivery and {} by loss", family.name, tally.deliveries, tally.losses);
        }
        if family.drains && (tally.deliveries == 0 || tally.losses == 0) {
            println!("differential: {} drained no packet by one of the two", family.name);
            code = ExitCode::FAILURE;
        }
        for answer in missed(family.meets, &tally.met) {
            println!("differential: {} never met answer {answer}", family.name);
            code = ExitCode::FAILURE;
        }
        for answer in missed(family.previews, &tally.previewed) {
            println!("differential: {} never met answer {answer} by a preview", family.name);
            code = ExitCode::FAILURE;
        }
        for name in &family.named {
            let times = tally.named.get(name).copied().unwrap_or(0);
            println!("differential: {} met {times} times: {name}", family.name);
            if times == 0 {
                code = ExitCode::FAILURE;
            }
        }
    }
    code
}

fn failed(family: &Family, case: usize, what: &str) -> ExitCode {
    println!("differential: FAILED\n{what}\nagain: tests/differential/run {} {case}", family.name);
    ExitCode::FAILURE
}

/// One case again.
fn check_again(name: &str, case: &str) -> ExitCode {
    let families = families();
    let family = families.iter().find(|family| family.name == name);
    let (Some(family), Ok(case)) = (family, case.parse()) else { return usage() };
    match check_case(family, case) {
        Ok(tally) => {
            println!("differential: {name} {case}: {} calls, nothing differs", tally.calls);
            ExitCode::SUCCESS
        }
        Err(what) => failed(family, case, &what),
    }
}

/// The bytes that hexadecimal digits say, spaces between them or not.
fn bytes_of(hex: &str) -> Option<Vec<u8>> {
    let digits: Vec<u32> = hex.chars().filter(|digit| !digit.is_whitespace()).map(|digit| digit.to_digit(16)).collect::<Option<_>>()?;
    (digits.len().is_multiple_of(2)).then(|| digits.chunks(2).map(|pair| (16 * pair[0] + pair[1]) as u8).collect())
}

/// One script again: what both builds print of it, and what differs.
fn check_script(hex: &str) -> ExitCode {
    let Some(bytes) = bytes_of(hex) else { return usage() };
    print!("{}", String::from_utf8_lossy(&reference::printout::rehearse(&bytes)));
    let checked = match Script::of(&bytes) {
        Ok(script) => {
            let checked = scripts::check(&script, &mut Random::new(0)).and_then(|_| scripts::check_previews(&script));
            checked.and_then(|()| limits::check(&script, &mut Random::new(0)).map(|_| ()))
        }
        Err(_) => scripts::check_program(&bytes),
    };
    match checked {
        Ok(()) => {
            println!("differential: nothing differs");
            ExitCode::SUCCESS
        }
        Err(what) => {
            println!("differential: FAILED\n{what}");
            ExitCode::FAILURE
        }
    }
}

fn usage() -> ExitCode {
    eprintln!("usage: differential [FAMILY [CASE] | script HEX..]");
    ExitCode::from(2)
}

fn main() -> ExitCode {
    let arguments: Vec<String> = std::env::args().skip(1).collect();
    match arguments.iter().map(String::as_str).collect::<Vec<_>>()[..] {
        [] => check_all(&families()),
        ["script", ref hex @ ..] => check_script(&hex.concat()),
        [name] => match families().iter().position(|family| family.name == name) {
            Some(at) => check_all(&families()[at..=at]),
            None => usage(),
        },
        [name, case] => check_again(name, case),
        _ => usage(),
    }
}
