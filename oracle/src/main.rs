//! Compares the library's calls with the Rust: `oracle [--seed N] [--cases N] [--call NAME] [--show N]`, `oracle --self-test`,
//! `oracle --time CALL FACES [SHAPE [WAY]]`, `oracle --keys KEYS FACES SHAPE WAY`, `oracle --shapes`, `oracle --write SHAPE FACES FILE`, `oracle --large FACES`,
//! `oracle --planted MESHES`, `oracle --recorded CASES ANSWERS`.

mod case;
mod compare;
mod damage;
mod defects;
mod fallen;
mod fault;
mod generate;
mod here;
mod keys;
mod large;
mod lent;
mod meshes;
mod origins;
mod pack;
mod pack_fault;
mod places;
mod planted;
mod ply;
mod print;
mod random;
mod recorded;
mod refuse;
mod self_test;
mod shapes;
mod shrink;
mod tally;
mod there;
mod time;
mod write;

use case::{CALLS, Call, Case};
use fault::Fault;
use std::ops::Range;
use std::process::ExitCode;
use std::time::Instant;
use tally::Tally;

struct Settings {
    seed: u64,
    cases: u64,
    calls: Vec<Call>,
    show: Option<u64>,
}

/// The first case that differs, with its number, and the smallest one found from it.
pub struct Found {
    number: u64,
    case: Case,
    what: String,
}

fn main() -> ExitCode {
    let words: Vec<String> = std::env::args().skip(1).collect();
    let words: Vec<&str> = words.iter().map(String::as_str).collect();
    match words[..] {
        ["--self-test"] => self_test::run(),
        ["--time", call, faces] => time::run(call, faces.parse().expect("a number of faces"), "grid"),
        ["--time", call, faces, shape] => time::run(call, faces.parse().expect("a number of faces"), shape),
        ["--time", call, faces, shape, way] => time::one(call, faces.parse().expect("a number of faces"), shape, way),
        ["--keys", keys, faces, shape, way] => {
            keys::run(keys.parse().expect("a number of keys"), faces.parse().expect("a number of faces"), shape, way)
        }
        ["--shapes"] => time::shapes(),
        ["--write", shape, faces, file] => write::run(shape, faces.parse().expect("a number of faces"), file),
        ["--large", faces] => large::run(faces.parse().expect("a number of faces")),
        ["--planted", meshes] => planted::run(meshes.parse().expect("a number of meshes")),
        ["--recorded", cases, answers] => recorded::run(cases, answers),
        _ => match settings(&words) {
            Some(settings) => compare_all(&settings),
            None => {
                eprintln!(
                    "usage: oracle [--seed N] [--cases N] [--call NAME] [--show N] | --self-test | --time CALL FACES [SHAPE [WAY]] | --keys KEYS FACES SHAPE WAY | --shapes | --write SHAPE FACES FILE | --large FACES | --planted MESHES | --recorded CASES ANSWERS"
                );
                ExitCode::from(2)
            }
        },
    }
}

/// What the words ask for; nothing if they are not understood.
fn settings(words: &[&str]) -> Option<Settings> {
    let mut settings = Settings { seed: 1, cases: 300_000, calls: CALLS.to_vec(), show: None };
    for pair in words.chunks(2) {
        match pair {
            ["--seed", n] => settings.seed = n.parse().ok()?,
            ["--cases", n] => settings.cases = n.parse().ok()?,
            ["--show", n] => settings.show = Some(n.parse().ok()?),
            ["--call", name] => settings.calls = vec![call_named(name)?],
            _ => return None,
        }
    }
    Some(settings)
}

/// The call of that name.
pub fn call_named(name: &str) -> Option<Call> {
    CALLS.into_iter().find(|call| call.name() == name)
}

/// How many cases a call gets. Where all calls are run the packs take theirs from the repair's: each of their meshes is one.
fn share(settings: &Settings, call: Call) -> u64 {
    match call {
        Call::Repair if settings.calls.len() > 1 => settings.cases - settings.cases / 2,
        Call::RepairPanel if settings.calls.len() > 1 => settings.cases / 16,
        _ => settings.cases,
    }
}

/// Runs every call's cases, and stops at the first difference.
fn compare_all(settings: &Settings) -> ExitCode {
    fallen::watch();
    for &call in &settings.calls {
        if let Some(number) = settings.show {
            print!("{}", print::shown(&generate::case(call, settings.seed, number)));
            continue;
        }
        let (start, mut tally, cases) = (Instant::now(), Tally::default(), share(settings, call));
        let found = first(call, settings.seed, 0..cases, None, &mut tally);
        let seconds = start.elapsed().as_secs_f64();
        let compared = if here::has(call) { "compared" } else { "answered by the Rust alone: the library does not have this call yet" };
        if let Some(found) = found {
            println!("{}: case {} of seed {} differs: {}", call.name(), found.number, settings.seed, found.what);
            print!("The smallest found:\n{}", print::shown(&found.case));
            return ExitCode::from(1);
        }
        println!("{}: {cases} cases {compared}, in {seconds:.1} s\n{}", call.name(), tally.shown());
    }
    if settings.show.is_some() {
        return ExitCode::SUCCESS;
    }
    let missing: Vec<&str> = settings.calls.iter().filter(|call| !here::has(**call)).map(|call| call.name()).collect();
    if !missing.is_empty() {
        println!("not there yet and not compared: {}", missing.join(", "));
    }
    println!("oracle: no difference");
    ExitCode::SUCCESS
}

/// The first difference in a call's cases, shrunk.
pub fn first(call: Call, seed: u64, numbers: Range<u64>, fault: Option<Fault>, tally: &mut Tally) -> Option<Found> {
    let differs = |case: &Case| compare::difference(case, &there::outcome(case), fault);
    for number in numbers {
        fallen::next(call, seed, number);
        let case = generate::case(call, seed, number);
        let outcome = std::panic::catch_unwind(|| there::outcome(&case)).unwrap_or_else(|_| {
            println!("{}: the Rust fails in case {number} of seed {seed}\n{}", call.name(), print::shown(&case));
            std::process::exit(1)
        });
        tally.add(&case, &outcome);
        if compare::difference(&case, &outcome, fault).is_some() {
            let case = shrink::smallest(&case, &|case| differs(case).is_some());
            let what = differs(&case).expect("the smallest differs too");
            return Some(Found { number, case, what });
        }
    }
    None
}
