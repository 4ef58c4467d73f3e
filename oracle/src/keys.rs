//! Times of a pack of keys: one call for all of them, a call for each, and the Rust's for each, by turns in one run.

use crate::case::{Call, Case};
use crate::here::{self, Inputs};
use crate::lent::Lent;
use crate::time::{mallopt, milliseconds};
use crate::{generate, pack, shapes, there};
use std::process::ExitCode;

/// How many turns are taken: they are short.
const TURNS: usize = 15;

/// A pack of so many keys of a shape, with about so many faces in all.
pub fn packed(keys: usize, faces: usize, shape: &str) -> Option<Case> {
    let mut packed = Case { threshold: generate::degenerate_sin(), options: 63, ..Case::new(Call::RepairPanel) };
    for k in 0..keys {
        let mesh = shapes::key(shape, faces / keys, k as u64)?;
        pack::add(&mut packed, &Case { points: mesh.points.concat(), faces: mesh.faces.concat(), ..Case::new(Call::Repair) });
    }
    Some(packed)
}

/// Calls of the library, one after the other, each with its input and its rooms.
struct Calls(Vec<(Case, Inputs, Vec<Lent>)>);

/// The rooms of a case, just large enough, all zero.
fn rooms(case: &Case) -> Vec<Lent> {
    case.stated().into_iter().map(|(size, stated)| Lent::bare(size, stated as usize)).collect()
}

impl Calls {
    /// The calls with rooms of their own.
    fn new(cases: Vec<Case>) -> Self {
        let lend = |case: Case| {
            let (input, rooms) = (Inputs::new(&case), rooms(&case));
            (case, input, rooms)
        };
        Calls(cases.into_iter().map(lend).collect())
    }

    /// The same calls with new rooms for each.
    fn new_rooms(&mut self) -> &mut Self {
        self.0.iter_mut().for_each(|(case, _, lent)| *lent = rooms(case));
        self
    }

    /// How long all take, each in its own rooms.
    fn own(&mut self) -> f64 {
        milliseconds(|| self.0.iter_mut().for_each(|(case, input, lent)| call(case, input, lent)))
    }

    /// How long all take, each in its own rooms but with one work room for all.
    fn one_work(&mut self, work: &mut Lent) -> f64 {
        milliseconds(|| {
            for (case, input, lent) in &mut self.0 {
                let last = lent.len() - 1;
                std::mem::swap(&mut lent[last], work);
                call(case, input, lent);
                std::mem::swap(&mut lent[last], work);
            }
        })
    }

    /// How long all take in the same rooms.
    fn same(&mut self, lent: &mut [Lent]) -> f64 {
        milliseconds(|| self.0.iter_mut().for_each(|(case, input, _)| call(case, input, lent)))
    }
}

/// One call of the library.
fn call(case: &Case, input: &mut Inputs, lent: &mut [Lent]) {
    here::run(case, input, lent).expect("the library has the call");
}

/// Rooms that are large enough for each of the cases.
fn largest(cases: &[Case]) -> Vec<Lent> {
    let stated = |k: usize| cases.iter().map(|case| case.stated()[k].1 as usize).max().unwrap_or(0);
    Case::new(Call::Repair).stated().into_iter().enumerate().map(|(k, (size, _))| Lent::bare(size, stated(k))).collect()
}

/// The one in the middle.
fn middle(mut times: Vec<f64>) -> f64 {
    times.sort_by(f64::total_cmp);
    times[times.len() / 2]
}

/// The times of one turn, which begins with another run than the turn before.
fn turned(turn: usize, runs: &mut [&mut dyn FnMut() -> f64]) -> Vec<f64> {
    let (count, mut times) = (runs.len(), vec![0.0; runs.len()]);
    (turn..turn + count).for_each(|i| times[i % count] = runs[i % count]());
    times
}

/// Takes the runs by turns, the first turn not timed, and prints the median of each in milliseconds, and then those of the first one's ratio to each other.
fn by_turns(runs: &mut [&mut dyn FnMut() -> f64]) {
    let turns: Vec<Vec<f64>> = (0..=TURNS).map(|turn| turned(turn, runs)).skip(1).collect();
    let times = (0..runs.len()).map(|k| middle(turns.iter().map(|turn| turn[k]).collect()));
    let ratios = (1..runs.len()).map(|k| middle(turns.iter().map(|turn| turn[0] / turn[k]).collect()));
    println!("{}", times.chain(ratios).map(|x| format!("{x:.6}")).collect::<Vec<String>>().join(" "));
}

/// One call for a pack, a call for each of its meshes, and, where rooms are reused, the Rust's for each. The way in which rooms are lent is reused, as the turn
/// before left them, where the calls have answer rooms of their own and one work room; same, where the calls have one set of rooms, so that each answer takes
/// the place of the one before; or fresh, new from the system for each call.
pub fn run(keys: usize, faces: usize, shape: &str, way: &str) -> ExitCode {
    let Some(packed) = packed(keys, faces, shape).filter(|_| ["reused", "same", "fresh"].contains(&way)) else {
        eprintln!("oracle: --keys takes a number of keys, a number of faces in all, a shape of --shapes, and reused, same or fresh");
        return ExitCode::from(2);
    };
    if way == "fresh" {
        // New rooms then come from the system at almost every size, and what that takes is counted. The Rust would get its memory so too.
        unsafe { mallopt(-3, 1 << 12) };
    }
    let meshes = pack::meshes(&packed);
    let (mut shared, mut work) = (largest(&meshes), Lent::bare(4, packed.stated()[5].1 as usize));
    let (mut one, mut each) = (Calls::new(vec![packed.clone()]), Calls::new(meshes));
    match way {
        "reused" => {
            there::time(&packed, |rust| by_turns(&mut [&mut || one.own(), &mut || each.one_work(&mut work), &mut || milliseconds(&mut *rust)]))
        }
        "same" => by_turns(&mut [&mut || one.own(), &mut || each.same(&mut shared)]),
        _ => by_turns(&mut [&mut || one.new_rooms().own(), &mut || each.new_rooms().own()]),
    }
    ExitCode::SUCCESS
}
