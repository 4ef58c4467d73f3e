//! How often each refusal and each part of an answer came up, so that a reader sees what was tried.

use crate::case::{Call, Case, MOST_MESHES, REPORT};
use crate::ply::Parts;
use crate::there::{self, Outcome};
use crate::{origins, refuse};
use std::cmp::Ordering;
use std::collections::{BTreeMap, BTreeSet};

#[derive(Default)]
pub struct Tally {
    numbers: BTreeMap<u32, usize>,
    places: BTreeMap<(u32, u32), usize>,
    things: BTreeMap<&'static str, usize>,
    rooms: BTreeMap<&'static str, usize>,
    options: BTreeSet<u32>,
    meshes: BTreeMap<u32, usize>,
}

const COUNTS: [&str; REPORT] = [
    "repeated",
    "thin",
    "duplicate",
    "edges counted in 3",
    "dropped in 3",
    "dropped in 4",
    "vertices split",
    "points added",
    "reoriented",
    "components",
    "isolated",
];

/// Entry i of a row of numbers.
fn number(row: &[u8], i: usize) -> u32 {
    u32::from_ne_bytes(row[4 * i..4 * i + 4].try_into().unwrap())
}

/// A row of numbers.
pub fn all_numbers(row: &[u8]) -> Vec<u32> {
    (0..row.len() / 4).map(|i| number(row, i)).collect()
}

/// How often there was no refusal, and each.
fn by_number(times: &BTreeMap<u32, usize>) -> String {
    let told = |(n, times): (&u32, &usize)| if *n == 0 { format!("accepted {times}") } else { format!("{n}: {times}") };
    times.iter().map(told).collect::<Vec<String>>().join(", ")
}

/// A row of floats.
fn reals(row: &[u8]) -> Vec<f64> {
    row.chunks_exact(8).map(|bytes| f64::from_ne_bytes(bytes.try_into().unwrap())).collect()
}

impl Tally {
    /// Counts one case.
    pub fn add(&mut self, case: &Case, outcome: &Outcome) {
        *self.numbers.entry(outcome.number).or_default() += 1;
        if [1, 2, 3, 6].contains(&outcome.number) {
            *self.places.entry((outcome.number, outcome.place)).or_default() += 1;
        }
        for ((_, stated), (length, room)) in case.stated().into_iter().zip(case.lengths().into_iter().zip(&case.rooms)) {
            let size = match (length as u128).cmp(&stated) {
                Ordering::Less => "short",
                Ordering::Equal => "exact",
                Ordering::Greater => "longer",
            };
            *self.rooms.entry(size).or_default() += 1;
            let held = match (room.dirt, room.front) {
                (0, _) => "clean",
                (_, 0) => "dirty",
                _ => "dirty behind zeros",
            };
            *self.rooms.entry(held).or_default() += 1;
        }
        if outcome.number == 0 {
            self.answered(case, outcome);
        }
    }

    /// Counts what an accepted case has in its answer.
    fn answered(&mut self, case: &Case, outcome: &Outcome) {
        let (rows, counts) = (&outcome.rows, &outcome.counts);
        let mut count = |name: &'static str, yes: bool| *self.things.entry(name).or_default() += yes as usize;
        match case.call {
            Call::Repair => {
                (0..REPORT).for_each(|k| count(COUNTS[k], number(&rows[2], k) > 0));
                count("repeated and thin", number(&rows[2], 0) > 0 && number(&rows[2], 1) > 0);
                count("an origin that is not its place", (0..counts[3] as usize).any(|k| number(&rows[3], k) != k as u32));
                count("several lists of origins fit", origins::only(case, &reals(&rows[0]), &all_numbers(&rows[1])).is_none());
                self.options.insert(case.options);
            }
            Call::Edges => {
                count("some edge", counts[0] > 0);
                count("a boundary that is not simple", refuse::fault(case).is_some());
            }
            Call::Loops => {
                count("no loop", counts[1] == 0);
                count("one loop", counts[1] == 1);
                count("several loops", counts[1] > 1);
                count("a loop of one vertex", (0..counts[1] as usize).any(|i| number(&rows[1], i) == i as u32 + 1));
            }
            Call::Check => {
                count("yes", counts[0] == 1);
                count("no", counts[0] == 0);
                count("no for groups alone", counts[0] == 0 && there::walked_once(case));
            }
            Call::Patches => {
                let flags: Vec<u32> = (0..counts[2] as usize).map(|i| number(&rows[2], i)).collect();
                count("some patch kept", flags.contains(&1));
                count("some patch dropped", flags.contains(&0));
                count("an empty patch", (0..flags.len()).any(|i| number(&rows[0], i) == 0));
            }
            Call::Line => {
                let sum = case.counts[0] as u64 + case.counts[1] as u64;
                let parts = (sum > 0) as usize + case.counts[2..].iter().filter(|n| **n > 0).count();
                count("nothing changed", parts == 0);
                count("one part", parts == 1);
                count("several parts", parts > 1);
                count("a sum of two counts", case.counts[0] > 0 && case.counts[1] > 0);
                count("a sum of 33 bits", sum > u32::MAX as u64);
            }
            Call::WritePly | Call::ReadPly => {
                let points = if case.call == Call::ReadPly { Parts::of(&case.file).unwrap_or_default().points() } else { case.points.clone() };
                count("no point", case.p() == 0);
                count("points and no face", case.p() > 0 && case.f() == 0);
                count("some face", case.f() > 0);
                count("ten points or faces and more", case.p() > 9 || case.f() > 9);
                count("a minus zero", points.iter().any(|x| x.to_bits() == 1 << 63));
            }
            Call::RepairPanel => {
                let refused: Vec<bool> = all_numbers(&rows[4]).chunks_exact(4).map(|mesh| mesh[0] != 0).collect();
                count("no mesh", refused.is_empty());
                count("forty meshes", refused.len() == 40);
                count("256 meshes", refused.len() == MOST_MESHES);
                count("a mesh refused", refused.contains(&true));
                count("a mesh accepted behind one that is refused", refused.iter().skip_while(|no| !**no).any(|no| !no));
                count("every mesh refused", !refused.is_empty() && !refused.contains(&false));
                all_numbers(&rows[4]).chunks_exact(4).for_each(|mesh| *self.meshes.entry(mesh[0]).or_default() += 1);
                self.options.insert(case.options);
            }
        }
    }

    /// How many packs were accepted, how many meshes these have, and how many of the meshes are accepted or refused by which number.
    pub fn of_packs(&self) -> String {
        let (packs, meshes) = (self.numbers.get(&0).unwrap_or(&0), self.meshes.values().sum::<usize>());
        format!("  packs: {packs}, with {meshes} meshes: {}", by_number(&self.meshes))
    }

    /// The counts in four lines, and a fifth where there were packs.
    pub fn shown(&self) -> String {
        let places: Vec<String> = self.places.iter().map(|((n, place), times)| format!("{n} at {place}: {times}")).collect();
        let named = |counts: &BTreeMap<&str, usize>| counts.iter().map(|(name, times)| format!("{name} {times}")).collect::<Vec<_>>().join(", ");
        let options = if self.options.is_empty() { String::new() } else { format!(", with {} different options", self.options.len()) };
        let (numbers, places, things, rooms) = (by_number(&self.numbers), places.join(", "), named(&self.things), named(&self.rooms));
        let packs = if self.meshes.is_empty() { String::new() } else { format!("\n{}", self.of_packs()) };
        format!("  {numbers}\n  by place: {places}\n  of the accepted: {things}{options}\n  rooms: {rooms}{packs}")
    }
}
