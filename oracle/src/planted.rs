//! Meshes of more than 4,096 faces with a fault planted somewhere, through the edge call, the loop call and the edge check with a zero work room, with a
//! dirty one, and with two that are zero in front: number and place of the refusal or the check's answer, and every buffer.

use crate::case::{Call, Case};
use crate::meshes::Mesh;
use crate::random::Random;
use crate::{compare, large, shapes, there};
use std::collections::BTreeMap;
use std::process::ExitCode;

/// A shape of 4,097 to 30,000 faces, every other time with points and faces in any order, and a fault or none.
fn planted(random: &mut Random) -> Mesh {
    let shape = random.choose(&["grid", "grid", "grid", "grid", "fan", "single", "strip", "apart", "pinched", "stacked", "edge", "anywhere"]);
    let mut mesh = shapes::named(shape, 4097 + random.below(26_000)).expect("a shape");
    let (i, j) = (random.below(mesh.faces.len()), random.below(mesh.faces.len()));
    let other = random.below(mesh.points.len()) as u32;
    let [a, b, c] = mesh.faces[i];
    match random.below(7) {
        0 => mesh.faces.push([a, b, other]),
        1 => mesh.faces.push([b, a, c]),
        2 => mesh.faces[i] = [a, c, b],
        3 => mesh.faces[i][2] = mesh.faces[j][0],
        4 => mesh.faces.retain(|face| !face.contains(&a)),
        5 => {
            let mut left = 2;
            mesh.faces.retain(|face| {
                left == 0 || !face.contains(&c) || {
                    left -= 1;
                    false
                }
            });
        }
        _ => {}
    }
    if random.one_in(2) { shapes::anyhow(mesh, random) } else { mesh }
}

/// The work rooms that a mesh is tried in, and what they are: zero, dirty, and zero in front, up to the end of the table or of the rows behind it, and one
/// entry less, by turns.
fn rooms(case: &Case, seed: u64) -> [(&'static str, u64, u64); 4] {
    let (table, turn) = (15 * case.f() + case.p() + 1, seed % 2);
    let rows = table + 3 * case.p();
    [("zero", 0, 0), ("dirty", 7, 0), ("zero in front", 7, table - turn), ("further zero in front", 7, rows - 1 + turn)]
}

/// The case in each of its work rooms; what differs first.
fn difference(mut case: Case, seed: u64, expected: &there::Outcome) -> Option<String> {
    let last = case.rooms.len() - 1;
    for (what, dirt, front) in rooms(&case, seed) {
        (case.rooms[last].dirt, case.rooms[last].front) = (dirt, front);
        if let Some(found) = compare::difference(&case, expected, None) {
            return Some(format!("{}, {what} work room, F = {}: {found}", case.call.name(), case.f()));
        }
    }
    None
}

/// How a call ends. A no of the edge check for groups alone is told apart.
fn end(case: &Case, outcome: &there::Outcome) -> &'static str {
    match (case.call, outcome.number) {
        (Call::Check, 0) if outcome.counts == [1] => "says yes",
        (Call::Check, 0) if there::walked_once(case) => "says no for groups alone",
        (Call::Check, 0) => "says no",
        (_, 0) => "accepts",
        (_, 7) => "refuses 7",
        (_, 8) => "refuses 8",
        _ => "refuses otherwise",
    }
}

/// The ends of the calls; each must be met.
const ENDS: [(&str, &[&str]); 3] = [
    ("edges", &["accepts", "refuses 7"]),
    ("loops", &["accepts", "refuses 7", "refuses 8"]),
    ("check", &["says yes", "says no", "says no for groups alone"]),
];

/// So many meshes; a run in which one of the ends of a call is never met fails too.
pub fn run(meshes: u64) -> ExitCode {
    let mut ends: BTreeMap<(&str, &str), usize> = ENDS.iter().flat_map(|(call, all)| all.iter().map(|end| ((*call, *end), 0))).collect();
    for seed in 0..meshes {
        let mesh = planted(&mut Random::new(seed));
        let points: Vec<f64> = mesh.points.into_iter().flatten().collect();
        let triples: Vec<u32> = mesh.faces.into_iter().flatten().collect();
        for call in [Call::Edges, Call::Loops, Call::Check] {
            let case = large::asked(call, &points, &triples, 0);
            let expected = there::outcome(&case);
            *ends.entry((call.name(), end(&case, &expected))).or_default() += 1;
            if let Some(what) = difference(case, seed, &expected) {
                println!("planted mesh {seed}, {what}");
                return ExitCode::from(1);
            }
        }
    }
    let told: Vec<String> = ends.iter().map(|((call, end), times)| format!("{call} {end} {times}")).collect();
    println!("planted meshes: {}; the same in each work room", told.join(", "));
    if ends.values().all(|&times| times > 0) { ExitCode::SUCCESS } else { ExitCode::from(1) }
}
