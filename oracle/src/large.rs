//! One large mesh with the defects of a scan, through repair, edges, loops, check, patches and PLY files: every room compared once. And PLY files of as many
//! points and of as many faces as there may be, and packs in which a mesh has one more.

use crate::case::{Call, Case, Filter, MOST_FACES, MOST_POINTS, Room};
use crate::meshes::{self, Mesh};
use crate::ply::Parts;
use crate::random::Random;
use crate::tally::Tally;
use crate::{compare, generate, here, keys, pack, there};
use std::process::ExitCode;

/// A grid of about so many faces, of which one in a hundred has a defect: turned, written twice, on a crowded edge, left out, flattened,
/// or meeting another part of the grid in a point.
pub fn scanned(faces: usize, random: &mut Random) -> Mesh {
    let side = ((faces as f64 / 2.0).sqrt() as usize).max(1);
    let mut mesh = meshes::grid(faces.div_ceil(2 * side), side);
    let count = mesh.points.len();
    let mut list = Vec::with_capacity(faces);
    for mut face in mesh.faces {
        let other = random.below(count) as u32;
        match random.below(700) {
            0 => face.swap(1, 2),
            1 => list.push([face[1], face[2], face[0]]),
            2 => list.push([face[0], face[1], other]),
            3 => continue,
            4 => face[2] = face[1],
            5 => face[0] = other,
            6 => mesh.points[face[0] as usize] = mesh.points[face[1] as usize],
            _ => {}
        }
        list.push(face);
    }
    list.truncate(faces);
    mesh.faces = list;
    mesh
}

/// The mesh as a call takes it, with dirty rooms; where the options are odd the work room is clean.
pub fn asked(call: Call, points: &[f64], faces: &[u32], options: u32) -> Case {
    let mut case = Case::new(call);
    case.point_count = points.len() as u64 / 3;
    case.points = if call == Call::Check { vec![] } else { points.to_vec() };
    case.faces = faces.to_vec();
    if call == Call::ReadPly {
        case.file = Parts::new(points, faces).file();
        (case.points, case.faces) = (vec![], vec![]);
    }
    case.threshold = generate::degenerate_sin();
    case.options = options;
    if call == Call::Patches {
        let f = faces.len() / 3;
        case.patch_count = 1000;
        case.labels = (0..f).map(|i| (i * 1000 / f) as u32).collect();
        case.filter = Filter { set: 31, min_faces: 2, reals: [0.0, 0.0, 0.01], keep_largest_n: 500 };
    }
    lend(&mut case);
    case
}

/// Makes the rooms longer than stated and dirty; where the options are odd the work room is clean.
fn lend(case: &mut Case) {
    let last = case.rooms.len() - 1;
    for (k, room) in case.rooms.iter_mut().enumerate() {
        let dirt = if k == last && case.options % 2 == 1 { 0 } else { 7 + k as u64 };
        *room = Room { extra: 5, most: 1 << 28, dirt, front: 0 };
    }
}

/// A pack of so many scans of so many faces in all, with dirty rooms, and between them a mesh that has one point too many, or one face.
fn packed(scans: usize, faces: usize, options: u32, of_points: bool) -> Case {
    let whole = keys::packed(scans, faces, "scan").expect("a shape");
    let (points, faces) = if of_points { (MOST_POINTS + 1, 0) } else { (1, MOST_FACES + 1) };
    let too_large = Case { points: vec![0.0; 3 * points as usize], faces: vec![0; 3 * faces as usize], ..Case::new(Call::Repair) };
    let mut meshes = pack::meshes(&whole);
    meshes.insert(scans / 2, too_large);
    let mut case = Case { options, threshold: whole.threshold, ..Case::new(Call::RepairPanel) };
    meshes.iter().for_each(|mesh| pack::add(&mut case, mesh));
    lend(&mut case);
    case
}

/// Whether a case is the same in the library and in the Rust; says how large it was.
fn same(case: &Case) -> bool {
    let wanted = there::outcome(case);
    let what = compare::difference(case, &wanted, None);
    let end = if wanted.number == 0 { "accepted".to_string() } else { format!("refused {}", wanted.number) };
    let (call, options, p, f) = (case.call.name(), case.options, case.p(), case.f());
    println!("{call} with options {options}, P = {p}, F = {f}, {end}: {}", what.as_deref().unwrap_or("the same"));
    if case.call == Call::RepairPanel {
        let mut tally = Tally::default();
        tally.add(case, &wanted);
        println!("{}", tally.of_packs());
    }
    what.is_none()
}

/// Edges and loops, with a zero and with a dirty work room.
const LISTED: [(Call, u32); 4] = [(Call::Edges, 1), (Call::Edges, 0), (Call::Loops, 1), (Call::Loops, 0)];

/// The large mesh through each call that the library has; edges, loops and check of the mended one, and of one that keeps its bowties.
pub fn run(faces: usize) -> ExitCode {
    let mesh = scanned(faces, &mut Random::new(1));
    let points: Vec<f64> = mesh.points.into_iter().flatten().collect();
    let triples: Vec<u32> = mesh.faces.into_iter().flatten().collect();
    let mut all = true;
    for options in [63, 55, 0] {
        all &= same(&asked(Call::Repair, &points, &triples, options));
    }
    let (tied_points, tied_triples, _) = there::mended(&asked(Call::Repair, &points, &triples, 55));
    let (points, triples, counts) = there::mended(&asked(Call::Repair, &points, &triples, 63));
    println!("report {counts:?}");
    for (call, options) in LISTED.into_iter().chain([(Call::Check, 0), (Call::Patches, 0)]) {
        all &= !here::has(call) || same(&asked(call, &points, &triples, options));
    }
    let (most_points, most_faces) = ((vec![-0.0; 3 * MOST_POINTS as usize], vec![]), (vec![1.0; 9], vec![2; 3 * MOST_FACES as usize]));
    for (points, triples) in [(&points, &triples), (&most_points.0, &most_points.1), (&most_faces.0, &most_faces.1)] {
        for call in [Call::WritePly, Call::ReadPly] {
            all &= !here::has(call) || same(&asked(call, points, triples, 0));
        }
    }
    for (scans, options, of_points) in [(40, 63, true), (4, 62, false)] {
        all &= !here::has(Call::RepairPanel) || same(&packed(scans, scans * (faces / 80), options, of_points));
    }
    println!("with its bowties");
    for (call, options) in LISTED.into_iter().chain([(Call::Check, 1), (Call::Check, 0)]) {
        all &= !here::has(call) || same(&asked(call, &tied_points, &tied_triples, options));
    }
    if all { ExitCode::SUCCESS } else { ExitCode::from(1) }
}
