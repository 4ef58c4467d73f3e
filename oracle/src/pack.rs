//! Packs: the points and faces of many meshes one after another, with rows of how many of them each mesh has.

use crate::case::{Call, Case};
use std::ops::Range;

/// The entries that each count takes, three for each that is counted; where the counts do not add up, as far as there are entries.
fn spans(counts: &[u32], entries: usize) -> Vec<Range<usize>> {
    let mut end = 0;
    let mut span = |&count: &u32| {
        let start = end;
        end = entries.min(start + 3 * count as usize);
        start..end
    };
    counts.iter().map(&mut span).collect()
}

/// How many meshes a pack has; where its rows differ in length, as many as both tell.
pub fn count(case: &Case) -> usize {
    case.point_counts.len().min(case.face_counts.len())
}

/// The meshes of a pack, each as a repair of its own with the settings of the pack.
pub fn meshes(case: &Case) -> Vec<Case> {
    let (points, faces) = (spans(&case.point_counts, case.points.len()), spans(&case.face_counts, case.faces.len()));
    let own = |(points, faces): (Range<usize>, Range<usize>)| Case {
        points: case.points[points].to_vec(),
        faces: case.faces[faces].to_vec(),
        threshold: case.threshold,
        options: case.options,
        ..Case::new(Call::Repair)
    };
    points.into_iter().zip(faces).map(own).collect()
}

/// Puts a mesh behind those of a pack.
pub fn add(case: &mut Case, mesh: &Case) {
    case.points.extend(&mesh.points);
    case.faces.extend(&mesh.faces);
    case.point_counts.push(mesh.p() as u32);
    case.face_counts.push(mesh.f() as u32);
}

/// The pack with another mesh in a place. A count that was too large or too small stays so by as much.
pub fn with(case: &Case, k: usize, mesh: &Case) -> Case {
    let mut pack = case.clone();
    let (points, faces) = (spans(&case.point_counts, case.points.len())[k].clone(), spans(&case.face_counts, case.faces.len())[k].clone());
    let recount = |count: u32, old: usize, new: usize| count.wrapping_sub(old as u32 / 3).wrapping_add(new as u32 / 3);
    pack.point_counts[k] = recount(case.point_counts[k], points.len(), mesh.points.len());
    pack.face_counts[k] = recount(case.face_counts[k], faces.len(), mesh.faces.len());
    pack.points.splice(points, mesh.points.iter().copied());
    pack.faces.splice(faces, mesh.faces.iter().copied());
    pack
}

/// Leaves out the meshes from one place up to another.
pub fn leave(case: &mut Case, from: usize, to: usize) {
    let (points, faces) = (spans(&case.point_counts, case.points.len()), spans(&case.face_counts, case.faces.len()));
    case.points.drain(points[from].start..points[to - 1].end);
    case.faces.drain(faces[from].start..faces[to - 1].end);
    case.point_counts.drain(from..to);
    case.face_counts.drain(from..to);
}
