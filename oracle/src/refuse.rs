//! Document 01's refusals in plain words, with eleven counts, with edges and loops in two calls, with PLY files, and with packs, as document 02 has them: the
//! number and place that a call must give back, or nothing if it must accept. Written from the documents alone, so that it shares nothing with the library.

use crate::case::{Call, Case, MOST_FACES, MOST_MESHES, MOST_PATCHES, MOST_POINTS, NO_PATCH, REPORT};
use crate::ply::{self, Parts};
use std::collections::BTreeMap;

type Refusal = Option<(u32, u64)>;

/// The first refusal in document 01's order: 1, 2, 3, 4, 5, 9, 10, 6, 7, 8; of a PLY file 13, 2, 14, 4, 5, 6; of a pack as a whole 1, 2, 3, 6. (11 belongs to
/// the program.)
pub fn refusal(case: &Case) -> Refusal {
    if case.call == Call::ReadPly {
        return uncounted(case).or_else(|| content(case)).or_else(|| room(case));
    }
    if case.call == Call::RepairPanel {
        return rows(case).or_else(|| many(case)).or_else(|| setting(case)).or_else(|| room(case));
    }
    length(case)
        .or_else(|| size(case))
        .or_else(|| setting(case))
        .or_else(|| point(&case.points))
        .or_else(|| corner(&case.faces, case.p()))
        .or_else(|| label(case))
        .or_else(|| label_count(case))
        .or_else(|| room(case))
        .or_else(|| crowded(case))
        .or_else(|| boundary(case))
}

/// 1: points or faces length no multiple of 3, or not eleven counts.
fn length(case: &Case) -> Refusal {
    if case.call == Call::Line {
        return (case.counts.len() != REPORT).then_some((1, 2));
    }
    if case.call != Call::Check && case.points.len() % 3 != 0 {
        return Some((1, 0));
    }
    (case.faces.len() % 3 != 0).then_some((1, 1))
}

/// 1 of a pack: rows that differ in length, or counts that, times 3, do not add up to the points or the faces.
pub fn rows(case: &Case) -> Refusal {
    let add_up = |counts: &[u32], entries: usize| counts.iter().map(|&count| 3 * count as u128).sum::<u128>() == entries as u128;
    if case.point_counts.len() != case.face_counts.len() || !add_up(&case.point_counts, case.points.len()) {
        return Some((1, 0));
    }
    (!add_up(&case.face_counts, case.faces.len())).then_some((1, 1))
}

/// 2 of a pack: too many meshes.
pub fn many(case: &Case) -> Refusal {
    (case.point_counts.len() > MOST_MESHES).then_some((2, 0))
}

/// What a mesh of a pack is refused for by itself: 2, 4 or 5.
pub fn alone(mesh: &Case) -> Refusal {
    size(mesh).or_else(|| point(&mesh.points)).or_else(|| corner(&mesh.faces, mesh.p()))
}

/// 2: P, F or the patch count too large.
fn size(case: &Case) -> Refusal {
    if case.p() > MOST_POINTS {
        return Some((2, 0));
    }
    if case.f() > MOST_FACES {
        return Some((2, 1));
    }
    (case.patch_count > MOST_PATCHES).then_some((2, 2))
}

/// 3: s not in 0..1, or options above 63.
pub fn setting(case: &Case) -> Refusal {
    if case.call != Call::Repair && case.call != Call::RepairPanel {
        return None;
    }
    if !(0.0 <= case.threshold && case.threshold <= 1.0) {
        return Some((3, 0));
    }
    (case.options > 63).then_some((3, 1))
}

/// 4: a coordinate that is not finite or above 2^100 in magnitude.
fn point(points: &[f64]) -> Refusal {
    let outside = |x: &f64| x.is_nan() || x.abs() > 2f64.powi(100);
    points.iter().position(outside).map(|i| (4, i as u64 / 3))
}

/// 5: a corner that is no point.
fn corner(faces: &[u32], p: u64) -> Refusal {
    faces.iter().position(|&v| v as u64 >= p).map(|i| (5, i as u64 / 3))
}

/// 13, a PLY file that is not of the form, and 2: what the call that counts refuses too.
pub fn uncounted(case: &Case) -> Refusal {
    if ply::form(&case.file).is_none() { Some((13, 0)) } else { size(case) }
}

/// Of a PLY file of the form 14, a face whose count is not 3, and then 4 and 5; a negative corner is one above every point.
fn content(case: &Case) -> Refusal {
    let parts = Parts::of(&case.file).expect("a file of the form");
    let triple = parts.counts().position(|count| count != 3).map(|i| (14, i as u64));
    triple.or_else(|| point(&parts.points())).or_else(|| corner(&parts.corners(), case.p()))
}

/// 4 before 14: what a call gives that looks at the vertices first.
pub fn vertices_first(case: &Case) -> Refusal {
    point(&Parts::of(&case.file)?.points())
}

/// 9: a label that is neither `NO_PATCH` nor below the patch count.
fn label(case: &Case) -> Refusal {
    case.labels.iter().position(|&label| label != NO_PATCH && label as u64 >= case.patch_count).map(|i| (9, i as u64))
}

/// 10: number of labels differs from F.
fn label_count(case: &Case) -> Refusal {
    (case.call == Call::Patches && case.labels.len() as u64 != case.f()).then_some((10, 0))
}

/// 6: a room too short.
pub fn room(case: &Case) -> Refusal {
    let lengths = case.lengths();
    case.stated().iter().zip(lengths).position(|(&(_, stated), length)| (length as u128) < stated).map(|k| (6, k as u64))
}

/// The three steps of a face in the order in which the edge call lists them.
fn steps(face: [u32; 3]) -> [(u32, u32); 3] {
    let [a, b, c] = face;
    [(b, c), (c, a), (a, b)]
}

/// How often each undirected edge occurs.
fn occurrences(case: &Case) -> BTreeMap<(u32, u32), usize> {
    let mut times = BTreeMap::new();
    for (a, b) in case.triples().into_iter().flat_map(steps) {
        *times.entry((a.min(b), a.max(b))).or_default() += 1;
    }
    times
}

/// 7: the edge call and the loop call, some edge occurs more than twice.
fn crowded(case: &Case) -> Refusal {
    if case.call != Call::Edges && case.call != Call::Loops {
        return None;
    }
    occurrences(case).values().position(|&times| times > 2).map(|i| (7, i as u64))
}

/// 8: the loop call alone, the boundary is not simple.
fn boundary(case: &Case) -> Refusal {
    if case.call != Call::Loops {
        return None;
    }
    fault(case).map(|v| (8, v))
}

/// The lowest vertex that does not begin as many boundary edges as it ends, or begins more than one; nothing where the boundary is simple.
pub fn fault(case: &Case) -> Option<u64> {
    let times = occurrences(case);
    let mut ends: BTreeMap<u32, (usize, usize)> = BTreeMap::new();
    for (a, b) in case.triples().into_iter().flat_map(steps) {
        if times[&(a.min(b), a.max(b))] == 1 {
            ends.entry(a).or_default().0 += 1;
            ends.entry(b).or_default().1 += 1;
        }
    }
    ends.into_iter().find(|&(_, (begun, ended))| begun != ended || begun > 1).map(|(v, _)| v as u64)
}
