//! The Rust's answers, in the documents' form. It is asked only where document 01 accepts, or where it refuses by an error of its own. The edge check and the
//! calls for PLY files, which it does not have, are answered by the documents; so are the origins of a repair where its output does not tell them. For a pack
//! it is asked once for each mesh.

use crate::case::{Call, Case, REPORT};
use crate::ply::Parts;
use crate::time::LINES;
use crate::{origins, pack, refuse};
use engeom::edges::{MeshEdges, edge_key, naive_edges, unique_edges};
use engeom::normals::compute_face_normal;
use engeom::patches::{PatchFilter, PatchLabels, PatchStats};
use engeom::repair::{RepairOpts, RepairReport, repair_buffers};
use engeom::{Mesh3, Point3, na};
use std::collections::{BTreeMap, BTreeSet};

/// What a call must give back: number and place, the counts, and the bytes that stand in each answer room.
#[derive(Clone)]
pub struct Outcome {
    pub number: u32,
    pub place: u32,
    pub counts: Vec<u64>,
    pub rows: Vec<Vec<u8>>,
}

/// The outcome of a case: the documents' refusal, or else the Rust's answer, and for the edge check and for PLY files the documents' rule.
pub fn outcome(case: &Case) -> Outcome {
    if let Some((number, place)) = refuse::refusal(case) {
        agree(case, number, place);
        return refused(case.call, number, place);
    }
    let (counts, rows) = match case.call {
        Call::Repair => repair(case),
        Call::Edges => edges(case),
        Call::Loops => loops(case),
        Call::Check => (vec![sound(case) as u64], vec![]),
        Call::Patches => patches(case),
        Call::Line => line(case),
        Call::WritePly => written(case),
        Call::ReadPly => read(&Parts::of(&case.file).expect("a file of the form")),
        Call::RepairPanel => packed(&each(case)),
    };
    Outcome { number: 0, place: 0, counts, rows }
}

/// The outcome of a refused call.
pub fn refused(call: Call, number: u32, place: u64) -> Outcome {
    Outcome { number, place: place as u32, counts: vec![0; answer_counts(call)], rows: vec![] }
}

/// How many counts a call gives back beside number and place.
fn answer_counts(call: Call) -> usize {
    match call {
        Call::RepairPanel => 5,
        Call::Repair => 4,
        Call::Edges | Call::Patches => 3,
        Call::Loops | Call::ReadPly => 2,
        Call::Check | Call::Line | Call::WritePly => 1,
    }
}

/// Where the Rust has an error of its own for a refusal, it must give it, and name the same face.
fn agree(case: &Case, number: u32, place: u64) {
    let text = match (case.call, number) {
        (Call::Repair, 5) => repair_buffers(&points(case), &case.triples(), &RepairOpts::none()).err(),
        (Call::Edges | Call::Loops, 7) => MeshEdges::new(&mesh(case)).err(),
        (Call::Patches, 9) => labels(case).err(),
        (Call::Patches, 10) => labels(case).unwrap().compute_stats(&mesh(case)).err(),
        _ => return,
    };
    let text = text.expect("the Rust accepts what document 01 refuses").to_string();
    if number == 5 || number == 9 {
        let named = text.split(' ').nth(1).and_then(|face| face.parse().ok());
        assert_eq!(named, Some(place), "the Rust names another face: {text}");
    }
}

/// The points as the Rust takes them.
fn points(case: &Case) -> Vec<Point3> {
    case.points.chunks_exact(3).map(|c| Point3::from([c[0], c[1], c[2]])).collect()
}

/// The mesh as the Rust takes it.
fn mesh(case: &Case) -> Mesh3 {
    Mesh3::new(points(case), case.triples())
}

/// Floats as bytes.
fn floats(values: impl IntoIterator<Item = f64>) -> Vec<u8> {
    values.into_iter().flat_map(|x| x.to_bits().to_ne_bytes()).collect()
}

/// Numbers as bytes.
pub fn numbers(values: impl IntoIterator<Item = u32>) -> Vec<u8> {
    values.into_iter().flat_map(|x| x.to_ne_bytes()).collect()
}

/// Options 0..63 by `RepairOpts`' fields in order.
fn options(bits: u32) -> RepairOpts {
    let bit = |k: u32| bits >> k & 1 == 1;
    RepairOpts::none()
        .with_drop_degenerate(bit(0))
        .with_drop_duplicate_faces(bit(1))
        .with_resolve_nonmanifold_edges(bit(2))
        .with_split_bowtie_vertices(bit(3))
        .with_orient_consistently(bit(4))
        .with_drop_isolated_vertices(bit(5))
}

/// How many of the input faces repeat a corner, and how many of the others the Rust's test finds degenerate: these are thin.
fn kinds(case: &Case) -> [usize; 2] {
    let (points, faces) = (points(case), case.triples());
    let (repeated, others): (Vec<_>, Vec<_>) = faces.into_iter().partition(|[a, b, c]| a == b || b == c || c == a);
    let thin = others.into_iter().filter(|face| compute_face_normal(&face.map(|v| points[v as usize])).is_none());
    [repeated.len(), thin.count()]
}

/// The eleven counts in report order. The Rust counts degenerate faces of both kinds together: their sum must be its count.
fn eleven(case: &Case, r: &RepairReport) -> [usize; REPORT] {
    let [repeated, thin] = if case.options & 1 == 1 { kinds(case) } else { [0, 0] };
    assert_eq!(repeated + thin, r.degenerate_removed, "the Rust counts another number of degenerate faces");
    [
        repeated,
        thin,
        r.duplicate_faces_removed,
        r.nonmanifold_edges,
        r.faces_dropped_at_nonmanifold,
        r.faces_dropped_for_orientation,
        r.bowtie_vertices_split,
        r.points_added_by_splitting,
        r.faces_reoriented,
        r.nonorientable_components,
        r.isolated_vertices_removed,
    ]
}

/// A mesh mended by the Rust, as flat lists.
pub fn mended(case: &Case) -> (Vec<f64>, Vec<u32>, [usize; REPORT]) {
    na::set_threshold(case.threshold);
    let answer = repair_buffers(&points(case), &case.triples(), &options(case.options)).expect("an accepted mesh");
    let coordinates = answer.points.iter().flat_map(|p| [p[0], p[1], p[2]]).collect();
    (coordinates, answer.faces.into_iter().flatten().collect(), eleven(case, &answer.report))
}

/// `repair_buffers`, and the origins of its faces: counts and rows.
fn repair(case: &Case) -> (Vec<u64>, Vec<Vec<u8>>) {
    let (points, faces, report) = mended(case);
    let origins = origins::of(case, &points, &faces);
    let counts = vec![points.len() as u64, faces.len() as u64, REPORT as u64, origins.len() as u64];
    (counts, vec![floats(points), numbers(faces), numbers(report.map(|n| n as u32)), numbers(origins)])
}

/// The outcome of each mesh of a pack in a call of its own.
pub fn each(case: &Case) -> Vec<Outcome> {
    pack::meshes(case).iter().map(alone).collect()
}

/// The outcome of one mesh of a pack: its refusal, or else the Rust's answer.
fn alone(mesh: &Case) -> Outcome {
    if let Some((number, place)) = refuse::alone(mesh) {
        agree(mesh, number, place);
        return refused(mesh.call, number, place);
    }
    let (counts, rows) = repair(mesh);
    Outcome { number: 0, place: 0, counts, rows }
}

/// The outcomes of all meshes of a pack, packed: the answers of those that are accepted in order and without gaps, and of each mesh number, place, points and
/// faces. Counts and rows.
pub fn packed(each: &[Outcome]) -> (Vec<u64>, Vec<Vec<u8>>) {
    let answers = |k: usize| each.iter().filter_map(|mesh| mesh.rows.get(k)).flatten().copied().collect();
    let four = |mesh: &Outcome| [mesh.number, mesh.place, mesh.counts[0] as u32 / 3, mesh.counts[1] as u32 / 3];
    let rows = vec![answers(0), answers(1), answers(2), answers(3), numbers(each.iter().flat_map(four))];
    (rows.iter().zip([8, 4, 4, 4, 4]).map(|(row, size)| (row.len() / size) as u64).collect(), rows)
}

/// The origins that a repair would give if each pass took the places of the list that it gets for origins: those of the list that pass 1 leaves.
pub fn present(case: &Case) -> Vec<u8> {
    let (points, faces, _) = mended(&Case { options: case.options & 1, ..case.clone() });
    numbers(origins::by_passes(&Case { points, faces, options: case.options & !1, ..case.clone() }))
}

/// The Rust begins each loop anywhere and lists the loops in any order. Rotated so that the lowest vertex is last, and sorted by it, they are
/// document 01's: the walk from the lowest vertex, reversed.
fn in_order(mut loops: Vec<Vec<u32>>) -> Vec<Vec<u32>> {
    for l in &mut loops {
        let lowest = (0..l.len()).min_by_key(|&i| l[i]).expect("a loop has a vertex");
        l.rotate_left(lowest + 1);
    }
    loops.sort_by_key(|l| l.last().copied());
    loops
}

/// Edges, lengths and face edges by the Rust's `naive_edges` and `unique_edges`, which end also where the boundary is not simple: a face edge is its
/// position among the unique ones.
fn listed(mesh: &Mesh3) -> (Vec<[u32; 2]>, Vec<f64>, Vec<u32>) {
    let all = naive_edges(mesh.faces());
    let unique: Vec<[u32; 2]> = unique_edges(&all).into_iter().map(|(edge, _)| edge).collect();
    let lengths = unique.iter().map(|edge| (mesh.points()[edge[1] as usize] - mesh.points()[edge[0] as usize]).norm()).collect();
    let positions = all.iter().map(|edge| unique.binary_search(&edge_key(edge)).expect("an edge of a face") as u32).collect();
    (unique, lengths, positions)
}

/// The edge call: counts and rows. Where `MeshEdges` may be asked too, it must list the same.
fn edges(case: &Case) -> (Vec<u64>, Vec<Vec<u8>>) {
    let mesh = mesh(case);
    let (edges, lengths, positions) = listed(&mesh);
    let rows = vec![numbers(edges.into_iter().flatten()), floats(lengths), numbers(positions)];
    if refuse::fault(case).is_none() {
        let answer = MeshEdges::new(&mesh).expect("an accepted mesh");
        let same = [numbers(answer.edges.into_iter().flatten()), floats(answer.edge_lengths), numbers(answer.face_edges.into_iter().flatten())];
        assert!(rows == same, "the Rust lists other edges by its parts");
    }
    (rows.iter().zip([4, 8, 4]).map(|(row, size)| (row.len() / size) as u64).collect(), rows)
}

/// The loop call, by `MeshEdges`: counts and rows.
fn loops(case: &Case) -> (Vec<u64>, Vec<Vec<u8>>) {
    let loops = in_order(MeshEdges::new(&mesh(case)).expect("an accepted mesh").boundary_loops);
    let ends = loops.iter().scan(0, |total, l| {
        *total += l.len() as u32;
        Some(*total)
    });
    let rows = vec![numbers(loops.iter().flatten().copied()), numbers(ends)];
    (rows.iter().map(|row| row.len() as u64 / 4).collect(), rows)
}

/// The edge check, which the Rust does not have: no face repeats a corner, every directed edge is used at most once, and the faces at each used point form
/// one group.
pub fn sound(case: &Case) -> bool {
    walked_once(case) && one_group_each(case)
}

/// Whether no face repeats a corner, and every directed edge is used at most once: document 01's check.
pub fn walked_once(case: &Case) -> bool {
    let mut used = BTreeSet::new();
    case.triples().into_iter().all(|[a, b, c]| a != b && b != c && c != a && used.insert((a, b)) && used.insert((b, c)) && used.insert((c, a)))
}

/// Whether the faces at each used point, where none repeats a corner, form one group: from the first of them all are reached, from face to face with another
/// corner in common.
fn one_group_each(case: &Case) -> bool {
    let mut at: BTreeMap<u32, Vec<[u32; 2]>> = BTreeMap::new();
    for [a, b, c] in case.triples() {
        at.entry(a).or_default().push([b, c]);
        at.entry(b).or_default().push([c, a]);
        at.entry(c).or_default().push([a, b]);
    }
    at.into_values().all(|others| reached(&others) == others.len())
}

/// How many of these pairs are reached from the first, from pair to pair with a number in common.
fn reached(pairs: &[[u32; 2]]) -> usize {
    let mut with: BTreeMap<u32, Vec<usize>> = BTreeMap::new();
    pairs.iter().enumerate().for_each(|(i, pair)| pair.iter().for_each(|&v| with.entry(v).or_default().push(i)));
    let (mut found, mut left) = (BTreeSet::from([0]), vec![0]);
    while let Some(i) = left.pop() {
        // A number is looked at once: whoever has it is then found.
        let others = pairs[i].iter().filter_map(|v| with.remove(v)).flatten();
        left.extend(others.filter(|&j| found.insert(j)));
    }
    found.len()
}

/// A mesh written to a PLY file: count and row.
fn written(case: &Case) -> (Vec<u64>, Vec<Vec<u8>>) {
    let file = Parts::new(&case.points, &case.faces).file();
    (vec![file.len() as u64], vec![file])
}

/// The parts of a PLY file as points and triples: counts and rows.
pub fn read(parts: &Parts) -> (Vec<u64>, Vec<Vec<u8>>) {
    let (points, corners) = (parts.points(), parts.corners());
    (vec![points.len() as u64, corners.len() as u64], vec![floats(points), numbers(corners)])
}

/// The labels as the Rust takes them.
fn labels(case: &Case) -> engeom::Result<PatchLabels> {
    PatchLabels::new(case.labels.clone(), case.patch_count as usize)
}

/// The limits that are set.
fn filter(case: &Case) -> PatchFilter {
    let limits = &case.filter;
    let is = |k: u32| limits.set >> k & 1 == 1;
    let mut filter = PatchFilter::default();
    if is(0) {
        filter = filter.with_min_faces(limits.min_faces as usize);
    }
    if is(1) {
        filter = filter.with_min_area(limits.reals[0]);
    }
    if is(2) {
        filter = filter.with_min_aabb_diagonal(limits.reals[1]);
    }
    if is(3) {
        filter = filter.with_min_area_fraction(limits.reals[2]);
    }
    if is(4) {
        filter = filter.with_keep_largest_n(limits.keep_largest_n as usize);
    }
    filter
}

/// `PatchLabels`, `PatchStats` and `PatchFilter`: counts and rows.
fn patches(case: &Case) -> (Vec<u64>, Vec<Vec<u8>>) {
    let stats = labels(case).unwrap().compute_stats(&mesh(case)).expect("an accepted mesh");
    let flags = filter(case).keep_flags(&stats);
    let seven = |s: &PatchStats| [s.area, s.min[0], s.min[1], s.min[2], s.max[0], s.max[1], s.max[2]];
    let rows =
        vec![numbers(stats.iter().map(|s| s.face_count as u32)), floats(stats.iter().flat_map(seven)), numbers(flags.into_iter().map(u32::from))];
    let c = case.patch_count;
    (vec![c, 7 * c, c], rows)
}

/// Areas and diagonals of the patches, and shares of the largest area: limits near these are worth a try.
pub fn measures(case: &Case) -> Vec<f64> {
    let stats = labels(case).unwrap().compute_stats(&mesh(case)).expect("an accepted mesh");
    let largest = stats.iter().map(|s| s.area).fold(0.0, f64::max);
    let near = |s: &PatchStats| [s.area, s.aabb_diagonal(), s.area / largest];
    stats.iter().flat_map(near).chain([0.5]).collect()
}

/// Times the Rust alone, its input made beforehand.
pub fn time<T>(case: &Case, median: impl FnOnce(&mut dyn FnMut()) -> T) -> T {
    na::set_threshold(case.threshold);
    let (mesh, options, filter) = (mesh(case), options(case.options), filter(case));
    let keys: Vec<Mesh3> = pack::meshes(case).iter().map(self::mesh).collect();
    let patches = || labels(case).unwrap().compute_stats(&mesh).map(|stats| filter.keep_flags(&stats));
    match case.call {
        Call::Repair => median(&mut || drop(repair_buffers(mesh.points(), mesh.faces(), &options))),
        Call::RepairPanel => median(&mut || keys.iter().for_each(|key| drop(repair_buffers(key.points(), key.faces(), &options)))),
        Call::Edges | Call::Loops => median(&mut || drop(MeshEdges::new(&mesh))),
        Call::Patches => median(&mut || drop(patches())),
        Call::Line => {
            let report = report(case);
            median(&mut || (0..LINES).for_each(|_| drop(std::hint::black_box(report.to_string()))))
        }
        Call::Check | Call::WritePly | Call::ReadPly => unreachable!("the Rust has no such call"),
    }
}

/// The Rust's report of eleven counts: it has the sum of the first two.
fn report(case: &Case) -> RepairReport {
    let n = |k: usize| case.counts[k] as usize;
    RepairReport {
        degenerate_removed: n(0) + n(1),
        duplicate_faces_removed: n(2),
        nonmanifold_edges: n(3),
        faces_dropped_at_nonmanifold: n(4),
        faces_dropped_for_orientation: n(5),
        bowtie_vertices_split: n(6),
        points_added_by_splitting: n(7),
        faces_reoriented: n(8),
        nonorientable_components: n(9),
        isolated_vertices_removed: n(10),
        faces_rejected_by_ingest: 0,
    }
}

/// `RepairReport`'s `Display`: count and row.
fn line(case: &Case) -> (Vec<u64>, Vec<Vec<u8>>) {
    let text = report(case).to_string().into_bytes();
    (vec![text.len() as u64], vec![text])
}
