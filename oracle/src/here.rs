//! The library's calls. A call that is not in the archive yet is not asked for; oracle/build.sh finds that out.

use crate::case::{Call, Case};
use crate::lent::Lent;
use crate::meshes::Mesh;

/// What a call gives back: number, place, and how many entries stand in each answer room (for the edge check 1 or 0).
#[derive(Clone, PartialEq, Debug)]
pub struct Reply {
    pub number: u32,
    pub place: u32,
    pub counts: Vec<u64>,
}

#[repr(C)]
struct Given<const N: usize> {
    number: u32,
    place: u32,
    counts: [u64; N],
}

// The signatures of host/shell.h: each row is a pointer and a length.
#[rustfmt::skip]
#[allow(dead_code)]
unsafe extern "C" {
    fn shell_repair(points: *const f64, _: usize, faces: *const u32, _: usize, s: f64, options: u32,
        out_points: *mut f64, _: usize, out_faces: *mut u32, _: usize, report: *mut u32, _: usize, origins: *mut u32, _: usize,
        work: *mut u32, _: usize) -> Given<4>;
    fn shell_edges(points: *const f64, _: usize, faces: *const u32, _: usize,
        edges: *mut u32, _: usize, lengths: *mut f64, _: usize, face_edges: *mut u32, _: usize, work: *mut u32, _: usize) -> Given<3>;
    fn shell_loops(points: *const f64, _: usize, faces: *const u32, _: usize,
        loop_vertices: *mut u32, _: usize, loop_ends: *mut u32, _: usize, work: *mut u32, _: usize) -> Given<2>;
    fn shell_check(point_count: u64, faces: *const u32, _: usize, work: *mut u32, _: usize) -> Given<1>;
    fn shell_patches(points: *const f64, _: usize, faces: *const u32, _: usize, labels: *const u32, _: usize, patch_count: u64,
        limits: u32, min_faces: u64, min_area: f64, min_aabb_diagonal: f64, min_area_fraction: f64, keep_largest_n: u64,
        face_counts: *mut u32, _: usize, numbers: *mut f64, _: usize, flags: *mut u32, _: usize, work: *mut u32, _: usize) -> Given<3>;
    fn shell_line(counts: *const u32, _: usize, line: *mut u8, _: usize) -> Given<1>;
    fn shell_write_ply(points: *const f64, _: usize, faces: *const u32, _: usize, file: *mut u8, _: usize, work: *mut u32, _: usize) -> Given<1>;
    fn shell_read_ply(file: *const u8, _: usize, points: *mut f64, _: usize, faces: *mut u32, _: usize, work: *mut u32, _: usize) -> Given<2>;
    fn shell_ply_counts(file: *const u8, _: usize) -> Given<2>;
    fn shell_repair_panel(points: *const f64, _: usize, faces: *const u32, _: usize, point_counts: *const u32, _: usize, face_counts: *const u32, _: usize,
        s: f64, options: u32, out_points: *mut f64, _: usize, out_faces: *mut u32, _: usize, report: *mut u32, _: usize, origins: *mut u32, _: usize,
        meshes: *mut u32, _: usize, work: *mut u32, _: usize) -> Given<5>;
}

/// Whether the library has the call.
pub fn has(call: Call) -> bool {
    match call {
        Call::Repair => cfg!(has_repair),
        Call::Edges => cfg!(has_edges),
        Call::Loops => cfg!(has_loops),
        Call::Check => cfg!(has_check),
        Call::Patches => cfg!(has_patches),
        Call::Line => cfg!(has_line),
        Call::WritePly => cfg!(has_write_ply),
        Call::ReadPly => cfg!(has_read_ply),
        Call::RepairPanel => cfg!(has_repair_panel),
    }
}

/// The input as the calls take it.
pub struct Inputs {
    pub points: Lent,
    pub faces: Lent,
    pub labels: Lent,
    pub counts: Lent,
    pub file: Lent,
    pub point_counts: Lent,
    pub face_counts: Lent,
}

impl Inputs {
    /// The input of a case, each row with its margins.
    pub fn new(case: &Case) -> Self {
        let dirt = case.rooms[0].dirt;
        let numbers = |row: &[u32]| Lent::input(4, &row.iter().flat_map(|x| x.to_ne_bytes()).collect::<Vec<u8>>(), dirt);
        let points: Vec<u8> = case.points.iter().flat_map(|x| x.to_bits().to_ne_bytes()).collect();
        let [faces, labels, counts] = [&case.faces, &case.labels, &case.counts].map(|row| numbers(row));
        let [point_counts, face_counts] = [&case.point_counts, &case.face_counts].map(|row| numbers(row));
        Inputs { points: Lent::input(8, &points, dirt), faces, labels, counts, file: Lent::input(1, &case.file, dirt), point_counts, face_counts }
    }

    /// The first input that a call has changed.
    pub fn changed(&self) -> Option<String> {
        let rows = [("points", &self.points), ("faces", &self.faces), ("labels", &self.labels), ("counts", &self.counts), ("file", &self.file)];
        let of_packs = [("point counts", &self.point_counts), ("face counts", &self.face_counts)];
        rows.iter().chain(&of_packs).find_map(|(name, row)| row.changed().map(|what| format!("input {name}: {what}")))
    }
}

/// Runs the library's call on the input and the rooms; nothing if it is not there yet.
pub fn run(case: &Case, input: &mut Inputs, rooms: &mut [Lent]) -> Option<Reply> {
    match case.call {
        #[cfg(has_repair)]
        Call::Repair => Some(repair(case, input, rooms)),
        #[cfg(has_edges)]
        Call::Edges => Some(edges(input, rooms)),
        #[cfg(has_loops)]
        Call::Loops => Some(loops(input, rooms)),
        #[cfg(has_check)]
        Call::Check => Some(check(case, input, rooms)),
        #[cfg(has_patches)]
        Call::Patches => Some(patches(case, input, rooms)),
        #[cfg(has_line)]
        Call::Line => Some(line(input, rooms)),
        #[cfg(has_write_ply)]
        Call::WritePly => Some(write_ply(input, rooms)),
        #[cfg(has_read_ply)]
        Call::ReadPly => Some(read_ply(input, rooms)),
        #[cfg(has_repair_panel)]
        Call::RepairPanel => Some(repair_panel(case, input, rooms)),
        #[allow(unreachable_patterns)]
        _ => None,
    }
}

/// What the call that counts says of a PLY file; nothing if it is not there yet.
#[allow(unused_variables)]
pub fn counted(input: &mut Inputs) -> Option<Reply> {
    #[cfg(has_ply_counts)]
    return Some(reply(unsafe { shell_ply_counts(input.file.pointer(), input.file.length()) }));
    #[cfg(not(has_ply_counts))]
    None
}

/// A mesh as the library's repair mends it.
pub fn mended(case: &Case) -> Mesh {
    let (mut input, mut rooms) = (Inputs::new(case), case.stated().into_iter().map(|(size, n)| Lent::bare(size, n as usize)).collect::<Vec<_>>());
    let reply = run(case, &mut input, &mut rooms).expect("the library has the call");
    let points = rooms[0].entries::<f64>(reply.counts[0] as usize).chunks_exact(3).map(|p| [p[0], p[1], p[2]]).collect();
    let faces = rooms[1].entries::<u32>(reply.counts[1] as usize).chunks_exact(3).map(|f| [f[0], f[1], f[2]]).collect();
    Mesh { points, faces }
}

/// A reply of any call.
#[allow(dead_code)]
fn reply<const N: usize>(given: Given<N>) -> Reply {
    Reply { number: given.number, place: given.place, counts: given.counts.to_vec() }
}

#[cfg(has_repair)]
#[rustfmt::skip]
fn repair(case: &Case, input: &mut Inputs, rooms: &mut [Lent]) -> Reply {
    let Inputs { points, faces, .. } = input;
    let [out_points, out_faces, report, origins, work] = rooms else { unreachable!() };
    reply(unsafe {
        shell_repair(
            points.pointer(), points.length(), faces.pointer(), faces.length(), case.threshold, case.options,
            out_points.pointer(), out_points.length(), out_faces.pointer(), out_faces.length(),
            report.pointer(), report.length(), origins.pointer(), origins.length(), work.pointer(), work.length(),
        )
    })
}

#[cfg(has_edges)]
#[rustfmt::skip]
fn edges(input: &mut Inputs, rooms: &mut [Lent]) -> Reply {
    let Inputs { points, faces, .. } = input;
    let [edges, lengths, face_edges, work] = rooms else { unreachable!() };
    reply(unsafe {
        shell_edges(
            points.pointer(), points.length(), faces.pointer(), faces.length(),
            edges.pointer(), edges.length(), lengths.pointer(), lengths.length(), face_edges.pointer(), face_edges.length(),
            work.pointer(), work.length(),
        )
    })
}

#[cfg(has_loops)]
#[rustfmt::skip]
fn loops(input: &mut Inputs, rooms: &mut [Lent]) -> Reply {
    let Inputs { points, faces, .. } = input;
    let [loop_vertices, loop_ends, work] = rooms else { unreachable!() };
    reply(unsafe {
        shell_loops(
            points.pointer(), points.length(), faces.pointer(), faces.length(),
            loop_vertices.pointer(), loop_vertices.length(), loop_ends.pointer(), loop_ends.length(), work.pointer(), work.length(),
        )
    })
}

#[cfg(has_check)]
fn check(case: &Case, input: &mut Inputs, rooms: &mut [Lent]) -> Reply {
    let (faces, work) = (&mut input.faces, &mut rooms[0]);
    reply(unsafe { shell_check(case.point_count, faces.pointer(), faces.length(), work.pointer(), work.length()) })
}

#[cfg(has_patches)]
#[rustfmt::skip]
fn patches(case: &Case, input: &mut Inputs, rooms: &mut [Lent]) -> Reply {
    let Inputs { points, faces, labels, .. } = input;
    let [face_counts, numbers, flags, work] = rooms else { unreachable!() };
    let limits = &case.filter;
    let [min_area, min_aabb_diagonal, min_area_fraction] = limits.reals;
    reply(unsafe {
        shell_patches(
            points.pointer(), points.length(), faces.pointer(), faces.length(), labels.pointer(), labels.length(), case.patch_count,
            limits.set, limits.min_faces, min_area, min_aabb_diagonal, min_area_fraction, limits.keep_largest_n,
            face_counts.pointer(), face_counts.length(), numbers.pointer(), numbers.length(),
            flags.pointer(), flags.length(), work.pointer(), work.length(),
        )
    })
}

#[cfg(has_line)]
fn line(input: &mut Inputs, rooms: &mut [Lent]) -> Reply {
    let (counts, line) = (&mut input.counts, &mut rooms[0]);
    reply(unsafe { shell_line(counts.pointer(), counts.length(), line.pointer(), line.length()) })
}

#[cfg(has_write_ply)]
#[rustfmt::skip]
fn write_ply(input: &mut Inputs, rooms: &mut [Lent]) -> Reply {
    let Inputs { points, faces, .. } = input;
    let [file, work] = rooms else { unreachable!() };
    reply(unsafe {
        shell_write_ply(
            points.pointer(), points.length(), faces.pointer(), faces.length(),
            file.pointer(), file.length(), work.pointer(), work.length(),
        )
    })
}

#[cfg(has_read_ply)]
#[rustfmt::skip]
fn read_ply(input: &mut Inputs, rooms: &mut [Lent]) -> Reply {
    let file = &mut input.file;
    let [points, faces, work] = rooms else { unreachable!() };
    reply(unsafe {
        shell_read_ply(
            file.pointer(), file.length(),
            points.pointer(), points.length(), faces.pointer(), faces.length(), work.pointer(), work.length(),
        )
    })
}

#[cfg(has_repair_panel)]
#[rustfmt::skip]
fn repair_panel(case: &Case, input: &mut Inputs, rooms: &mut [Lent]) -> Reply {
    let Inputs { points, faces, point_counts, face_counts, .. } = input;
    let [out_points, out_faces, report, origins, meshes, work] = rooms else { unreachable!() };
    reply(unsafe {
        shell_repair_panel(
            points.pointer(), points.length(), faces.pointer(), faces.length(),
            point_counts.pointer(), point_counts.length(), face_counts.pointer(), face_counts.length(), case.threshold, case.options,
            out_points.pointer(), out_points.length(), out_faces.pointer(), out_faces.length(),
            report.pointer(), report.length(), origins.pointer(), origins.length(), meshes.pointer(), meshes.length(), work.pointer(), work.length(),
        )
    })
}
