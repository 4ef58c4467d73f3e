//! The meshes that are timed: as scans have them, and the shapes that are worst for one pass or another. Each has so many faces, or nearly.

use crate::large;
use crate::meshes::{self, Mesh};
use crate::random::Random;

type Shape = (&'static str, &'static str, fn(usize) -> Mesh);

/// Name, what it is, and the mesh of so many faces.
pub const SHAPES: [Shape; 13] = [
    ("grid", "clean grid", grid),
    ("scan", "scan with defects", scan),
    ("numbered", "scan, numbered anyhow", numbered),
    ("edge", "all on one edge", one_edge),
    ("apart", "apart at one point", apart),
    ("fan", "one fan", fan),
    ("strip", "one strip", strip),
    ("single", "no two joined", single),
    ("equal", "all corners equal", equal),
    ("same", "all faces the same", same),
    ("anywhere", "corners anywhere", anywhere),
    ("stacked", "stacked tetrahedra", stacked),
    ("pinched", "fans pinched in pairs", pinched),
];

/// The mesh of that name.
pub fn named(name: &str, faces: usize) -> Option<Mesh> {
    SHAPES.iter().find(|shape| shape.0 == name).map(|shape| (shape.2)(faces))
}

/// The mesh of that name as one key of a panel; scans have other defects in each.
pub fn key(name: &str, faces: usize, k: u64) -> Option<Mesh> {
    match name {
        "scan" => Some(large::scanned(faces, &mut Random::new(k))),
        "numbered" => Some(anyhow(large::scanned(faces, &mut Random::new(k)), &mut Random::new(!k))),
        _ => named(name, faces),
    }
}

/// A place for point i, so that few faces are flat.
fn place(i: usize) -> [f64; 3] {
    [(i % 1013) as f64, (i / 1013) as f64, (i * 7 % 11) as f64 / 8.0]
}

/// So many points, and so many faces by their number.
fn made(points: usize, faces: usize, corners: impl FnMut(usize) -> [usize; 3]) -> Mesh {
    let faces = (0..faces).map(corners).map(|face| face.map(|v| v as u32)).collect();
    Mesh { points: (0..points).map(place).collect(), faces }
}

/// Squares of two faces each, in rows.
fn grid(faces: usize) -> Mesh {
    let side = ((faces as f64 / 2.0).sqrt() as usize).max(1);
    let mut mesh = meshes::grid(faces.div_ceil(2 * side), side);
    mesh.faces.truncate(faces);
    mesh
}

/// A grid of which one face in a hundred has a defect.
fn scan(faces: usize) -> Mesh {
    large::scanned(faces, &mut Random::new(1))
}

/// The same, with its points and faces in any order.
fn numbered(faces: usize) -> Mesh {
    anyhow(scan(faces), &mut Random::new(2))
}

/// The mesh with its points and faces in any order.
pub fn anyhow(mut mesh: Mesh, random: &mut Random) -> Mesh {
    let mut new: Vec<u32> = (0..mesh.points.len() as u32).collect();
    for i in (1..new.len()).rev() {
        new.swap(i, random.below(i + 1));
    }
    for i in (1..mesh.faces.len()).rev() {
        mesh.faces.swap(i, random.below(i + 1));
    }
    mesh.faces.iter_mut().flatten().for_each(|v| *v = new[*v as usize]);
    let old = mesh.points.clone();
    new.iter().zip(old).for_each(|(&v, point)| mesh.points[v as usize] = point);
    mesh
}

/// Every face has the edge of points 0 and 1.
fn one_edge(faces: usize) -> Mesh {
    made(faces + 2, faces, |i| if i % 2 == 0 { [0, 1, i + 2] } else { [1, 0, i + 2] })
}

/// Every face has point 0, and no two share an edge.
fn apart(faces: usize) -> Mesh {
    made(2 * faces + 1, faces, |i| [0, 2 * i + 1, 2 * i + 2])
}

/// Every face has point 0, and shares an edge with the next.
fn fan(faces: usize) -> Mesh {
    made(faces + 2, faces, |i| [0, i + 1, i + 2])
}

/// Each face shares an edge with the next, every other one turned over.
fn strip(faces: usize) -> Mesh {
    made(faces + 2, faces, |i| [i, i + 1, i + 2])
}

/// No two faces share a point.
fn single(faces: usize) -> Mesh {
    made(3 * faces, faces, |i| [3 * i, 3 * i + 1, 3 * i + 2])
}

/// Every corner is point 0.
fn equal(faces: usize) -> Mesh {
    made(1, faces, |_| [0; 3])
}

/// Every face is 0 1 2.
fn same(faces: usize) -> Mesh {
    made(3, faces, |_| [0, 1, 2])
}

/// Corners anywhere among half as many points.
fn anywhere(faces: usize) -> Mesh {
    let (points, mut random) = (faces / 2 + 3, Random::new(3));
    made(points, faces, |_| std::array::from_fn(|_| random.below(points)))
}

/// Tetrahedra, each on the last three points of the one before.
fn stacked(faces: usize) -> Mesh {
    made(faces / 4 + 4, faces, |i| {
        let v = i / 4;
        [[v, v + 2, v + 1], [v, v + 1, v + 3], [v + 1, v + 2, v + 3], [v + 2, v, v + 3]][i % 4]
    })
}

/// Pairs of faces that meet in a point, in a row: each point but the ends is split.
fn pinched(faces: usize) -> Mesh {
    made(2 * faces + 1, faces, |i| [2 * i, 2 * i + 1, 2 * i + 2])
}
