//! The defects of scanned shells: each changes a mesh in one place.

use crate::meshes::Mesh;
use crate::random::Random;

/// A defect somewhere in the mesh.
pub fn add(mesh: &mut Mesh, random: &mut Random) {
    if mesh.faces.is_empty() || mesh.points.is_empty() {
        mesh.points.push([1.0, 2.0, 3.0]);
        return;
    }
    let i = random.below(mesh.faces.len());
    match random.below(13) {
        0 => mesh.faces[i].swap(1, 2),
        1 => mesh.faces[i].rotate_left(1),
        2 => again(mesh, i, random),
        3 => drop(mesh.faces.remove(i)),
        4 => mesh.faces[i][random.below(3)] = mesh.faces[i][random.below(3)],
        5 => isolated(mesh, random),
        6 => sliver(mesh, i, random),
        7 => third(mesh, i, random),
        8 => merged(mesh, random),
        9 => turned_points(mesh, random),
        10 => mesh.faces[i][random.below(3)] = random.below(mesh.points.len()) as u32,
        11 => coincide(mesh, random),
        _ => shuffled(mesh, random),
    }
}

/// A face a second time, in any of its six writings.
fn again(mesh: &mut Mesh, i: usize, random: &mut Random) {
    let mut face = mesh.faces[i];
    face.rotate_left(random.below(3));
    if random.one_in(2) {
        face.swap(0, 1);
    }
    mesh.faces.insert(random.below(mesh.faces.len() + 1), face);
}

/// A point that no face uses, anywhere in the row.
fn isolated(mesh: &mut Mesh, random: &mut Random) {
    let at = random.below(mesh.points.len() + 1);
    mesh.points.insert(at, [random.real(), random.real(), -1.0]);
    for corner in mesh.faces.iter_mut().flatten() {
        *corner += (*corner as usize >= at) as u32;
    }
}

/// A face flattened: one corner moved to its edge or near it.
fn sliver(mesh: &mut Mesh, i: usize, random: &mut Random) {
    let [a, b, c] = mesh.faces[i].map(|v| v as usize);
    let share = random.choose(&[0.0, 0.5, 0.25, 0.3, 1.0]);
    let off = random.choose(&[0.0, 0.0, 1e-13, 1e-12, 1e-9, 1e-3]);
    let [p, q] = [mesh.points[a], mesh.points[b]];
    mesh.points[c] = std::array::from_fn(|k| p[k] + (q[k] - p[k]) * share + off * k as f64);
}

/// One more face on an edge.
fn third(mesh: &mut Mesh, i: usize, random: &mut Random) {
    let [a, b, _] = mesh.faces[i];
    let mut far = random.below(mesh.points.len()) as u32;
    if random.one_in(2) {
        far = mesh.points.len() as u32;
        mesh.points.push([random.between(-1, 1) as f64, random.real(), 1.0]);
    }
    mesh.faces.push(if random.one_in(2) { [a, b, far] } else { [b, a, far] });
}

/// Two points made one number, so that sheets meet in a vertex.
fn merged(mesh: &mut Mesh, random: &mut Random) {
    let [from, to] = [random.below(mesh.points.len()) as u32, random.below(mesh.points.len()) as u32];
    mesh.faces.iter_mut().flatten().filter(|v| **v == from).for_each(|v| *v = to);
}

/// The points' numbers exchanged, the shape kept.
fn turned_points(mesh: &mut Mesh, random: &mut Random) {
    let n = mesh.points.len();
    let [a, b] = [random.below(n), random.below(n)];
    mesh.points.swap(a, b);
    for corner in mesh.faces.iter_mut().flatten() {
        *corner = if *corner == a as u32 {
            b as u32
        } else if *corner == b as u32 {
            a as u32
        } else {
            *corner
        };
    }
}

/// Two points in one place.
fn coincide(mesh: &mut Mesh, random: &mut Random) {
    let n = mesh.points.len();
    mesh.points[random.below(n)] = mesh.points[random.below(n)];
}

/// The faces in another order.
fn shuffled(mesh: &mut Mesh, random: &mut Random) {
    for i in (1..mesh.faces.len()).rev() {
        mesh.faces.swap(i, random.below(i + 1));
    }
}
