//! Meshes of known structure, each with places that suit it.

use crate::random::Random;

#[derive(Clone, Default)]
pub struct Mesh {
    pub points: Vec<[f64; 3]>,
    pub faces: Vec<[u32; 3]>,
}

/// One of the meshes below, its sizes about `size` at most.
pub fn any(random: &mut Random, size: usize) -> Mesh {
    let n = 1 + random.below(size + 1);
    let m = 1 + random.below(size);
    match random.below(14) {
        0..3 => soup(random, size),
        3 => grid(n, m),
        4 => band(n + 2, m % 2),
        5 => fan(n, random.one_in(2)),
        6 => cube(),
        7 => sphere(n + 2, m),
        8 => torus(n + 2, m + 2),
        9 => bowtie(n, m),
        10 => book(n + m, random),
        11 => star(n + 3, random),
        12 => together(any(random, size), any(random, size)),
        _ => tetrahedra(n),
    }
}

/// Corners anywhere among few points, so that corners, edges and faces repeat.
fn soup(random: &mut Random, size: usize) -> Mesh {
    let points = random.below(size + 4);
    let faces = if points == 0 { 0 } else { random.below(3 * size) };
    let place = |random: &mut Random| std::array::from_fn(|_| random.between(-2, 2) as f64);
    let corner = |random: &mut Random| random.below(points) as u32;
    Mesh { points: (0..points).map(|_| place(random)).collect(), faces: (0..faces).map(|_| std::array::from_fn(|_| corner(random))).collect() }
}

/// n by m squares of two faces each.
pub fn grid(n: usize, m: usize) -> Mesh {
    let at = |i: usize, j: usize| (i * (m + 1) + j) as u32;
    let mut mesh = Mesh::default();
    for i in 0..=n {
        mesh.points.extend((0..=m).map(|j| [i as f64, j as f64, ((3 * i + 5 * j) % 7) as f64 / 8.0]));
    }
    for (i, j) in (0..n).flat_map(|i| (0..m).map(move |j| (i, j))) {
        mesh.faces.push([at(i, j), at(i + 1, j), at(i + 1, j + 1)]);
        mesh.faces.push([at(i, j), at(i + 1, j + 1), at(i, j + 1)]);
    }
    mesh
}

/// A closed band of n squares, and with a twist the band of Moebius.
fn band(n: usize, twist: usize) -> Mesh {
    let mut mesh = Mesh::default();
    for i in 0..n {
        let angle = i as f64 / n as f64 * std::f64::consts::TAU;
        let half = angle / 2.0 * twist as f64;
        for side in [-0.25, 0.25] {
            let out = 1.0 + side * half.cos();
            mesh.points.push([out * angle.cos(), out * angle.sin(), side * if twist == 1 { half.sin() } else { 1.0 }]);
        }
    }
    for i in 0..n {
        let other = if i + 1 == n { twist } else { 0 };
        let next = (i + 1) % n;
        let [a, b] = [2 * i, 2 * i + 1].map(|v| v as u32);
        let [c, d] = [2 * next + other, 2 * next + 1 - other].map(|v| v as u32);
        mesh.faces.push([a, c, b]);
        mesh.faces.push([b, c, d]);
    }
    mesh
}

/// n faces around point 0, the last one joined to the first if closed.
fn fan(n: usize, closed: bool) -> Mesh {
    let around = if closed { n } else { n + 1 };
    let mut mesh = Mesh { points: vec![[0.0; 3]], faces: vec![] };
    mesh.points.extend((0..around).map(|i| {
        let angle = i as f64 / around as f64 * std::f64::consts::TAU;
        [angle.cos(), angle.sin(), 0.5]
    }));
    mesh.faces.extend((0..n).map(|i| [0, 1 + i as u32, 1 + ((i + 1) % around) as u32]));
    mesh
}

/// Six squares of two faces each, closed.
fn cube() -> Mesh {
    let points = (0..8).map(|k| [k & 1, k >> 1 & 1, k >> 2].map(|x| x as f64)).collect();
    let squares = [[0, 2, 3, 1], [4, 5, 7, 6], [0, 1, 5, 4], [2, 6, 7, 3], [0, 4, 6, 2], [1, 3, 7, 5]];
    Mesh { points, faces: squares.iter().flat_map(|[a, b, c, d]| [[*a, *b, *c], [*a, *c, *d]]).collect() }
}

/// A ball with m rings of n points between its two poles.
fn sphere(n: usize, m: usize) -> Mesh {
    let mut mesh = Mesh { points: vec![[0.0, 0.0, 1.0]], faces: vec![] };
    let at = |i: usize, j: usize| (1 + i * n + j % n) as u32;
    for i in 0..m {
        let down = (i + 1) as f64 / (m + 1) as f64 * std::f64::consts::PI;
        mesh.points.extend((0..n).map(|j| {
            let angle = j as f64 / n as f64 * std::f64::consts::TAU;
            [down.sin() * angle.cos(), down.sin() * angle.sin(), down.cos()]
        }));
    }
    let south = mesh.points.len() as u32;
    mesh.points.push([0.0, 0.0, -1.0]);
    for j in 0..n {
        mesh.faces.push([0, at(0, j), at(0, j + 1)]);
        for i in 0..m - 1 {
            mesh.faces.push([at(i, j), at(i + 1, j), at(i + 1, j + 1)]);
            mesh.faces.push([at(i, j), at(i + 1, j + 1), at(i, j + 1)]);
        }
        mesh.faces.push([at(m - 1, j), south, at(m - 1, j + 1)]);
    }
    mesh
}

/// A ring of n by m squares, closed both ways.
fn torus(n: usize, m: usize) -> Mesh {
    let mut mesh = Mesh::default();
    let at = |i: usize, j: usize| (i % n * m + j % m) as u32;
    for (i, j) in (0..n).flat_map(|i| (0..m).map(move |j| (i, j))) {
        let [a, b] = [i as f64 / n as f64, j as f64 / m as f64].map(|x| x * std::f64::consts::TAU);
        mesh.points.push([(3.0 + b.cos()) * a.cos(), (3.0 + b.cos()) * a.sin(), b.sin()]);
        mesh.faces.push([at(i, j), at(i + 1, j), at(i + 1, j + 1)]);
        mesh.faces.push([at(i, j), at(i + 1, j + 1), at(i, j + 1)]);
    }
    mesh
}

/// n fans of m faces that meet in point 0 alone.
fn bowtie(n: usize, m: usize) -> Mesh {
    let mut mesh = Mesh { points: vec![[0.0; 3]], faces: vec![] };
    for i in 0..n {
        let first = mesh.points.len() as u32;
        mesh.points.extend((0..=m).map(|j| [1.0 + j as f64, (i + j) as f64, i as f64 - 0.5]));
        mesh.faces.extend((0..m as u32).map(|j| [0, first + j, first + j + 1]));
    }
    mesh
}

/// n faces on the edge of points 0 and 1, which walk it either way.
fn book(n: usize, random: &mut Random) -> Mesh {
    let mut mesh = Mesh { points: vec![[0.0; 3], [1.0, 0.0, 0.0]], faces: vec![] };
    for i in 0..n {
        let page = 2 + i as u32;
        mesh.points.push([random.between(0, 2) as f64 / 2.0, random.between(-2, 2) as f64, random.between(-1, 1) as f64]);
        mesh.faces.push(random.choose(&[[0, 1, page], [1, 0, page], [page, 0, 1], [0, page, 1]]));
    }
    mesh
}

/// Many faces at point 0, with far corners anywhere among n.
fn star(n: usize, random: &mut Random) -> Mesh {
    let mut mesh = Mesh { points: vec![[0.0; 3]], faces: vec![] };
    mesh.points.extend((0..n).map(|_| std::array::from_fn(|_| random.between(-2, 2) as f64)));
    for _ in 0..2 * n {
        let [a, b] = [random.below(n + 1) as u32, random.below(n + 1) as u32];
        mesh.faces.push(random.choose(&[[0, a, b], [a, 0, b], [a, b, 0]]));
    }
    mesh
}

/// n tetrahedra, each on the last three points of the one before.
fn tetrahedra(n: usize) -> Mesh {
    let mut mesh = Mesh { points: vec![[0.0, 0.0, 0.0], [1.0, 0.0, 0.0], [0.0, 1.0, 0.0]], faces: vec![] };
    for i in 0..n as u32 {
        mesh.points.push([i as f64 * 0.5, (i % 2) as f64, 1.0 + i as f64]);
        let [a, b, c, d] = [i, i + 1, i + 2, i + 3];
        mesh.faces.extend([[a, c, b], [a, b, d], [b, c, d], [c, a, d]]);
    }
    mesh
}

/// Two meshes side by side.
fn together(mut one: Mesh, other: Mesh) -> Mesh {
    let shift = one.points.len() as u32;
    one.points.extend(other.points.iter().map(|p| [p[0] + 10.0, p[1], p[2]]));
    one.faces.extend(other.faces.iter().map(|f| f.map(|v| v + shift)));
    one
}
