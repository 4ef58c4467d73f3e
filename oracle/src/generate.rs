//! A case from a call, a seed and a number: a mesh with defects or a pack of such, settings, rooms, and sometimes damage.

use crate::case::{Call, Case, Filter, MOST_FACES, MOST_MESHES, MOST_POINTS, NO_PATCH, REPORT};
use crate::damage;
use crate::meshes::{self, Mesh};
use crate::ply::{self, Parts};
use crate::random::Random;
use crate::{defects, pack, places, there};

/// The case with this number.
pub fn case(call: Call, seed: u64, number: u64) -> Case {
    let mut seeds = Random::new(seed ^ ((call as u64) << 56));
    let random = &mut Random::new(seeds.next() ^ number.wrapping_mul(0xd6e8_feb8_6659_fd93));
    let mut case = Case::new(call);
    if call == Call::Line {
        let most = random.choose(&[1, 10, 20, 20]);
        case.counts = (0..REPORT).map(|_| if random.below(20) < most { count(random) } else { 0 }).collect();
    } else if call == Call::RepairPanel {
        packed(&mut case, random);
    } else {
        mesh(&mut case, random);
    }
    match call {
        Call::Repair => settings(&mut case, random),
        Call::Patches => patches(&mut case, random),
        _ => {}
    }
    large(&mut case, number);
    if call == Call::ReadPly {
        case.file = Parts::new(&case.points, &case.faces).file();
        (case.points, case.faces) = (vec![], vec![]);
    }
    if number >= 4 && random.one_in(4) {
        for _ in 0..1 + random.below(3) {
            damage::add(&mut case, random);
        }
    }
    rooms(&mut case, random);
    case
}

/// The first four cases have as many faces or points as are allowed, and one more.
fn large(case: &mut Case, number: u64) {
    let most = if number < 2 { MOST_FACES } else { MOST_POINTS } + number % 2;
    match (case.call, number) {
        (Call::Line, _) | (_, 4..) => {}
        (Call::RepairPanel, 0 | 1) => pack::add(case, &Case { points: vec![0.0; 3], faces: vec![0; 3 * most as usize], ..Case::new(Call::Repair) }),
        (Call::RepairPanel, _) => pack::add(case, &Case { points: vec![0.0; 3 * most as usize], ..Case::new(Call::Repair) }),
        (_, 0 | 1) => case.faces = vec![0; 3 * most as usize],
        (Call::Check, _) => case.point_count = most,
        _ => case.points = vec![0.0; 3 * most as usize],
    }
}

/// A count for the report line, of any number of digits.
fn count(random: &mut Random) -> u32 {
    match random.below(4) {
        0 | 1 => 0,
        2 => random.choose(&[1, 9, 10, 99, 100, 4_294_967_295, 4_294_967_290, 1_000_000_000, 999_999_999]),
        _ => (random.next() >> (32 + random.below(32))) as u32,
    }
}

/// A mesh with some defects; for other calls than repair often one that the Rust has mended.
fn mesh(case: &mut Case, random: &mut Random) {
    let size = match random.below(4000) {
        0 => 50,
        1..40 => 15,
        _ => 5,
    };
    let mut mesh = meshes::any(random, size);
    for _ in 0..random.choose(&[0, 0, 0, 1, 1, 2, 3, 5, size + 3]) {
        defects::add(&mut mesh, random);
    }
    places::give(&mut mesh, random);
    put(case, mesh);
    if case.call != Call::Repair && random.one_in(2) {
        case.options = random.choose(&[63, 63, 31, 47, 55]);
        case.threshold = random.choose(&[0.0, degenerate_sin()]);
        let (points, faces, _) = there::mended(case);
        case.points = points;
        case.faces = faces;
        (case.options, case.threshold) = (0, 0.0);
    }
    if case.call == Call::Check {
        case.point_count = case.points.len() as u64 / 3;
        case.points.clear();
    }
}

/// How many meshes a pack has: mostly a few, sometimes none, the forty of a keyboard, or as many as are allowed.
fn how_many(random: &mut Random) -> usize {
    match random.below(400) {
        0 => MOST_MESHES,
        1..9 => 40,
        9..17 => 0,
        _ => 1 + random.below(12),
    }
}

/// A pack of meshes, each as a repair of its own gets it, of which none, some or all are damaged; the settings suit one of them.
fn packed(case: &mut Case, random: &mut Random) {
    let mut meshes = vec![Case::new(Call::Repair); how_many(random)];
    meshes.iter_mut().for_each(|own| mesh(own, random));
    let mut suited = if meshes.is_empty() { Case::new(Call::Repair) } else { random.choose(&meshes) };
    settings(&mut suited, random);
    (case.threshold, case.options) = (suited.threshold, suited.options);
    let damaged = random.choose(&[0, 1, 2, 2, 5, 10]);
    for own in &mut meshes {
        if random.below(10) < damaged {
            damage::of_mesh(own, random);
        }
        pack::add(case, own);
    }
}

/// The mesh as flat lists.
fn put(case: &mut Case, mesh: Mesh) {
    case.points = mesh.points.into_iter().flatten().collect();
    case.faces = mesh.faces.into_iter().flatten().collect();
}

/// `DEGENERATE_SIN` as the originals have it.
pub fn degenerate_sin() -> f64 {
    env!("DEGENERATE_SIN").parse().expect("a float")
}

/// Any options, and a threshold that is special or lies at the edge for some face.
fn settings(case: &mut Case, random: &mut Random) {
    case.options = if random.one_in(3) { 63 } else { random.below(64) as u32 };
    let below_one = 1f64.next_down();
    let sine = degenerate_sin();
    case.threshold = random.choose(&[0.0, -0.0, f64::from_bits(1), sine, sine, sine, 2f64.powi(-10), 2f64.powi(-10), 0.5, below_one, 1.0]);
    if case.f() > 0 && random.one_in(3) {
        let face = case.face(random.below(case.f() as usize));
        let edge = sine_of(case, face);
        let near = [edge, edge.next_up(), edge.next_down(), edge.next_up().next_up()];
        case.threshold = Some(random.choose(&near)).filter(|s| (0.0..=1.0).contains(s)).unwrap_or(case.threshold);
    }
}

/// About the threshold at which a face becomes degenerate.
fn sine_of(case: &Case, face: [u32; 3]) -> f64 {
    let [p, q, r]: [[f64; 3]; 3] = face.map(|v| std::array::from_fn(|k| case.points[3 * v as usize + k]));
    let [a, b]: [[f64; 3]; 2] = [std::array::from_fn(|k| q[k] - p[k]), std::array::from_fn(|k| r[k] - p[k])];
    let norm = |v: [f64; 3]| (v[0] * v[0] + v[1] * v[1] + v[2] * v[2]).sqrt();
    let cross = [a[1] * b[2] - a[2] * b[1], a[2] * b[0] - a[0] * b[2], a[0] * b[1] - a[1] * b[0]];
    norm(cross) / norm(a) / norm(b)
}

/// Labels for few or many patches, some of them empty, and limits near the values that the patches have.
fn patches(case: &mut Case, random: &mut Random) {
    let faces = case.f() as usize;
    let count = random.choose(&[0, 1, 1, 2, 3, 5, 8, faces, faces + 3]);
    let label = |random: &mut Random| if count == 0 || random.one_in(8) { NO_PATCH } else { random.below(count) as u32 };
    case.labels = (0..faces).map(|_| label(random)).collect();
    case.patch_count = count as u64;
    let near: Vec<f64> = there::measures(case);
    let real = |random: &mut Random| {
        let x = random.choose(&near);
        random.choose(&[x, x, x.next_up(), x.next_down(), 0.0, -0.0, 1.0, 0.5, f64::NAN, f64::INFINITY, -1.0, f64::NEG_INFINITY])
    };
    case.filter = Filter {
        set: random.below(32) as u32,
        reals: std::array::from_fn(|_| real(random)),
        min_faces: random.choose(&[0, 1, 2, 3, 5, u64::MAX]),
        keep_largest_n: random.choose(&[0, 1, 1, 2, 3, 7, u64::MAX]),
    };
}

/// Rooms exactly full, one short, or longer; clean or dirty. What is too large for memory is lent short.
fn rooms(case: &mut Case, random: &mut Random) {
    let way = random.below(6);
    let dirty = random.below(4);
    let stated = case.stated();
    for (room, (_, stated)) in case.rooms.iter_mut().zip(&stated) {
        room.dirt = if dirty == 0 || dirty == 1 && random.one_in(2) { 0 } else { random.next() | 2 };
        let fewer = random.below(1 + (*stated).min(4096) as usize) as i128;
        room.extra = match way {
            0 | 1 => 0,
            2 => random.between(1, 9) as i128,
            3 => random.between(0, 3) as i128,
            4 => random.choose(&[0, 0, 0, 0, 0, 0, 0, 0, -1, 1]),
            _ => random.choose(&[0, 0, 0, 40, -fewer]),
        };
    }
    if random.one_in(6) {
        let k = random.below(case.rooms.len());
        case.rooms[k].extra = -1;
    }
    if case.call == Call::ReadPly && ply::form(&case.file).is_none() && random.one_in(2) {
        // Room for what the file might be taken for.
        case.rooms.iter_mut().for_each(|room| room.extra += 5000);
    }
    for (room, (_, stated)) in case.rooms.iter_mut().zip(&stated) {
        if *stated >= 1 << 20 {
            room.most = 4096;
        }
    }
    if case.call != Call::Line && random.one_in(3) {
        let front = front(case, random);
        case.rooms.last_mut().expect("a work room").front = front;
    }
}

/// How many entries of a work room are zero in front: any number, or about as many as a table of edges takes, with one or four rows of a point each.
fn front(case: &Case, random: &mut Random) -> u64 {
    let (p, f) = (case.p(), case.f());
    let any = random.below(1 + case.stated().last().expect("a work room").1.min(4096) as usize) as u64;
    let table = 15u64.saturating_mul(f).saturating_add(p);
    let rows = table.saturating_add(3u64.saturating_mul(p));
    random.choose(&[any, table, table.saturating_add(1), rows, rows.saturating_add(1)])
}
