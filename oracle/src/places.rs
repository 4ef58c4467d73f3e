//! Where the points stand: as they are, or moved to where rounding is hard.

use crate::meshes::Mesh;
use crate::random::Random;

/// The largest coordinate that is accepted.
pub const LARGEST: f64 = (1u128 << 100) as f64;

/// Moves all points of a mesh in one way.
pub fn give(mesh: &mut Mesh, random: &mut Random) {
    match random.below(16) {
        0 => each(mesh, |_| 0.0),
        1 => each(mesh, |_| random.between(-3, 3) as f64),
        2 => each(mesh, |_| random.real() - 0.5),
        3 => each(mesh, |_| random.choose(&[0.0, -0.0, 1.0, -1.0])),
        4 => each(mesh, |_| special(random)),
        5 => scale(mesh, f64::exp2(random.between(-1070, -1000) as f64)),
        6 => scale(mesh, f64::exp2(random.between(-560, -240) as f64)),
        7 => largest(mesh),
        8 => each(mesh, |x| (x * 2.0).round()),
        9 => each(mesh, |x| x + (random.real() - 0.5) * 1e-9),
        10 => each(mesh, |x| if random.one_in(8) { special(random) } else { x }),
        11 => mesh.points.iter_mut().for_each(|p| *p = [p[0], 2.0 * p[0], -p[0]]),
        12 => each(mesh, |x| if x == 0.0 { -0.0 } else { x }),
        _ => {}
    }
}

/// Every coordinate anew.
fn each(mesh: &mut Mesh, mut new: impl FnMut(f64) -> f64) {
    mesh.points.iter_mut().flatten().for_each(|x| *x = new(*x));
}

/// Every coordinate times a factor.
fn scale(mesh: &mut Mesh, factor: f64) {
    each(mesh, |x| x * factor);
}

/// Scaled until some coordinate is as large as it may be.
fn largest(mesh: &mut Mesh) {
    let most = mesh.points.iter().flatten().fold(0.0, |most: f64, x| most.max(x.abs()));
    if most > 0.0 {
        each(mesh, |x| (x / most * LARGEST).clamp(-LARGEST, LARGEST));
    }
}

/// A coordinate at some edge of the accepted domain.
fn special(random: &mut Random) -> f64 {
    let size = random.choose(&[
        0.0,
        1.0,
        2.0,
        0.1,
        f64::from_bits(1),
        f64::MIN_POSITIVE,
        2f64.powi(-540),
        2f64.powi(-537),
        1.0 + f64::EPSILON,
        2f64.powi(52),
        LARGEST,
        LARGEST.next_down(),
        LARGEST / 2.0,
    ]);
    if random.one_in(2) { size } else { -size }
}
