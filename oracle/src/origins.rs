//! Where the faces of a repair come from, which the Rust does not tell. Its output tells it where only one list rises strictly and names for each face an input
//! face in the same place; where several lists do, the passes in plain C (fuzz/passes.c) say which.

use crate::case::Case;

// The signature of fuzz/document.h: origins has room for F, and what is returned is how many stand there.
#[rustfmt::skip]
unsafe extern "C" {
    fn document_origins(points: *const f64, p: usize, faces: *const u32, f: usize, s: f64, options: u32, origins: *mut u32) -> usize;
}

/// The bits of the places of a face's corners.
fn corners(points: &[f64], face: &[u32]) -> [[u64; 3]; 3] {
    let place = |v: u32| [0, 1, 2].map(|k| points[3 * v as usize + k].to_bits());
    [place(face[0]), place(face[1]), place(face[2])]
}

/// Whether a face of the output stands where an input face does, at most with its last two corners exchanged.
fn stands(case: &Case, origin: usize, points: &[f64], face: &[u32]) -> bool {
    let ([a, b, c], is) = (corners(&case.points, &case.face(origin)), corners(points, face));
    is == [a, b, c] || is == [a, c, b]
}

/// The only list of origins that fits an output; nothing if there are several. Each face takes the first input face that is free for it, and from behind the
/// last: if that is the same list there is no other.
pub fn only(case: &Case, points: &[f64], faces: &[u32]) -> Option<Vec<u32>> {
    let (mut first, mut last) = (vec![], vec![]);
    for i in 0..case.f() as usize {
        if faces[3 * first.len()..].chunks_exact(3).next().is_some_and(|face| stands(case, i, points, face)) {
            first.push(i as u32);
        }
    }
    assert_eq!(3 * first.len(), faces.len(), "a face of the Rust is no input face");
    for i in (0..case.f() as usize).rev() {
        if faces[..faces.len() - 3 * last.len()].chunks_exact(3).next_back().is_some_and(|face| stands(case, i, points, face)) {
            last.push(i as u32);
        }
    }
    last.reverse();
    (first == last).then_some(first)
}

/// The origins by the passes in plain C.
pub fn by_passes(case: &Case) -> Vec<u32> {
    let mut origins = vec![0; case.f() as usize];
    let (p, f) = (case.p() as usize, case.f() as usize);
    let count = unsafe { document_origins(case.points.as_ptr(), p, case.faces.as_ptr(), f, case.threshold, case.options, origins.as_mut_ptr()) };
    origins.truncate(count);
    origins
}

/// The origins of the Rust's output. Those of the passes must fit it too.
pub fn of(case: &Case, points: &[f64], faces: &[u32]) -> Vec<u32> {
    only(case, points, faces).unwrap_or_else(|| {
        let origins = by_passes(case);
        let fit = faces.chunks_exact(3).zip(&origins).all(|(face, &origin)| stands(case, origin as usize, points, face));
        let rise = origins.windows(2).all(|pair| pair[0] < pair[1]);
        assert!(3 * origins.len() == faces.len() && fit && rise, "the origins of fuzz/passes.c do not fit the Rust's output");
        origins
    })
}
