//! Damaged input: what document 01 refuses, and values at the edge of it.

use crate::case::{Call, Case, MOST_FACES, MOST_MESHES, MOST_PATCHES, MOST_POINTS};
use crate::places::LARGEST;
use crate::ply::{self, Parts};
use crate::random::Random;

/// One damage of a kind that the call can have.
pub fn add(case: &mut Case, random: &mut Random) {
    let kinds: &[fn(&mut Case, &mut Random)] = match case.call {
        Call::Repair => &[lengths, coordinate, coordinate, corner, corner, threshold, options],
        Call::Edges | Call::Loops | Call::WritePly => &[lengths, coordinate, corner],
        Call::ReadPly => &[file_text, file_count, file_byte, file_length, file_exchange, file_triple, file_coordinate, file_corner, file_corner],
        Call::Check => &[lengths, corner, point_count],
        Call::Patches => &[lengths, coordinate, corner, label, label, label_count, patch_count],
        Call::Line => &[counts],
        Call::RepairPanel => &[lengths, row_length, mesh_count, counted_elsewhere, in_32_bits, meshes, threshold, options],
    };
    random.choose(kinds)(case, random);
}

/// One damage of the points or the faces, or one of each, for which a mesh of a pack may be refused by itself.
pub fn of_mesh(mesh: &mut Case, random: &mut Random) {
    let way = random.below(5);
    if way < 3 {
        coordinate(mesh, random);
    }
    if way > 1 {
        corner(mesh, random);
    }
}

/// Points or faces one or two entries longer or shorter.
fn lengths(case: &mut Case, random: &mut Random) {
    let of_points = case.call != Call::Check && random.one_in(2);
    match (random.one_in(2), of_points) {
        (true, true) => case.points.extend(vec![0.0; 1 + random.below(2)]),
        (true, false) => case.faces.extend(vec![0; 1 + random.below(2)]),
        (false, true) => drop(case.points.pop()),
        (false, false) => drop(case.faces.pop()),
    }
}

/// A coordinate outside its domain, or just inside.
fn coordinate(case: &mut Case, random: &mut Random) {
    if case.points.is_empty() {
        return;
    }
    let at = random.below(case.points.len());
    let above = LARGEST.next_up();
    let values = [f64::NAN, -f64::NAN, f64::INFINITY, f64::NEG_INFINITY, above, -above, f64::MAX, LARGEST, -LARGEST];
    case.points[at] = random.choose(&values);
}

/// A corner that is no point, or just is one.
fn corner(case: &mut Case, random: &mut Random) {
    if case.faces.is_empty() {
        return;
    }
    let at = random.below(case.faces.len());
    let p = case.p() as u32;
    case.faces[at] = random.choose(&[p, p, p + 1, u32::MAX, p.saturating_sub(1), 1 << 31]);
}

/// One of the two rows of a pack.
fn row<'a>(case: &'a mut Case, random: &mut Random) -> &'a mut Vec<u32> {
    if random.one_in(2) { &mut case.point_counts } else { &mut case.face_counts }
}

/// A row of a pack that is longer or shorter than the other; with a 0 more its sum is what it was.
fn row_length(case: &mut Case, random: &mut Random) {
    let row = row(case, random);
    if random.one_in(3) {
        row.pop();
    } else {
        row.push(random.choose(&[0, 0, 1, u32::MAX]));
    }
}

/// A count of a pack that is another, or just is not.
fn mesh_count(case: &mut Case, random: &mut Random) {
    let row = row(case, random);
    if !row.is_empty() {
        let at = random.below(row.len());
        let count = row[at];
        row[at] = random.choose(&[count, count.wrapping_add(1), count.saturating_sub(1), 0, 1 << 31, u32::MAX, u32::MAX / 3 + 1]);
    }
}

/// A point or a face of a pack counted to the mesh behind it, so that the sums are what they were.
fn counted_elsewhere(case: &mut Case, random: &mut Random) {
    let row = row(case, random);
    if row.len() > 1 {
        let at = random.below(row.len() - 1);
        let more = row[at].min(1);
        row[at] -= more;
        row[at + 1] = row[at + 1].wrapping_add(more);
    }
}

/// The last count of a pack 1,431,655,766 larger, and two entries more: three times that is 2 in 32 bits.
fn in_32_bits(case: &mut Case, random: &mut Random) {
    let larger = |count: &mut u32| *count = count.wrapping_add(1_431_655_766);
    if random.one_in(2) {
        case.point_counts.last_mut().map(larger);
        case.points.extend([0.0; 2]);
    } else {
        case.face_counts.last_mut().map(larger);
        case.faces.extend([0; 2]);
    }
}

/// About as many meshes in a pack as are allowed; those behind have no points and no faces.
fn meshes(case: &mut Case, random: &mut Random) {
    let more = random.choose(&[MOST_MESHES - 1, MOST_MESHES, MOST_MESHES + 1, MOST_MESHES + 1, MOST_MESHES + 44]);
    for row in [&mut case.point_counts, &mut case.face_counts] {
        row.resize(row.len().max(more), 0);
    }
}

/// A threshold outside 0..1, or −0, which is inside.
fn threshold(case: &mut Case, random: &mut Random) {
    let values = [f64::NAN, -f64::from_bits(1), 1f64.next_up(), f64::INFINITY, f64::NEG_INFINITY, -1.0, 2.0, -f64::NAN, -0.0];
    case.threshold = random.choose(&values);
}

/// Options above 63, or just 63.
fn options(case: &mut Case, random: &mut Random) {
    case.options = random.choose(&[64, 65, 127, 128, 1 << 31, u32::MAX, 63]);
}

/// P for the edge check: at and above the limit, or too small for the faces.
fn point_count(case: &mut Case, random: &mut Random) {
    let p = case.point_count;
    case.point_count = random.choose(&[MOST_POINTS, MOST_POINTS + 1, u64::MAX, 1 << 32, p.saturating_sub(1), 0]);
}

/// A label that is no patch, or just is one.
fn label(case: &mut Case, random: &mut Random) {
    if case.labels.is_empty() {
        return;
    }
    let at = random.below(case.labels.len());
    let count = case.patch_count as u32;
    case.labels[at] = random.choose(&[count, count, count.wrapping_add(1), u32::MAX - 1, u32::MAX, count.saturating_sub(1)]);
}

/// A label more or fewer than there are faces.
fn label_count(case: &mut Case, random: &mut Random) {
    if random.one_in(2) {
        case.labels.push(random.choose(&[0, u32::MAX, case.patch_count as u32]));
    } else {
        case.labels.pop();
    }
}

/// A patch count at or above the limit, or too small for the labels.
fn patch_count(case: &mut Case, random: &mut Random) {
    let count = case.patch_count;
    case.patch_count = random.choose(&[MOST_PATCHES, MOST_PATCHES + 1, u64::MAX, 1 << 32, count.saturating_sub(1), 0]);
}

/// More or fewer than eleven counts, or just eleven.
fn counts(case: &mut Case, random: &mut Random) {
    let length = random.choose(&[0, 1, 10, 12, 11, 20, 30]);
    case.counts.resize(length, 7);
}

/// Puts a text in the place of another, where that first stands in a file.
fn replace(file: &mut Vec<u8>, old: &str, new: &str) {
    if let Some(at) = file.windows(old.len()).position(|bytes| bytes == old.as_bytes()) {
        file.splice(at..at + old.len(), new.bytes());
    }
}

/// A PLY file with a header of another form, as other programs write it.
fn file_text(case: &mut Case, random: &mut Random) {
    let (old, new) = random.choose(&[
        ("\n", "\r\n"),
        ("1.0\n", "1.0\r\n"),
        ("end_header\n", "end_header\r\n"),
        ("element vertex", "comment made by hand\nelement vertex"),
        ("end_header", "obj_info 1\nend_header"),
        ("element face", "property uchar red\nelement face"),
        ("end_header", "element edge 0\nend_header"),
        ("double x", "float64 x"),
        ("double y", "float y"),
        ("double x\nproperty double y", "double y\nproperty double x"),
        ("uchar int", "uint8 int32"),
        ("uchar int", "uchar uint"),
        ("vertex_indices", "vertex_index"),
        ("little", "big"),
        ("binary_little_endian", "ascii"),
        ("1.0", "1.1"),
        ("double z", "double z "),
        ("double x", "double  x"),
        ("ply", "PLY"),
    ]);
    replace(&mut case.file, old, new);
}

/// A PLY file with a count that is another, or written otherwise, or does not fit into 64 bits.
fn file_count(case: &mut Case, random: &mut Random) {
    let (p, f) = (case.p(), case.f());
    let (old, n) = random.choose(&[("element vertex ", p), ("element face ", f)]);
    let new = match random.below(12) {
        0 => format!("0{n}"),
        1 => format!("000000000000000000000{n}"),
        2 => format!("+{n}"),
        3 => String::new(),
        4 => format!("{}", n + 1),
        5 => format!("{}", n.saturating_sub(1)),
        6 => format!("{}", n as u128 + (1 << 64)),
        7 => format!("{}", n + (1 << 61)),
        8 => "9".repeat(random.choose(&[18, 19, 20, 38, 39, 40])),
        9 => format!("-{n}"),
        10 => format!("{n} "),
        _ => format!("{}", random.choose(&[MOST_POINTS, MOST_POINTS + 1, MOST_FACES, MOST_FACES + 1, 1 << 32])),
    };
    replace(&mut case.file, &format!("{old}{n}\n"), &format!("{old}{new}\n"));
}

/// A PLY file with a byte that is another, or too many, or lost, mostly in its header.
fn file_byte(case: &mut Case, random: &mut Random) {
    let most = if random.one_in(4) { case.file.len() } else { case.file.len().min(180) };
    if most == 0 {
        return;
    }
    let at = random.below(most);
    let byte = random.choose(&[0, 10, 13, 32, b'0', b'1', b'9', 255, case.file[at] ^ 1, case.file[at] ^ 32, case.file[at]]);
    match random.below(3) {
        0 => case.file[at] = byte,
        1 => case.file.insert(at, byte),
        _ => drop(case.file.remove(at)),
    }
}

/// A PLY file that is longer or shorter than it tells.
fn file_length(case: &mut Case, random: &mut Random) {
    if random.one_in(2) {
        case.file.extend(vec![10; random.choose(&[1, 1, 12, 13, 24])]);
    } else {
        let less = random.choose(&[1, 1, 12, 13, 24, 1000]);
        case.file.truncate(case.file.len().saturating_sub(less));
    }
}

/// A PLY file of the same length with 13 vertices fewer and 24 faces more, or the other way round.
fn file_exchange(case: &mut Case, random: &mut Random) {
    let Some(form) = ply::form(&case.file) else { return };
    let header = match (random.one_in(2), form.p >= 13, form.f >= 24) {
        (true, true, _) | (false, true, false) => ply::header(form.p - 13, form.f + 24),
        (_, _, true) => ply::header(form.p + 13, form.f - 24),
        _ => return,
    };
    case.file.splice(..form.body, header);
}

/// Changes one of the parts of a PLY file that is of the form.
fn file_part(case: &mut Case, change: impl FnOnce(&mut Parts)) {
    if let Some(mut parts) = Parts::of(&case.file) {
        change(&mut parts);
        case.file = parts.file();
    }
}

/// A face of a PLY file that does not count three corners, or does.
fn file_triple(case: &mut Case, random: &mut Random) {
    file_part(case, |parts| {
        if !parts.faces.is_empty() {
            let at = random.below(parts.faces.len());
            parts.faces[at][0] = random.choose(&[0, 1, 2, 3, 4, 5, 131, 255]);
        }
    });
}

/// A coordinate of a PLY file outside its domain, or just inside.
fn file_coordinate(case: &mut Case, random: &mut Random) {
    file_part(case, |parts| {
        let mut inner = Case::new(Call::WritePly);
        inner.points = parts.points();
        coordinate(&mut inner, random);
        parts.vertices = Parts::new(&inner.points, &[]).vertices;
    });
}

/// A corner of a PLY file that is no point, or just is one; negative ones too.
fn file_corner(case: &mut Case, random: &mut Random) {
    let p = case.p() as u32;
    file_part(case, |parts| {
        if !parts.faces.is_empty() {
            let (at, k) = (random.below(parts.faces.len()), random.below(3));
            let corner = random.choose(&[p, p, p + 1, u32::MAX, u32::MAX, p.saturating_sub(1), 1 << 31, i32::MAX as u32]);
            parts.faces[at][1 + 4 * k..5 + 4 * k].copy_from_slice(&corner.to_le_bytes());
        }
    });
}
