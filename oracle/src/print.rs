//! A case in words, and for repair in the text that `meshfix` reads.

use crate::case::{Call, Case};
use crate::pack;

/// A float in short, with its bits where the short form does not say which float it is.
fn float(x: f64) -> String {
    let short = format!("{x}");
    if short.len() < 6 && !x.is_nan() { short } else { format!("{x:e}[{:016x}]", x.to_bits()) }
}

/// A row by threes, its beginning if it is long.
fn threes<T: Copy>(row: &[T], show: impl Fn(T) -> String) -> String {
    let group = |three: &[T]| three.iter().map(|x| show(*x)).collect::<Vec<_>>().join(" ");
    let groups: Vec<String> = row.chunks(3).take(100).map(group).collect();
    format!("{}{}", groups.join("; "), if row.len() > 300 { "; ..." } else { "" })
}

/// The beginning of a file: a header as it is written, with what is not of ASCII in hex.
fn bytes(file: &[u8]) -> String {
    let more = if file.len() > 1000 { "..." } else { "" };
    format!("{}{more}", file.iter().take(1000).flat_map(|byte| byte.escape_ascii()).map(char::from).collect::<String>())
}

/// Points and faces.
fn rows(case: &Case) -> String {
    format!("  points {}\n  faces {}\n", threes(&case.points, float), threes(&case.faces, |v| v.to_string()))
}

/// The rows of a pack, and its meshes as far as they have points or faces.
fn packed(case: &Case) -> String {
    let mut text = format!("  point counts {:?}\n  face counts {:?}\n", case.point_counts, case.face_counts);
    for (k, mesh) in pack::meshes(case).iter().enumerate().filter(|(_, mesh)| !mesh.points.is_empty() || !mesh.faces.is_empty()) {
        text += &format!("  mesh {k}\n{}", rows(mesh));
    }
    text
}

/// The case for a reader.
pub fn shown(case: &Case) -> String {
    let mut text = format!("call {}: ", case.call.name());
    if case.call == Call::Line {
        text += &format!("counts {:?}\n", case.counts);
    } else if case.call == Call::ReadPly {
        text += &format!("{} bytes, P = {}, F = {}\n  {}\n", case.file.len(), case.p(), case.f(), bytes(&case.file));
    } else if case.call == Call::Check {
        text += &format!("P = {}, {} entries of faces\n  faces {}\n", case.point_count, case.faces.len(), threes(&case.faces, |v| v.to_string()));
    } else {
        text += &format!("{} entries of points, {} of faces\n", case.points.len(), case.faces.len());
        text += &if case.call == Call::RepairPanel { packed(case) } else { rows(case) };
    }
    if case.call == Call::Repair || case.call == Call::RepairPanel {
        text += &format!("  options {}, s = {}\n", case.options, float(case.threshold));
    }
    if case.call == Call::Patches {
        let limits = &case.filter;
        let reals: Vec<String> = limits.reals.iter().map(|x| float(*x)).collect();
        text += &format!("  labels {:?}, C = {}\n  limits {:05b} (the lowest bit is min_faces): ", case.labels, case.patch_count, limits.set);
        text += &format!("{} {} {}\n", limits.min_faces, reals.join(" "), limits.keep_largest_n);
    }
    let lengths = case.lengths();
    if case.rooms[0].dirt & 1 == 1 {
        text += "  what is empty is NULL\n";
    }
    for (k, name) in case.call.rooms().iter().enumerate() {
        let behind = if case.rooms[k].front == 0 { String::new() } else { format!(" behind {} zeros", case.rooms[k].front) };
        let held = if case.rooms[k].dirt == 0 { "clean".to_string() } else { format!("dirty by {}{behind}", case.rooms[k].dirt) };
        text += &format!("  room {name}: {} entries, {} stated, {held}\n", lengths[k], case.stated()[k].1);
    }
    if case.call == Call::Repair && case.points.len() % 3 == 0 && case.faces.len() % 3 == 0 {
        text += &meshfix(case);
    }
    text
}

/// A repair as `meshfix` reads it.
fn meshfix(case: &Case) -> String {
    let mut text = format!("o\t{}\t{:016x}\n", case.options, case.threshold.to_bits());
    for p in case.points.chunks_exact(3).take(64) {
        text += &format!("p\t{:016x}\t{:016x}\t{:016x}\n", p[0].to_bits(), p[1].to_bits(), p[2].to_bits());
    }
    for f in case.faces.chunks_exact(3).take(64) {
        text += &format!("f\t{}\t{}\t{}\n", f[0], f[1], f[2]);
    }
    text
}
