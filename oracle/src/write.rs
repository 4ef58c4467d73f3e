//! A mesh that is timed, as a file for other programs: OFF, or binary STL or PLY where the name ends so.

use crate::meshes::Mesh;
use crate::ply::Parts;
use crate::shapes;
use std::fmt::Write;
use std::process::ExitCode;

/// Points and faces as they are.
fn off(mesh: &Mesh) -> Vec<u8> {
    let mut text = format!("OFF\n{} {} 0\n", mesh.points.len(), mesh.faces.len());
    for [x, y, z] in &mesh.points {
        writeln!(text, "{x} {y} {z}").expect("a string grows");
    }
    for [a, b, c] in &mesh.faces {
        writeln!(text, "3 {a} {b} {c}").expect("a string grows");
    }
    text.into_bytes()
}

/// Each face by its three places, in single precision.
fn stl(mesh: &Mesh) -> Vec<u8> {
    let mut bytes = vec![0; 80];
    bytes.extend((mesh.faces.len() as u32).to_le_bytes());
    for face in &mesh.faces {
        bytes.extend([0; 12]);
        bytes.extend(face.iter().flat_map(|&v| mesh.points[v as usize]).flat_map(|x| (x as f32).to_le_bytes()));
        bytes.extend([0; 2]);
    }
    bytes
}

/// Points and faces as they are, by their bits.
fn ply(mesh: &Mesh) -> Vec<u8> {
    Parts::new(&mesh.points.concat(), &mesh.faces.concat()).file()
}

/// Writes a shape to a file.
pub fn run(shape: &str, faces: usize, file: &str) -> ExitCode {
    let Some(mesh) = shapes::named(shape, faces) else {
        eprintln!("oracle: no shape {shape}");
        return ExitCode::from(2);
    };
    let bytes = match file.rsplit_once('.') {
        Some((_, "stl")) => stl(&mesh),
        Some((_, "ply")) => ply(&mesh),
        _ => off(&mesh),
    };
    std::fs::write(file, bytes).expect("the file can be written");
    ExitCode::SUCCESS
}
