//! PLY files of the one form that item 5 of document 02 has. The Rust has none: what the calls must do with them is written here from the document alone.

use std::fmt::Display;

/// The lines of the header; two of them have a count behind them.
const LINES: [&str; 9] = [
    "ply",
    "format binary_little_endian 1.0",
    "element vertex ",
    "property double x",
    "property double y",
    "property double z",
    "element face ",
    "property list uchar int vertex_indices",
    "end_header",
];
const VERTICES: usize = 2;
const FACES: usize = 6;

/// The bytes of a vertex and of a face.
const VERTEX: usize = 24;
const FACE: usize = 13;

/// The header with these two counts, whatever they are.
pub fn header(vertices: impl Display, faces: impl Display) -> Vec<u8> {
    let line = |(k, text): (usize, &&str)| match k {
        VERTICES => format!("{text}{vertices}\n"),
        FACES => format!("{text}{faces}\n"),
        _ => format!("{text}\n"),
    };
    LINES.iter().enumerate().map(line).collect::<String>().into_bytes()
}

/// The body of a file, vertex by vertex and face by face.
#[derive(Clone, Default)]
pub struct Parts {
    pub vertices: Vec<[u8; VERTEX]>,
    pub faces: Vec<[u8; FACE]>,
}

impl Parts {
    /// The parts of a mesh.
    pub fn new(points: &[f64], faces: &[u32]) -> Self {
        let vertex = |row: &[f64]| std::array::from_fn(|i| row[i / 8].to_bits().to_le_bytes()[i % 8]);
        let face = |row: &[u32]| std::array::from_fn(|i| if i == 0 { 3 } else { row[(i - 1) / 4].to_le_bytes()[(i - 1) % 4] });
        Parts { vertices: points.chunks_exact(3).map(vertex).collect(), faces: faces.chunks_exact(3).map(face).collect() }
    }

    /// The parts of a file, if it is of the form.
    pub fn of(file: &[u8]) -> Option<Self> {
        let form = form(file)?;
        let (vertices, faces) = file[form.body..].split_at(VERTEX * form.p as usize);
        let vertices = vertices.chunks_exact(VERTEX).map(|bytes| bytes.try_into().expect("a vertex")).collect();
        Some(Parts { vertices, faces: faces.chunks_exact(FACE).map(|bytes| bytes.try_into().expect("a face")).collect() })
    }

    /// The file that has these parts.
    pub fn file(&self) -> Vec<u8> {
        let header = header(self.vertices.len(), self.faces.len());
        header.into_iter().chain(self.vertices.iter().flatten().copied()).chain(self.faces.iter().flatten().copied()).collect()
    }

    /// The coordinates.
    pub fn points(&self) -> Vec<f64> {
        let all: Vec<u8> = self.vertices.iter().flatten().copied().collect();
        all.chunks_exact(8).map(|bytes| f64::from_bits(u64::from_le_bytes(bytes.try_into().expect("eight bytes")))).collect()
    }

    /// How many corners each face says that it has.
    pub fn counts(&self) -> impl Iterator<Item = u8> {
        self.faces.iter().map(|face| face[0])
    }

    /// The corners, three a face.
    pub fn corners(&self) -> Vec<u32> {
        let corner = |face: &[u8; FACE], k: usize| u32::from_le_bytes(face[1 + 4 * k..5 + 4 * k].try_into().expect("four bytes"));
        self.faces.iter().flat_map(|face| [0, 1, 2].map(|k| corner(face, k))).collect()
    }
}

/// What a file of the form tells: its points, its faces, and where its body begins.
pub struct Form {
    pub p: u64,
    pub f: u64,
    pub body: usize,
}

/// A decimal number without leading zeros, or nothing. More than 38 digits are no number of bytes that a file can have.
fn count(text: &[u8]) -> Option<u128> {
    let plain = !text.is_empty() && text.iter().all(u8::is_ascii_digit) && (text[0] != b'0' || text.len() == 1);
    if plain && text.len() <= 38 { std::str::from_utf8(text).ok()?.parse().ok() } else { None }
}

/// The two counts of a file whose header is of the form, read by `count`, and where its body begins.
fn counts(file: &[u8], count: impl Fn(&[u8]) -> Option<u128>) -> Option<(u128, u128, usize)> {
    let (mut at, mut found) = (0, [0, 0]);
    for (k, text) in LINES.iter().enumerate() {
        let line = file[at..].split(|&byte| byte == b'\n').next()?;
        let behind = line.strip_prefix(text.as_bytes())?;
        match k {
            VERTICES => found[0] = count(behind)?,
            FACES => found[1] = count(behind)?,
            _ if behind.is_empty() => {}
            _ => return None,
        }
        at += line.len() + 1;
        if at > file.len() {
            return None;
        }
    }
    Some((found[0], found[1], at))
}

/// What a file tells, if it is of the form and as long as it tells.
pub fn form(file: &[u8]) -> Option<Form> {
    let (p, f, body) = counts(file, count)?;
    let [p, f] = [u64::try_from(p).ok()?, u64::try_from(f).ok()?];
    let length = VERTEX as u128 * p as u128 + FACE as u128 * f as u128;
    (length == (file.len() - body) as u128).then_some(Form { p, f, body })
}

/// How long the file of so many points and faces is.
pub fn length(p: u128, f: u128) -> u128 {
    header(p, f).len() as u128 + VERTEX as u128 * p + FACE as u128 * f
}

/// The file with its counts read by another rule, where its header is of the form by that rule.
fn recounted(file: &[u8], count: impl Fn(&[u8]) -> Option<u128>) -> Option<Vec<u8>> {
    let (p, f, body) = counts(file, count)?;
    Some([&header(p, f), &file[body..]].concat())
}

/// A number of any length, leading zeros too.
fn any(text: &[u8]) -> Option<u128> {
    std::str::from_utf8(text).ok().filter(|text| text.len() <= 38 && !text.starts_with('+'))?.parse().ok()
}

/// The file with counts that have lost their leading zeros.
pub fn without_zeros(file: &[u8]) -> Option<Vec<u8>> {
    recounted(file, any)
}

/// The file with counts that have lost all but their lowest 64 bits.
pub fn wrapped(file: &[u8]) -> Option<Vec<u8>> {
    recounted(file, |text| any(text).map(|n| n as u64 as u128))
}
