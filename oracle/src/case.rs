//! A case: a call, its input and the rooms that are lent to it.

use crate::ply;

#[derive(Clone, Copy, PartialEq, Eq, Debug)]
pub enum Call {
    Repair,
    Edges,
    Loops,
    Check,
    Patches,
    Line,
    WritePly,
    ReadPly,
    RepairPanel,
}

pub const CALLS: [Call; 9] =
    [Call::Repair, Call::Edges, Call::Loops, Call::Check, Call::Patches, Call::Line, Call::WritePly, Call::ReadPly, Call::RepairPanel];

impl Call {
    /// The call's name in the library, after `shell_`.
    pub fn name(self) -> &'static str {
        ["repair", "edges", "loops", "check", "patches", "line", "write_ply", "read_ply", "repair_panel"][self as usize]
    }

    /// The names of the call's rooms, in checking order.
    pub fn rooms(self) -> &'static [&'static str] {
        match self {
            Call::Repair => &["points", "faces", "report", "origins", "work"],
            Call::Edges => &["edges", "lengths", "face edges", "work"],
            Call::Loops => &["loop vertices", "loop ends", "work"],
            Call::Check => &["work"],
            Call::Patches => &["face counts", "numbers", "flags", "work"],
            Call::Line => &["line"],
            Call::WritePly => &["file", "work"],
            Call::ReadPly => &["points", "faces", "work"],
            Call::RepairPanel => &["points", "faces", "report", "origins", "meshes", "work"],
        }
    }
}

pub const MOST_POINTS: u64 = 4_194_304;
pub const MOST_FACES: u64 = 1_048_576;
pub const MOST_PATCHES: u64 = 1_048_576;
pub const MOST_MESHES: usize = 256;
pub const NO_PATCH: u32 = u32::MAX;

/// How many counts a report has.
pub const REPORT: usize = 11;

/// The patch filter: bit k of `set` says whether limit k is there; an absent limit's number means nothing.
#[derive(Clone, Copy, Default)]
pub struct Filter {
    pub set: u32,
    pub min_faces: u64,
    pub reals: [f64; 3], // min_area, min_aabb_diagonal, min_area_fraction
    pub keep_largest_n: u64,
}

/// A room: how many entries it has more than stated (fewer, if negative) but at most, the seed of what it holds, and how many entries in front are zero
/// before that begins; with seed 0 all that are stated are.
#[derive(Clone, Copy)]
pub struct Room {
    pub extra: i128,
    pub most: usize,
    pub dirt: u64,
    pub front: u64,
}

/// A room that is exact and clean. A harness has no endless memory: no room is longer than 2^27.
pub const EXACT: Room = Room { extra: 0, most: 1 << 27, dirt: 0, front: 0 };

/// The work room of P points and F faces.
fn work(p: u128, f: u128) -> u128 {
    16 * p + 64 * f + 64
}

/// The input of every call in one record; a call reads its own part of it. The points and faces of a pack are those of all its meshes.
#[derive(Clone)]
pub struct Case {
    pub call: Call,
    pub points: Vec<f64>,
    pub point_count: u64,
    pub faces: Vec<u32>,
    pub threshold: f64,
    pub options: u32,
    pub labels: Vec<u32>,
    pub patch_count: u64,
    pub filter: Filter,
    pub counts: Vec<u32>,
    pub file: Vec<u8>,
    pub point_counts: Vec<u32>,
    pub face_counts: Vec<u32>,
    pub rooms: Vec<Room>,
}

impl Case {
    /// A case of no points and no faces, with exact and clean rooms.
    pub fn new(call: Call) -> Self {
        Case {
            call,
            points: vec![],
            point_count: 0,
            faces: vec![],
            threshold: 0.0,
            options: 0,
            labels: vec![],
            patch_count: 0,
            filter: Filter::default(),
            counts: vec![],
            file: vec![],
            point_counts: vec![],
            face_counts: vec![],
            rooms: vec![EXACT; call.rooms().len()],
        }
    }

    /// P: for the edge check a number of its own, for a PLY file what it tells, and 0 if it is not of the form.
    pub fn p(&self) -> u64 {
        match self.call {
            Call::Check => self.point_count,
            Call::ReadPly => ply::form(&self.file).map_or(0, |form| form.p),
            _ => self.points.len() as u64 / 3,
        }
    }

    /// F: for a PLY file what it tells, and 0 if it is not of the form.
    pub fn f(&self) -> u64 {
        match self.call {
            Call::ReadPly => ply::form(&self.file).map_or(0, |form| form.f),
            _ => self.faces.len() as u64 / 3,
        }
    }

    /// The corners of face i.
    pub fn face(&self, i: usize) -> [u32; 3] {
        [self.faces[3 * i], self.faces[3 * i + 1], self.faces[3 * i + 2]]
    }

    /// The faces by threes.
    pub fn triples(&self) -> Vec<[u32; 3]> {
        (0..self.faces.len() / 3).map(|i| self.face(i)).collect()
    }

    /// For each room the bytes of an entry and the stated number of entries.
    pub fn stated(&self) -> Vec<(usize, u128)> {
        let (p, f, c) = (self.p() as u128, self.f() as u128, self.patch_count as u128);
        let (m, work) = (self.point_counts.len() as u128, (4, work(p, f)));
        match self.call {
            Call::Repair => vec![(8, 3 * (p + 3 * f)), (4, 3 * f), (4, REPORT as u128), (4, f), work],
            Call::Edges => vec![(4, 6 * f), (8, 3 * f), (4, 3 * f), work],
            Call::Loops => vec![(4, 3 * f), (4, 3 * f), work],
            Call::Check => vec![work],
            Call::Patches => vec![(4, c), (8, 7 * c), (4, c), (4, 4 * c)],
            Call::Line => vec![(1, 512)],
            Call::WritePly => vec![(1, ply::length(p, f)), work],
            Call::ReadPly => vec![(8, 3 * p), (4, 3 * f), work],
            Call::RepairPanel => {
                vec![(8, 3 * (p + 3 * f)), (4, 3 * f), (4, REPORT as u128 * m), (4, f), (4, 4 * m), (4, self.largest_work())]
            }
        }
    }

    /// The work room of a pack: that of the mesh that has the largest, and 0 if there is none.
    fn largest_work(&self) -> u128 {
        self.point_counts.iter().zip(&self.face_counts).map(|(&p, &f)| work(p as u128, f as u128)).max().unwrap_or(0)
    }

    /// How many entries of each room are zero in front.
    pub fn clean(&self) -> Vec<u128> {
        let clean = |((_, stated), room): ((usize, u128), &Room)| if room.dirt == 0 { stated } else { room.front as u128 };
        self.stated().into_iter().zip(&self.rooms).map(clean).collect()
    }

    /// How many entries each room has.
    pub fn lengths(&self) -> Vec<usize> {
        let length = |((_, stated), room): ((usize, u128), &Room)| (stated as i128 + room.extra).clamp(0, room.most as i128) as usize;
        self.stated().into_iter().zip(&self.rooms).map(length).collect()
    }
}
