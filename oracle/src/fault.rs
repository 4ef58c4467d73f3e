//! Faults put into the library's answer, to show that the harness sees them.

use crate::case::{Call, Case};
use crate::here::{Inputs, Reply};
use crate::lent::Lent;
use crate::ply::{self, Parts};
use crate::there::{self, Outcome};
use crate::{pack_fault, refuse};
use std::collections::BTreeMap;

/// What is wrong: something in the reply, in a room, behind a room; repeated and thin faces exchanged, or all counted as one of the two; origins that are off
/// by one, that are places of the list that pass 1 leaves, or behind which it is not cleared, and a short work room told at the origins' place; a short room
/// told by its place in a list of the rooms of edges and loops together; 8 told as 7, or before 7; a boundary that is not simple refused by the edge
/// call, or only where its work room is dirty; dirt left behind zeros; loops listed as they are walked; or the whole answer is that of another input,
/// without one bit of the options or limits, with the threshold's neighbour, without the second count, or with a sum of the first two that has lost its
/// 33rd bit; a check that hourglasses pass, one that asks for patches where it must ask for groups, one that unused points fail. Of PLY files: points and
/// faces counted in exchange; -0 lost; corners exchanged; bytes from the highest down; a byte behind the file changed; 4 before 14; a negative corner taken;
/// leading zeros, a trailing byte, or counts beyond 64 bits taken. Of packs: a gap where a refused mesh stood, or behind each mesh; eleven zeros for a refused
/// mesh, its size in the input told, or its place told as 0; entries told for points and faces; corners or origins counted through the pack; two meshes
/// exchanged; one report for all; a refused mesh that stops those behind it, or refuses the whole; rows of several lengths taken, sums that are right in 32
/// bits, or one mesh too many; faces that do not add up told at place 0; 2 before 1, 3 before 2, 6 before 3, a mesh's refusal before 6; rooms asked for the
/// accepted meshes alone, a work room for the first, or one that is cleared for the accepted alone.
#[derive(Clone, Copy, PartialEq, Debug)]
pub enum Fault {
    None,
    Without(u32),
    Threshold,
    Number,
    Place,
    Count,
    Answer,
    AnswerOfTwoFaces,
    NotCleared,
    WorkLeft,
    BehindStated,
    BehindRoom,
    BeforeRoom,
    RefusalWrites,
    InputChanged,
    KindsExchanged,
    AllRepeated,
    AllThin,
    OriginsOffByOne,
    OriginsOfPresent,
    OriginsNotCleared,
    WorkAtThree,
    SecondLeftOut,
    SumWraps,
    RoomOfBoth,
    BowtieRefused,
    BowtieRefusedInDirt,
    EightAsSeven,
    EightFirst,
    DirtLeft,
    LoopsWalked,
    HourglassPasses,
    PatchesAsked,
    UnusedFails,
    Miscounted,
    MinusZeroLost,
    CornersExchanged,
    HighByteFirst,
    BehindFile,
    FourFirst,
    NegativeTaken,
    ZerosTaken,
    TrailingTaken,
    CountWraps,
    GapLeft,
    GapBehindEach,
    ElevenZeros,
    EntriesTold,
    InputTold,
    PlaceLost,
    CornersThroughPack,
    OriginsThroughPack,
    MeshesExchanged,
    OneReport,
    RefusedStopsRest,
    RefusedStopsAll,
    RowsNotCompared,
    SumIn32Bits,
    FacesAtZero,
    OneMeshMore,
    MeshesFirst,
    SettingFirst,
    RoomFirst,
    MeshFirst,
    RoomsOfAccepted,
    WorkOfFirst,
    WorkOfAccepted,
}

/// The faults that a call can have. The edge check and the line have no room to be cleared beside the last one.
pub fn faults(call: Call) -> Vec<Fault> {
    use Fault::*;
    let mut all = vec![Number, Place, Count, Answer, WorkLeft, BehindStated, BehindRoom, BeforeRoom, RefusalWrites, InputChanged];
    match call {
        Call::Repair => all.extend([AnswerOfTwoFaces, NotCleared, Threshold, KindsExchanged, AllRepeated, AllThin]),
        Call::Edges => all.extend([AnswerOfTwoFaces, NotCleared, RoomOfBoth, DirtLeft, BowtieRefused, BowtieRefusedInDirt]),
        Call::Loops => all.extend([AnswerOfTwoFaces, NotCleared, RoomOfBoth, DirtLeft, EightAsSeven, EightFirst, LoopsWalked]),
        Call::Patches => all.extend([AnswerOfTwoFaces, NotCleared]),
        Call::Check => all.extend([AnswerOfTwoFaces, HourglassPasses, PatchesAsked, UnusedFails]),
        Call::Line => all.extend([SecondLeftOut, SumWraps]),
        Call::WritePly => all.extend([AnswerOfTwoFaces, MinusZeroLost, CornersExchanged, HighByteFirst, BehindFile]),
        Call::ReadPly => all.extend([AnswerOfTwoFaces, NotCleared, MinusZeroLost, CornersExchanged, HighByteFirst, Miscounted]),
        Call::RepairPanel => {
            all.extend([AnswerOfTwoFaces, NotCleared, Threshold, KindsExchanged, OriginsOffByOne, OriginsNotCleared, WorkOfAccepted])
        }
    }
    if call == Call::Repair {
        all.extend([OriginsOffByOne, OriginsOfPresent, OriginsNotCleared, WorkAtThree]);
    }
    if call == Call::ReadPly {
        all.extend([FourFirst, NegativeTaken, ZerosTaken, TrailingTaken, CountWraps]);
    }
    if call == Call::RepairPanel {
        all.extend(pack_fault::FAULTS);
    }
    let bits = [6, 0, 0, 0, 5, 0, 0, 0, 6][call as usize];
    all.extend((0..bits).map(Without));
    all
}

/// The outcome written as the library must write it, as far as there is room.
pub fn play(case: &Case, outcome: &Outcome, rooms: &mut [Lent]) -> Reply {
    if outcome.number == 0 {
        for (k, (size, stated)) in case.stated().into_iter().enumerate() {
            let room = rooms[k].length().min(stated as usize);
            let (bytes, start) = rooms[k].all_mut();
            bytes[start..start + size * room].fill(0);
            if let Some(row) = outcome.rows.get(k) {
                bytes[start..start + row.len()].copy_from_slice(row);
            }
        }
    }
    Reply { number: outcome.number, place: outcome.place, counts: outcome.counts.clone() }
}

/// Refused 8 at the lowest vertex at which the boundary is not simple, if there is one.
fn eight(case: &Case) -> Option<Outcome> {
    refuse::fault(case).map(|v| there::refused(case.call, 8, v))
}

/// The outcome of an edge check that says so.
fn says(yes: bool) -> Outcome {
    Outcome { number: 0, place: 0, counts: vec![yes as u64], rows: vec![] }
}

/// Whether the faces at each used point belong to one patch: to faces that are joined across edges, anywhere in the mesh.
fn one_patch_each(case: &Case) -> bool {
    let (faces, mut users, mut patch) = (case.triples(), BTreeMap::<_, Vec<usize>>::new(), BTreeMap::new());
    let edges = |[a, b, c]: [u32; 3]| [(a, b), (b, c), (c, a)].map(|(a, b)| (a.min(b), a.max(b)));
    faces.iter().enumerate().for_each(|(i, &face)| edges(face).into_iter().for_each(|edge| users.entry(edge).or_default().push(i)));
    for start in 0..faces.len() {
        let mut left = vec![start];
        while let Some(i) = left.pop() {
            if patch.insert(i, *patch.get(&i).unwrap_or(&start)).is_none() {
                left.extend(edges(faces[i]).iter().flat_map(|edge| users[edge].clone()));
            }
        }
    }
    let mut at = BTreeMap::new();
    faces.iter().enumerate().all(|(i, face)| face.iter().all(|v| at.insert(*v, patch[&i]).is_none_or(|before| before == patch[&i])))
}

/// Whether each point is a corner of some face.
fn all_used(case: &Case) -> bool {
    (0..case.p()).all(|v| case.faces.iter().any(|&corner| corner as u64 == v))
}

/// Lists each loop as it is walked.
fn turn(reply: &Reply, rooms: &mut [Lent]) {
    let ends = rooms[1].entries::<u32>(reply.counts[1] as usize).to_vec();
    let mut vertices = rooms[0].entries::<u32>(reply.counts[0] as usize).to_vec();
    let mut first = 0;
    for end in ends {
        vertices[first..end as usize].reverse();
        first = end as usize;
    }
    let (bytes, start) = rooms[0].all_mut();
    vertices.iter().enumerate().for_each(|(i, v)| bytes[start + 4 * i..start + 4 * i + 4].copy_from_slice(&v.to_ne_bytes()));
}

/// A PLY file that is refused 5 only for negative corners, taken as it is, if its rooms are large enough.
fn negative(case: &Case) -> Option<Outcome> {
    let parts = Parts::of(&case.file)?;
    let only = parts.corners().iter().all(|&v| (v as i32) < 0 || (v as u64) < case.p());
    let room = case.stated().iter().zip(case.lengths()).all(|((_, stated), length)| length as u128 >= *stated);
    (only && room).then(|| taken(&parts))
}

/// The parts of a PLY file with one thing done otherwise.
fn altered(fault: Fault, mut parts: Parts) -> Parts {
    match fault {
        Fault::MinusZeroLost => {
            let points: Vec<f64> = parts.points().iter().map(|&x| if x == 0.0 { 0.0 } else { x }).collect();
            parts.vertices = Parts::new(&points, &[]).vertices;
        }
        Fault::CornersExchanged => parts.faces.iter_mut().for_each(|face| face[5..13].rotate_left(4)),
        _ => {
            parts.vertices.iter_mut().flat_map(|vertex| vertex.chunks_exact_mut(8)).for_each(|bytes| bytes.reverse());
            parts.faces.iter_mut().flat_map(|face| face[1..].chunks_exact_mut(4)).for_each(|bytes| bytes.reverse());
        }
    }
    parts
}

/// The outcome of an accepted PLY call with one thing done otherwise.
fn otherwise(fault: Fault, case: &Case) -> Outcome {
    if case.call == Call::ReadPly {
        return taken(&altered(fault, Parts::of(&case.file).expect("a file of the form")));
    }
    let file = altered(fault, Parts::new(&case.points, &case.faces)).file();
    Outcome { number: 0, place: 0, counts: vec![file.len() as u64], rows: vec![file] }
}

/// The outcome of a PLY file that is taken as it is.
fn taken(parts: &Parts) -> Outcome {
    let (counts, rows) = there::read(parts);
    Outcome { number: 0, place: 0, counts, rows }
}

/// The outcome of another PLY file in the rooms of a case.
fn of_file(case: &Case, file: Vec<u8>) -> Outcome {
    let (mut other, lengths) = (case.clone(), case.lengths());
    other.file = file;
    for ((room, (_, stated)), length) in other.rooms.iter_mut().zip(Case { file: other.file.clone(), ..case.clone() }.stated()).zip(lengths) {
        room.extra = length as i128 - stated as i128;
    }
    there::outcome(&other)
}

impl Fault {
    /// The outcome that is given for the wanted one, if the fault is of that kind: that of another case, or a refusal for the boundary.
    pub fn other(self, case: &Case, wanted: &Outcome) -> Option<Outcome> {
        let mut other = case.clone();
        let dirty = case.rooms.last().is_some_and(|work| work.dirt != 0);
        match self {
            Fault::Without(bit) => {
                other.options &= !(1 << bit);
                other.filter.set &= !(1 << bit);
            }
            Fault::Threshold => other.threshold = if case.threshold < 1.0 { case.threshold.next_up() } else { case.threshold.next_down() },
            Fault::OriginsOfPresent if wanted.number == 0 => {
                let mut rows = wanted.rows.clone();
                rows[3] = there::present(case);
                return Some(Outcome { rows, ..wanted.clone() });
            }
            Fault::SecondLeftOut if case.counts.len() > 1 => other.counts[1] = 0,
            Fault::SumWraps if case.counts.len() > 1 => (other.counts[0], other.counts[1]) = (case.counts[0].wrapping_add(case.counts[1]), 0),
            Fault::BowtieRefused if wanted.number == 0 => return eight(case),
            Fault::BowtieRefusedInDirt if wanted.number == 0 && dirty => return eight(case),
            Fault::EightFirst if wanted.number == 7 => return eight(case),
            Fault::HourglassPasses if wanted.number == 0 => return Some(says(there::walked_once(case))),
            Fault::PatchesAsked if wanted.number == 0 => return Some(says(there::walked_once(case) && one_patch_each(case))),
            Fault::UnusedFails if wanted.number == 0 => return Some(says(there::sound(case) && all_used(case))),
            Fault::MinusZeroLost | Fault::CornersExchanged | Fault::HighByteFirst if wanted.number == 0 => return Some(otherwise(self, case)),
            Fault::FourFirst if wanted.number == 14 => return refuse::vertices_first(case).map(|(n, place)| there::refused(case.call, n, place)),
            Fault::NegativeTaken if wanted.number == 5 => return negative(case),
            Fault::ZerosTaken if wanted.number == 13 => return ply::without_zeros(&case.file).map(|file| of_file(case, file)),
            Fault::TrailingTaken if wanted.number == 13 => return case.file.split_last().map(|(_, file)| of_file(case, file.to_vec())),
            Fault::CountWraps if wanted.number == 13 => return ply::wrapped(&case.file).map(|file| of_file(case, file)),
            _ if case.call == Call::RepairPanel => return pack_fault::other(self, case, wanted),
            _ => return None,
        }
        Some(there::outcome(&other))
    }

    /// Alters a reply, an input or a room, where the case gives occasion.
    pub fn alter(self, case: &Case, reply: &mut Reply, input: &mut Inputs, rooms: &mut [Lent]) {
        let accepted = reply.number == 0;
        let (last, lengths, stated) = (rooms.len() - 1, case.lengths(), case.stated());
        let work = stated[last].1 as usize;
        if accepted && (case.call == Call::Repair || case.call == Call::RepairPanel && reply.counts[2] > 0) {
            self.recount(&mut rooms[2]);
        }
        if accepted && self == Fault::OriginsOffByOne {
            let next: Vec<u8> = rooms[3].entries::<u32>(reply.counts[3] as usize).iter().flat_map(|origin| (origin + 1).to_ne_bytes()).collect();
            let (bytes, start) = rooms[3].all_mut();
            bytes[start..start + next.len()].copy_from_slice(&next);
        }
        if accepted && self == Fault::LoopsWalked {
            turn(reply, rooms);
        }
        // Flips a bit of the last byte of entry i of room k.
        let mut flip = |k: usize, i: i64| {
            let (bytes, start) = rooms[k].all_mut();
            bytes[(start as i64 + (i + 1) * stated[k].0 as i64 - 1) as usize] ^= 16;
        };
        match self {
            Fault::Number if !accepted => reply.number += 1,
            Fault::Place if !accepted => reply.place += 1,
            Fault::Count if accepted => reply.counts[0] ^= 1,
            Fault::Answer if accepted && lengths[0] > 0 => flip(0, 0),
            Fault::AnswerOfTwoFaces if accepted && case.f() > 1 => flip(0, 0),
            Fault::NotCleared if accepted && last > 0 && stated[1].1 > 0 => flip(1, stated[1].1 as i64 - 1),
            Fault::OriginsNotCleared if accepted && reply.counts[3] < case.f() => flip(3, case.f() as i64 - 1),
            Fault::WorkAtThree if reply.number == 6 && reply.place == 4 => reply.place = 3,
            Fault::WorkLeft if accepted && work > 0 => flip(last, work as i64 - 1),
            Fault::WorkOfAccepted if accepted && case.rooms[last].dirt != 0 && pack_fault::accepted_work(case) < work => flip(last, work as i64 - 1),
            Fault::BehindStated if accepted && lengths[last] > work => flip(last, work as i64),
            Fault::BehindRoom => flip(0, lengths[0] as i64),
            Fault::BeforeRoom => flip(last, -1),
            Fault::DirtLeft if accepted && case.rooms[last].dirt != 0 && case.rooms[last].front > 0 => flip(last, work as i64 - 1),
            Fault::RoomOfBoth if reply.number == 6 && case.call == Call::Loops => reply.place += 3,
            Fault::RoomOfBoth if reply.number == 6 && reply.place as usize == last => reply.place = 5,
            Fault::EightAsSeven if reply.number == 8 => reply.number = 7,
            Fault::BehindFile if accepted && lengths[0] > stated[0].1 as usize => flip(0, stated[0].1 as i64),
            Fault::RefusalWrites if !accepted && lengths[last] > 0 => flip(last, lengths[last] as i64 - 1),
            Fault::InputChanged => input.faces.all_mut().0[40] ^= 1,
            _ => {}
        }
    }

    /// Alters the first two counts of a report.
    fn recount(self, report: &mut Lent) {
        let [repeated, thin] = [0, 1].map(|k| report.entries::<u32>(2)[k]);
        let counts = match self {
            Fault::KindsExchanged => [thin, repeated],
            Fault::AllRepeated => [repeated + thin, 0],
            Fault::AllThin => [0, repeated + thin],
            _ => return,
        };
        let (bytes, start) = report.all_mut();
        bytes[start..start + 8].copy_from_slice(&counts.map(u32::to_ne_bytes).concat());
    }
}
