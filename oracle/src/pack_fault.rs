//! Faults of a pack: what a call would give that packs, counts or refuses otherwise.

use crate::case::{Call, Case, MOST_MESHES, REPORT};
use crate::fault::Fault;
use crate::tally::all_numbers;
use crate::there::{self, Outcome, numbers};
use crate::{pack, refuse};

/// The faults by which another outcome is given for a pack.
pub const FAULTS: [Fault; 22] = [
    Fault::GapLeft,
    Fault::GapBehindEach,
    Fault::ElevenZeros,
    Fault::EntriesTold,
    Fault::InputTold,
    Fault::PlaceLost,
    Fault::CornersThroughPack,
    Fault::OriginsThroughPack,
    Fault::MeshesExchanged,
    Fault::OneReport,
    Fault::RefusedStopsRest,
    Fault::RefusedStopsAll,
    Fault::RowsNotCompared,
    Fault::SumIn32Bits,
    Fault::FacesAtZero,
    Fault::OneMeshMore,
    Fault::MeshesFirst,
    Fault::SettingFirst,
    Fault::RoomFirst,
    Fault::MeshFirst,
    Fault::RoomsOfAccepted,
    Fault::WorkOfFirst,
];

/// The outcome that is given for the wanted one, if the fault is a pack's and the case gives occasion.
pub fn other(fault: Fault, case: &Case, wanted: &Outcome) -> Option<Outcome> {
    match wanted.number {
        _ if !FAULTS.contains(&fault) => None,
        0 => repacked(fault, case, wanted),
        _ => refused_otherwise(fault, case, wanted),
    }
}

/// An accepted pack with something of its meshes done otherwise. How many entries stand in each room is told as it must be: the rooms alone show the fault.
fn repacked(fault: Fault, case: &Case, wanted: &Outcome) -> Option<Outcome> {
    let (meshes, mut each) = (pack::meshes(case), there::each(case));
    match fault {
        Fault::RefusedStopsAll => return refused_by_itself(case),
        Fault::RefusedStopsRest => stop(&mut each),
        Fault::MeshesExchanged => exchange(&mut each),
        Fault::CornersThroughPack => corners_through(&mut each),
        Fault::OriginsThroughPack => origins_through(&meshes, &mut each),
        Fault::OneReport => one_report(&mut each),
        Fault::EntriesTold => each.iter_mut().flat_map(|outcome| &mut outcome.counts).for_each(|n| *n *= 3),
        Fault::GapBehindEach => each.iter_mut().zip(&meshes).for_each(|(outcome, mesh)| widen(outcome, mesh)),
        _ => {
            each.iter_mut().zip(&meshes).filter(|(outcome, _)| outcome.number != 0).for_each(|(outcome, mesh)| refuse_otherwise(fault, outcome, mesh))
        }
    }
    Some(Outcome { rows: there::packed(&each).1, ..wanted.clone() })
}

/// The whole call refused as the first mesh is that is refused by itself.
fn refused_by_itself(case: &Case) -> Option<Outcome> {
    let first = pack::meshes(case).iter().find_map(refuse::alone);
    first.map(|(number, place)| there::refused(case.call, number, place))
}

/// Leaves the meshes behind the first refused one out.
fn stop(each: &mut [Outcome]) {
    let behind = each.iter().position(|outcome| outcome.number != 0).map_or(each.len(), |first| first + 1);
    each[behind..].fill(there::refused(Call::Repair, 0, 0));
}

/// Exchanges the first two meshes that are accepted.
fn exchange(each: &mut [Outcome]) {
    let accepted: Vec<usize> = (0..each.len()).filter(|&k| each[k].number == 0).take(2).collect();
    if let [one, other] = accepted[..] {
        each.swap(one, other);
    }
}

/// Counts the corners of a mesh from the first point of the pack that is mended.
fn corners_through(each: &mut [Outcome]) {
    let mut before = 0;
    for outcome in each.iter_mut().filter(|outcome| outcome.number == 0) {
        outcome.rows[1] = numbers(all_numbers(&outcome.rows[1]).into_iter().map(|v| v + before));
        before += outcome.counts[0] as u32 / 3;
    }
}

/// Counts the origins of a mesh from the first face of the pack.
fn origins_through(meshes: &[Case], each: &mut [Outcome]) {
    let mut before = 0;
    for (outcome, mesh) in each.iter_mut().zip(meshes) {
        if outcome.number == 0 {
            outcome.rows[3] = numbers(all_numbers(&outcome.rows[3]).into_iter().map(|i| i + before));
        }
        before += mesh.f() as u32;
    }
}

/// Adds all reports up, where the first one stands.
fn one_report(each: &mut [Outcome]) {
    let mut sums = [0; REPORT];
    for outcome in each.iter_mut().filter(|outcome| outcome.number == 0) {
        all_numbers(&outcome.rows[2]).iter().zip(&mut sums).for_each(|(n, sum)| *sum += n);
        outcome.rows[2].clear();
    }
    if let Some(first) = each.iter_mut().find(|outcome| outcome.number == 0) {
        first.rows[2] = numbers(sums);
    }
}

/// Makes the answers of a mesh as long as its rooms, or what stands for them if it is refused.
fn widen(outcome: &mut Outcome, mesh: &Case) {
    outcome.rows.resize(4, vec![]);
    for (row, (size, stated)) in outcome.rows.iter_mut().zip(mesh.stated()) {
        row.resize(size * stated as usize, 0);
    }
}

/// A refused mesh with room left for it, with a report of zeros, with the size that it came with, or with its place lost.
fn refuse_otherwise(fault: Fault, outcome: &mut Outcome, mesh: &Case) {
    match fault {
        Fault::GapLeft => widen(outcome, mesh),
        Fault::ElevenZeros => outcome.rows = vec![vec![], vec![], vec![0; 4 * REPORT]],
        Fault::InputTold => outcome.counts = vec![mesh.points.len() as u64, mesh.faces.len() as u64],
        Fault::PlaceLost => outcome.place = 0,
        _ => {}
    }
}

/// A pack that is refused for another reason, or is not refused.
fn refused_otherwise(fault: Fault, case: &Case, wanted: &Outcome) -> Option<Outcome> {
    let refused = |(number, place)| there::refused(case.call, number, place);
    let taken = match (fault, wanted.number, wanted.place) {
        (Fault::MeshesFirst, 1, _) => return refuse::many(case).map(refused),
        (Fault::SettingFirst, 2, _) => return refuse::setting(case).map(refused),
        (Fault::RoomFirst, 3, _) => return refuse::room(case).map(refused),
        (Fault::MeshFirst, 6, _) => return refused_by_itself(case),
        (Fault::FacesAtZero, 1, 1) => return Some(refused((1, 0))),
        (Fault::RowsNotCompared, 1, 0) => differ_by_zeros(case),
        (Fault::SumIn32Bits, 1, _) => add_up_in_32_bits(case),
        (Fault::OneMeshMore, 2, _) => case.point_counts.len() == MOST_MESHES + 1,
        (Fault::RoomsOfAccepted, 6, _) => fits_accepted(case),
        (Fault::WorkOfFirst, 6, 5) => case.lengths()[5] as u128 >= pack::meshes(case)[0].stated()[4].1,
        _ => false,
    };
    taken.then(|| refused((0, 0)))
}

/// Whether only the lengths of the rows are wrong, one of which has zeros at its end.
fn differ_by_zeros(case: &Case) -> bool {
    let (mut other, most) = (case.clone(), case.point_counts.len().max(case.face_counts.len()));
    other.point_counts.resize(most, 0);
    other.face_counts.resize(most, 0);
    case.point_counts.len() != case.face_counts.len() && refuse::rows(&other).is_none()
}

/// Whether rows of one length add up if all is reckoned in 32 bits.
fn add_up_in_32_bits(case: &Case) -> bool {
    let adds_up = |counts: &[u32], entries: usize| counts.iter().fold(0u32, |sum, n| sum.wrapping_add(n.wrapping_mul(3))) == entries as u32;
    let rows = [(&case.point_counts, case.points.len()), (&case.face_counts, case.faces.len())];
    case.point_counts.len() == case.face_counts.len() && rows.iter().all(|(counts, entries)| adds_up(counts, *entries))
}

/// The pack without the meshes that are refused by themselves.
fn accepted(case: &Case) -> Case {
    let mut pack = Case { rooms: case.rooms.clone(), ..Case::new(case.call) };
    pack::meshes(case).iter().filter(|mesh| refuse::alone(mesh).is_none()).for_each(|mesh| pack::add(&mut pack, mesh));
    pack
}

/// The work room of the meshes that are accepted.
pub fn accepted_work(case: &Case) -> usize {
    accepted(case).stated()[5].1 as usize
}

/// Whether the rooms are long enough for the meshes that are accepted, and the meshes room for all.
fn fits_accepted(case: &Case) -> bool {
    let (mut stated, lengths) = (accepted(case).stated(), case.lengths());
    stated[4] = case.stated()[4];
    stated.iter().zip(lengths).all(|((_, stated), length)| length as u128 >= *stated)
}
