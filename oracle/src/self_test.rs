//! That the harness can fail: each fault in each call must be seen and shrunk, and without a fault nothing may be seen.

use crate::case::{CALLS, Call};
use crate::fault::{self, Fault};
use crate::tally::Tally;
use crate::{first, pack, print};
use std::ops::Range;
use std::process::ExitCode;

/// The cases that are tried: not the first four, which are large.
const NUMBERS: Range<u64> = 4..4000;

/// Tries every fault of every call.
pub fn run() -> ExitCode {
    let (mut tried, mut missed) = (0, 0);
    for call in CALLS {
        if let Some(found) = first(call, 1, 4..400, Some(Fault::None), &mut Tally::default()) {
            println!("self-test: {} differs without a fault: {}\n{}", call.name(), found.what, print::shown(&found.case));
            missed += 1;
        }
        for fault in fault::faults(call) {
            tried += 1;
            missed += !seen(call, fault) as usize;
        }
    }
    println!("self-test: {tried} faults, {missed} missed");
    ExitCode::from((missed > 0) as u8)
}

/// Whether a fault is seen, and shrunk to as few faces as can show it; of a pack, to at most two meshes where no number of them is needed.
fn seen(call: Call, fault: Fault) -> bool {
    let Some(found) = first(call, 1, NUMBERS, Some(fault), &mut Tally::default()) else {
        println!("self-test: {fault:?} in {} is not seen", call.name());
        return false;
    };
    let (faces, meshes) = (found.case.f(), pack::count(&found.case));
    let few = meshes <= 2 || [Fault::OneMeshMore, Fault::MeshesFirst, Fault::SettingFirst].contains(&fault);
    let small = match fault {
        Fault::AnswerOfTwoFaces | Fault::BowtieRefused | Fault::BowtieRefusedInDirt | Fault::EightAsSeven | Fault::EightFirst => faces == 2,
        Fault::HourglassPasses | Fault::OriginsOfPresent | Fault::OriginsThroughPack | Fault::PlaceLost => faces == 2,
        Fault::PatchesAsked => faces <= 6,
        Fault::Without(_) => faces <= 3,
        _ => faces <= 1,
    };
    let of_pack = if call == Call::RepairPanel { format!(" in {meshes} meshes") } else { String::new() };
    println!("self-test: {fault:?} in {} seen in case {}, shrunk to {faces} faces{of_pack}: {}", call.name(), found.number, found.what);
    if !(small && few) {
        println!("self-test: that is not small\n{}", print::shown(&found.case));
    }
    small && few
}
