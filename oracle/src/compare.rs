//! One case through the library, and whether it came out as it must.

use crate::case::{Call, Case};
use crate::fault::{self, Fault};
use crate::here::{self, Inputs, Reply};
use crate::lent::Lent;
use crate::refuse;
use crate::there::Outcome;

/// The rooms of a case as they are lent.
pub fn rooms(case: &Case) -> Vec<Lent> {
    let (lengths, clean) = (case.lengths(), case.clean());
    let room = |(k, (size, _)): (usize, (usize, u128))| Lent::room(size, lengths[k], clean[k], case.rooms[k].dirt);
    case.stated().into_iter().enumerate().map(room).collect()
}

/// What is wrong with the library's answer, if anything. A call that the library does not have has nothing wrong.
pub fn difference(case: &Case, wanted: &Outcome, fault: Option<Fault>) -> Option<String> {
    let mut input = Inputs::new(case);
    let mut rooms = rooms(case);
    let reply = match fault {
        None => here::run(case, &mut input, &mut rooms)?,
        Some(fault) => faulty(case, wanted, fault, &mut input, &mut rooms),
    };
    let must = Reply { number: wanted.number, place: wanted.place, counts: wanted.counts.clone() };
    if reply != must {
        return Some(format!("it gives back {}, and must give back {}", told(&reply), told(&must)));
    }
    miscounted(case, &mut input, fault).or_else(|| input.changed()).or_else(|| wrong_room(case, wanted, &mut rooms))
}

/// What is wrong with what the call that counts says of a PLY file.
fn miscounted(case: &Case, input: &mut Inputs, fault: Option<Fault>) -> Option<String> {
    if case.call != Call::ReadPly {
        return None;
    }
    let must = match refuse::uncounted(case) {
        Some((number, place)) => Reply { number, place: place as u32, counts: vec![0, 0] },
        None => Reply { number: 0, place: 0, counts: vec![case.p(), case.f()] },
    };
    let mut reply = here::counted(input).unwrap_or_else(|| must.clone());
    if fault == Some(Fault::Miscounted) {
        reply.counts.swap(0, 1);
    }
    (reply != must).then(|| format!("its points and faces are counted as {}, and must be as {}", told(&reply), told(&must)))
}

/// A reply with a fault. A call that is not there is played from the outcome, so that each fault can be tried for each call.
fn faulty(case: &Case, wanted: &Outcome, fault: Fault, input: &mut Inputs, rooms: &mut [Lent]) -> Reply {
    if let Some(other) = fault.other(case, wanted) {
        return fault::play(case, &other, rooms);
    }
    let mut reply = here::run(case, input, rooms).unwrap_or_else(|| fault::play(case, wanted, rooms));
    fault.alter(case, &mut reply, input, rooms);
    reply
}

/// A reply in words.
fn told(reply: &Reply) -> String {
    format!("number {} place {} counts {:?}", reply.number, reply.place, reply.counts)
}

/// The first room that does not hold what it must. Of a patch's box the two zeros are equal.
fn wrong_room(case: &Case, wanted: &Outcome, rooms: &mut [Lent]) -> Option<String> {
    for (k, (_, stated)) in case.stated().into_iter().enumerate() {
        let room = &mut rooms[k];
        let wrong = if wanted.number != 0 {
            room.changed()
        } else {
            let mut answer = wanted.rows.get(k).cloned().unwrap_or_default();
            if case.call == Call::Patches && k == 1 {
                (0..answer.len() / 8).filter(|i| i % 7 != 0).for_each(|i| room.forgive_zero(i, &mut answer));
            }
            room.wrong(stated, &answer)
        };
        if let Some(what) = wrong {
            return Some(format!("room {}: {what}", case.call.rooms()[k]));
        }
    }
    None
}
