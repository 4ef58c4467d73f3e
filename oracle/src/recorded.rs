//! Recorded answers, in the word form of tests/cases/FORMAT.md, against what the harness expects: so its own refusals and its Rust are tested too.
//! They are document 01's, with one count of degenerate faces: a report room is lent one entry longer, a line gets the count in two parts, and of a
//! report the sum of the two is compared. Edges and loops are one call there, of six rooms: a record of it is asked of both calls, as far as it speaks
//! of each. A recorded answer of the edge check may be document 01's, which does not ask for groups at a point. A repair has four rooms there and no origins: a
//! room for them is lent between report and work, two entries longer than is stated, and 6 of the work room moves from place 3 to 4.

use crate::case::{CALLS, Call, Case, EXACT, Room};
use crate::{compare, print, there};
use std::process::ExitCode;

struct Words {
    words: Vec<u64>,
    at: usize,
}

impl Words {
    /// The words of a file in word form.
    fn load(path: &str) -> Self {
        let bytes = std::fs::read(path).unwrap_or_else(|error| panic!("{path}: {error}"));
        assert!(bytes.starts_with(b"MFIXCAS1"), "{path} is not in word form");
        Words { words: bytes.chunks_exact(8).map(|word| u64::from_le_bytes(word.try_into().unwrap())).collect(), at: 1 }
    }

    /// The next word.
    fn one(&mut self) -> u64 {
        self.at += 1;
        self.words[self.at - 1]
    }

    /// The next words.
    fn row(&mut self, count: u64) -> Vec<u64> {
        (0..count).map(|_| self.one()).collect()
    }

    /// The next array, written out or as one value many times.
    fn array(&mut self) -> Vec<u64> {
        let count = self.one();
        if self.one() == 1 { vec![self.one(); count as usize] } else { self.row(count) }
    }

    /// The next array, as floats.
    fn floats(&mut self) -> Vec<f64> {
        self.array().into_iter().map(f64::from_bits).collect()
    }

    /// The next array, as numbers.
    fn numbers(&mut self) -> Vec<u32> {
        self.array().into_iter().map(|word| word as u32).collect()
    }
}

/// Counts with the first of them, if there is one, in two parts: by turns none, a third, two thirds and all of it in the first part.
fn in_parts(counts: Vec<u32>, turn: usize) -> Vec<u32> {
    let Some((&sum, rest)) = counts.split_first() else { return counts };
    let part = (sum as u64 * (turn as u64 % 4) / 3) as u32;
    [&[part, sum - part], rest].concat()
}

/// The cases that a record holds, one or for edges two; `turn` says how a line's count is parted.
fn read(words: &mut Words, call: Call, turn: usize) -> Vec<Case> {
    let mut case = Case::new(call);
    match call {
        Call::Repair => {
            case.options = words.one() as u32;
            case.threshold = f64::from_bits(words.one());
            (case.points, case.faces) = (words.floats(), words.numbers());
        }
        Call::Edges | Call::Loops => (case.points, case.faces) = (words.floats(), words.numbers()),
        Call::Check => (case.point_count, case.faces) = (words.one(), words.numbers()),
        Call::Patches => {
            (case.points, case.faces, case.labels, case.patch_count) = (words.floats(), words.numbers(), words.numbers(), words.one());
            let limits: Vec<(u64, u64)> = (0..5).map(|_| (words.one(), words.one())).collect();
            case.filter.set = (0..5).map(|k| (limits[k].0 as u32) << k).sum();
            case.filter.reals = [1, 2, 3].map(|k| f64::from_bits(limits[k].1));
            (case.filter.min_faces, case.filter.keep_largest_n) = (limits[0].1, limits[4].1);
        }
        Call::Line => case.counts = in_parts(words.numbers(), turn),
        Call::WritePly | Call::ReadPly | Call::RepairPanel => unreachable!("no such call was recorded"),
    }
    let mut lengths = words.array();
    if call == Call::Repair {
        lengths[2] += 1;
        lengths.insert(3, case.f() + 2);
    }
    let mut cases = vec![case.clone()];
    if call == Call::Edges {
        cases.push(Case { call: Call::Loops, ..case });
    }
    cases.iter_mut().for_each(|case| lend(case, &lengths));
    cases
}

/// Which of the rooms of a record are a call's.
fn own(call: Call) -> Vec<usize> {
    match call {
        Call::Edges => vec![0, 1, 2, 5],
        Call::Loops => vec![3, 4, 5],
        _ => (0..call.rooms().len()).collect(),
    }
}

/// Gives a case its rooms of the recorded ones, dirty.
fn lend(case: &mut Case, lengths: &[u64]) {
    let lent = |((_, stated), k): ((usize, u128), usize)| Room { extra: lengths[k] as i128 - stated as i128, dirt: 0x5a, ..EXACT };
    case.rooms = case.stated().into_iter().zip(own(case.call)).map(lent).collect();
}

/// A recorded answer: number, place and rows.
#[derive(Clone)]
struct Answer {
    number: u64,
    place: u64,
    rows: Vec<Vec<u64>>,
}

impl Answer {
    /// The answer of the next record.
    fn read(answers: &mut Words) -> Self {
        let (number, place, rows) = (answers.one(), answers.one(), answers.one());
        let row = |_| {
            let count = answers.one();
            answers.row(count)
        };
        Answer { number, place, rows: (0..rows).map(row).collect() }
    }

    /// What it says of a call, if it says anything. Of edges and loops, which are one call there, 6 speaks of the call that has the room, and 8 of the loop
    /// call.
    fn of(&self, call: Call) -> Option<Answer> {
        let own = own(call);
        let mut answer = self.clone();
        match self.number {
            6 if call == Call::Repair && self.place == 3 => answer.place = 4,
            0 if call == Call::Edges || call == Call::Loops => answer.rows = own[..own.len() - 1].iter().map(|&k| self.rows[k].clone()).collect(),
            6 => answer.place = own.iter().position(|&k| k as u64 == self.place)? as u64,
            8 if call == Call::Edges => return None,
            _ => {}
        }
        Some(answer)
    }
}

/// A recorded answer with the harness's own: number, place and rows. Where the record does not speak of the call there is nothing to compare, but that
/// the edge call accepts where the record has 8.
fn as_recorded(case: &Case, recorded: &Answer) -> bool {
    let outcome = there::outcome(case);
    let Some(Answer { number, place, mut rows }) = recorded.of(case.call) else { return recorded.number != 8 || outcome.number == 0 };
    if (number, place) != (outcome.number as u64, outcome.place as u64) {
        return false;
    }
    if number == 0 && case.call == Call::Check {
        return rows == [outcome.counts] || rows == [[there::walked_once(case) as u64]];
    }
    if number != 0 {
        return true;
    }
    let word = |bytes: &[u8]| bytes.iter().rev().fold(0, |word, byte| word << 8 | *byte as u64);
    let sizes = case.stated();
    let mut found: Vec<Vec<u64>> = outcome.rows.iter().enumerate().map(|(k, row)| row.chunks(sizes[k].0).map(word).collect()).collect();
    if case.call == Call::Repair {
        found.pop();
        let repeated = found[2].remove(0);
        found[2][0] += repeated;
    }
    if case.call == Call::Patches {
        unsigned_zeros(&mut found[1]);
        unsigned_zeros(&mut rows[1]);
    }
    found == rows
}

/// Takes the signs from the zeros of patches' boxes, which the Rust leaves open.
fn unsigned_zeros(numbers: &mut [u64]) {
    for (i, word) in numbers.iter_mut().enumerate() {
        if i % 7 != 0 && *word == 1 << 63 {
            *word = 0;
        }
    }
}

/// Runs all records, and prints those that differ.
pub fn run(cases: &str, answers: &str) -> ExitCode {
    let (mut cases, mut answers) = (Words::load(cases), Words::load(answers));
    let (mut same, mut different) = ([0; CALLS.len()], 0);
    while cases.at < cases.words.len() {
        let call = [Call::Repair, Call::Edges, Call::Check, Call::Patches, Call::Line][cases.one() as usize - 1];
        let end = cases.one() as usize + cases.at;
        answers.one();
        let after = answers.one() as usize + answers.at;
        let asked = read(&mut cases, call, same[call as usize]);
        let answer = Answer::read(&mut answers);
        for case in asked {
            let wrong =
                if as_recorded(&case, &answer) { compare::difference(&case, &there::outcome(&case), None) } else { Some("not as recorded".into()) };
            if let Some(what) = wrong {
                println!("recorded: {what}\n{}", print::shown(&case));
                different += 1;
            } else {
                same[case.call as usize] += 1;
            }
        }
        (cases.at, answers.at) = (end, after);
    }
    let told: Vec<String> =
        CALLS.iter().map(|call| (call.name(), same[*call as usize])).filter(|(_, n)| *n > 0).map(|(name, n)| format!("{name} {n}")).collect();
    println!("recorded: as the harness expects: {}; different: {different}", told.join(", "));
    ExitCode::from((different > 0) as u8)
}
