//! Times of a call on a mesh: the median of five runs in processor time, the library's and the Rust's, and the memory that a run takes.

use crate::call_named;
use crate::case::{Call, Case, Filter, REPORT};
use crate::here::{self, Inputs};
use crate::lent::Lent;
use crate::meshes::Mesh;
use crate::ply::Parts;
use crate::{generate, keys, refuse, shapes, there};
use std::hint::black_box;
use std::process::ExitCode;

const RUNS: usize = 5;

/// After so many milliseconds of runs no further one is begun.
const LONG: f64 = 45_000.0;

/// How often the report line is written in one run: one is too short to time.
pub const LINES: usize = 10_000;

#[repr(C)]
struct Clock {
    seconds: i64,
    nanoseconds: i64,
}

unsafe extern "C" {
    fn clock_gettime(clock: i32, now: *mut Clock) -> i32;
    pub fn mallopt(which: i32, value: i32) -> i32;
}

/// The milliseconds that this thread has had a processor: a loaded machine does not count.
fn now() -> f64 {
    let mut now = Clock { seconds: 0, nanoseconds: 0 };
    assert_eq!(unsafe { clock_gettime(3, &mut now) }, 0);
    now.seconds as f64 * 1e3 + now.nanoseconds as f64 / 1e6
}

/// How long a run takes.
pub fn milliseconds(run: impl FnOnce()) -> f64 {
    let start = now();
    run();
    now() - start
}

/// The median of five times, or of fewer if they are long; and how many they were.
fn median(mut run: impl FnMut() -> f64) -> (f64, usize) {
    let mut times: Vec<f64> = vec![];
    while times.len() < RUNS && times.iter().sum::<f64>() < LONG {
        times.push(run());
    }
    times.sort_by(f64::total_cmp);
    (times[times.len() / 2], times.len())
}

/// The megabytes that this process holds now, or held at most since the peak was last forgotten; nothing where the system does not tell.
fn megabytes(which: &str) -> Option<f64> {
    let text = std::fs::read_to_string("/proc/self/status").ok()?;
    let line = text.lines().find(|line| line.starts_with(which))?;
    line.split_whitespace().nth(1)?.parse::<f64>().ok().map(|kilobytes| kilobytes / 1024.0)
}

/// The memory that a run takes at most, beyond what is held before it.
fn memory(run: impl FnOnce()) -> Option<f64> {
    std::fs::write("/proc/self/clear_refs", "5").ok()?;
    let before = megabytes("VmRSS:")?;
    run();
    Some((megabytes("VmHWM:")? - before).max(0.0))
}

/// A mesh as a call takes it.
fn asked(call: Call, mesh: Mesh) -> Case {
    let mut case = Case::new(call);
    let faces = mesh.faces.len();
    case.point_count = mesh.points.len() as u64;
    case.points = if call == Call::Check { vec![] } else { mesh.points.into_iter().flatten().collect() };
    case.faces = mesh.faces.into_iter().flatten().collect();
    case.threshold = generate::degenerate_sin();
    if call == Call::Patches {
        case.patch_count = 64;
        case.labels = (0..faces).map(|i| (i * 64 / faces) as u32).collect();
        case.filter = Filter { set: 31, min_faces: 2, reals: [0.0, 0.0, 0.01], keep_largest_n: 32 };
    }
    if call == Call::ReadPly {
        case.file = Parts::new(&case.points, &case.faces).file();
        (case.points, case.faces) = (vec![], vec![]);
    }
    if call == Call::Line {
        case = Case::new(call);
        case.counts = (0..REPORT as u32).map(|k| faces as u32 / (k + 1)).collect();
    }
    case
}

/// What is timed: a call, and for edges and loops together the loop call after it, in the same work room.
struct Timed {
    case: Case,
    then: Option<Case>,
}

impl Timed {
    /// Rooms of zeros, just large enough: those of the call, and those of the call after it but the work room.
    fn rooms(&self) -> Vec<Lent> {
        let more = self.then.iter().flat_map(|then| then.stated().into_iter().take(2));
        self.case.stated().into_iter().chain(more).map(|(size, stated)| Lent::bare(size, stated as usize)).collect()
    }

    /// One call of the library, and the one after it; the report line many times.
    fn call(&self, input: &mut Inputs, rooms: &mut [Lent]) {
        let own = self.case.rooms.len();
        for _ in 0..if self.case.call == Call::Line { LINES } else { 1 } {
            here::run(&self.case, input, &mut rooms[..own]).expect("the library has the call");
        }
        if let Some(then) = &self.then {
            rooms[own - 1..].rotate_left(1);
            here::run(then, input, &mut rooms[own - 1..]).expect("the library has the call");
            rooms[own - 1..].rotate_right(1);
        }
    }

    /// The number and place of the first refusal.
    fn refusal(&self) -> Option<(u32, u64)> {
        refuse::refusal(&self.case).or_else(|| self.then.as_ref().and_then(refuse::refusal))
    }
}

/// How the library is lent its rooms.
#[derive(Clone, Copy, PartialEq)]
enum Way {
    /// Newly from the system, all zero.
    Fresh,
    /// As the run before left them.
    Reused,
    /// Filled with other numbers.
    Dirty,
}

/// The library's median, how many runs it is of, and the memory that the rooms and one run take.
fn ours(timed: &Timed, way: Way) -> ((f64, usize), Option<f64>) {
    // Fresh rooms then come from the system at every size, and what that takes is counted.
    unsafe { mallopt(-3, 1 << 16) };
    let mut input = Inputs::new(&timed.case);
    let taken = memory(|| timed.call(&mut input, &mut timed.rooms()));
    let mut lent = timed.rooms();
    timed.call(&mut input, &mut lent);
    let time = median(|| {
        match way {
            Way::Fresh => lent = timed.rooms(),
            Way::Reused => {}
            Way::Dirty => lent.iter_mut().for_each(Lent::soil),
        }
        milliseconds(|| timed.call(&mut input, &mut lent))
    });
    (time, taken)
}

/// The Rust's median, how many runs it is of, and the memory that one takes.
fn theirs(case: &Case) -> ((f64, usize), Option<f64>) {
    let mut taken = None;
    let time = there::time(case, |run| {
        taken = memory(&mut *run);
        median(|| milliseconds(&mut *run))
    });
    (time, taken)
}

/// The median of copying the bytes of the PLY file that the call reads or writes, to memory that was used before, and how many runs it is of; if asked, with
/// a look through a work room of zeros.
fn copied(case: &Case, looks: bool) -> (f64, usize) {
    let file = if case.call == Call::ReadPly { case.file.clone() } else { Parts::new(&case.points, &case.faces).file() };
    let work = vec![0u32; if looks { case.stated().last().expect("a work room").1 as usize } else { 0 }];
    let mut to = vec![1; file.len()];
    let look = |work: &[u32]| work.iter().fold(0, |sum, entry| sum | entry);
    assert_eq!(look(&work), 0);
    median(|| {
        milliseconds(|| {
            black_box(&mut to).copy_from_slice(black_box(&file));
            black_box(look(black_box(&work)));
        })
    })
}

/// The Rust has no edge check and no PLY files; its edges and loops are one call, which may never end where the boundary is not simple.
fn asks_the_rust(case: &Case) -> bool {
    let lists = case.call == Call::Edges || case.call == Call::Loops;
    let ends = !lists || matches!(refuse::refusal(case), Some((1..=7, _))) || refuse::fault(case).is_none();
    ![Call::Check, Call::WritePly, Call::ReadPly].contains(&case.call) && ends
}

/// Shapes that are mended for the other calls, which would refuse them at once.
const MENDED: [&str; 4] = ["scan", "numbered", "strip", "pinched"];

/// A call on a shape. A repair may be named with its options, as in repair16; `both` is edges and then loops; panel40 is a pack of forty keys.
fn timed(name: &str, faces: usize, shape: &str) -> Option<Timed> {
    if let Some(keys) = name.strip_prefix("panel").and_then(|text| text.parse().ok()) {
        return keys::packed(keys, faces, shape).map(|case| Timed { case, then: None });
    }
    let options = name.strip_prefix("repair").and_then(|text| text.parse().ok());
    let call = match name {
        "both" => Call::Edges,
        _ if options.is_some() => Call::Repair,
        _ => call_named(name)?,
    };
    let mut mesh = shapes::named(shape, faces)?;
    if call != Call::Repair && MENDED.contains(&shape) {
        let mut repair = asked(Call::Repair, mesh);
        repair.options = 63;
        mesh = here::mended(&repair);
    }
    let then = (name == "both").then(|| asked(Call::Loops, mesh.clone()));
    let mut case = asked(call, mesh);
    case.options = options.unwrap_or(63);
    Some(Timed { case, then })
}

/// Prints one median in milliseconds, of how many runs, the megabytes of one, and the number that the call gives back; a dash where there is none.
/// The way is fresh, reused, dirty or rust; for PLY files also copy, which is memcpy of the same bytes, and look, which is that and a look through the work
/// room.
pub fn one(name: &str, faces: usize, shape: &str, way: &str) -> ExitCode {
    let Some(timed) = timed(name, faces, shape) else {
        eprintln!(
            "oracle: --time takes repair, repair with its options as in repair16, panel with its keys as in panel40, edges, loops, both, check, patches, line, write_ply or read_ply, a number of faces, and a shape of --shapes"
        );
        return ExitCode::from(2);
    };
    let ((time, runs), taken) = match way {
        "fresh" => ours(&timed, Way::Fresh),
        "reused" => ours(&timed, Way::Reused),
        "dirty" => ours(&timed, Way::Dirty),
        "rust" if !asks_the_rust(&timed.case) => ((f64::NAN, 0), None),
        "copy" => (copied(&timed.case, false), None),
        "look" => (copied(&timed.case, true), None),
        _ => theirs(&timed.case),
    };
    let time = if timed.case.call == Call::Line { time / LINES as f64 } else { time };
    let number = timed.refusal().map_or(0, |(number, _)| number);
    let dash = |x: Option<f64>| x.filter(|x| !x.is_nan()).map_or("-".to_string(), |x| format!("{x:.6}"));
    println!("{} {runs} {} {number}", dash(Some(time)), dash(taken));
    ExitCode::SUCCESS
}

/// Prints the library's times and the Rust's.
fn told(name: &str, timed: &Timed) {
    let line = |what: &str, (time, _): (f64, usize)| println!("{name}, {what}: {time:.2} ms, {:.1} ns a face", time * 1e6 / timed.case.f() as f64);
    if let Some((number, place)) = timed.refusal() {
        println!("{name}: refused {number} at {place}");
    }
    line("ours with clean rooms", ours(timed, Way::Reused).0);
    line("ours with dirty rooms", ours(timed, Way::Dirty).0);
    if asks_the_rust(&timed.case) {
        line("the Rust", theirs(&timed.case).0);
    } else {
        println!("{name}: the Rust has no answer");
    }
}

/// Times one call on a shape.
pub fn run(call: &str, faces: usize, shape: &str) -> ExitCode {
    let Some(mut timed) = timed(call, faces, shape).filter(|timed| timed.case.call != Call::Line) else {
        eprintln!(
            "oracle: --time takes repair, panel with its keys as in panel40, edges, loops, both, check, patches, write_ply or read_ply, a number of faces, and a shape of --shapes"
        );
        return ExitCode::from(2);
    };
    println!("{shape}, P = {}, F = {}", timed.case.p(), timed.case.f());
    if timed.case.call == Call::Repair {
        timed.case.options = 0;
        told("repair with options 0", &timed);
        timed.case.options = 63;
        told("repair with options 63", &timed);
    } else {
        told(call, &timed);
    }
    ExitCode::SUCCESS
}

/// The names of the shapes, and what they are.
pub fn shapes() -> ExitCode {
    for (name, what, _) in shapes::SHAPES {
        println!("{name}\t{what}");
    }
    ExitCode::SUCCESS
}
