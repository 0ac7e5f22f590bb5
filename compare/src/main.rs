// compare [SEED [CASES [CALL..]]]: every call over CASES random cases: the plain reading of document 01 beside the Rust with ordered tables,
// and beside the C face, bit for bit. Prints a table, and for a difference the smallest input found that shows it; exits 1 on one.
use compare::calls::{Side, PLAIN};
use compare::case::Case;
use compare::face::{FACE, LANDED};
use compare::rng::Rng;
use compare::samples::SAMPLES;
use compare::shrink::{show, shrink};
use compare::table::{judge, Compared, Judged, COMPARED};
use std::collections::BTreeMap;
use std::process::ExitCode;
use std::time::Instant;

// The sides that are held to the plain reading.
#[derive(Clone, Copy, PartialEq)]
enum Beside {
    Rust,
    Face,
}

fn judged(c: &Compared, case: &Case, by: Beside) -> Option<Judged> {
    let plain = (c.ask)(&PLAIN, case);
    let other = match by {
        Beside::Rust => c.rust.and_then(|rust| rust(case))?,
        Beside::Face => (c.ask)(&FACE, case),
    };
    Some(judge(&plain, &other, by == Beside::Rust))
}

#[derive(Default)]
struct Tally {
    asked: usize,
    stated: usize,
    differences: usize,
    first: Option<Case>,
}

impl Tally {
    fn add(&mut self, c: &Compared, case: &Case, by: Beside) {
        match judged(c, case, by) {
            None => return,
            Some(Judged::Same) => {}
            Some(Judged::Stated) => self.stated += 1,
            Some(Judged::Differs(_)) => {
                self.differences += 1;
                self.first.get_or_insert_with(|| case.clone());
            }
        }
        self.asked += 1;
    }

    // The smallest input found that shows a difference, and what differs.
    fn explain(&self, c: &Compared, by: Beside) {
        let Some(case) = &self.first else { return };
        let differs = |case: &Case| matches!(judged(c, case, by), Some(Judged::Differs(_)));
        let small = shrink(case.clone(), &differs);
        let Some(Judged::Differs(what)) = judged(c, &small, by) else { unreachable!() };
        let side = if by == Beside::Rust { "the Rust" } else { "the C face" };
        println!("  {}, {side}: {what}\n{}", c.name, show(&small));
    }

    fn shown(&self) -> String {
        if self.asked == 0 {
            format!("{:>10} {:>7} {:>7}", "-", "-", "-")
        } else {
            format!("{:>10} {:>7} {:>7}", self.asked, self.stated, self.differences)
        }
    }
}

fn run(c: &Compared, seed: u64, cases: usize, answers: &mut BTreeMap<u32, usize>) -> (Tally, Tally) {
    let mut r = Rng::new(seed, c.name);
    let landed = LANDED.contains(&c.name);
    let (mut rust, mut face) = (Tally::default(), Tally::default());
    for _ in 0..cases {
        let case = (c.make)(&mut r);
        if c.rust.is_some() {
            rust.add(c, &case, Beside::Rust);
        }
        if landed {
            face.add(c, &case, Beside::Face);
        }
        *answers.entry((c.ask)(&PLAIN, &case).answer.unwrap_or(0)).or_default() += 1;
    }
    (rust, face)
}

// The samples of documents 01 and 02 and of the turned mesh: how many do not hold.
fn samples() -> usize {
    let (mut face, mut failed) = (0, 0);
    for sample in SAMPLES {
        let landed = sample.calls.iter().all(|c| LANDED.contains(c));
        face += landed as usize;
        for (side, name) in [(&PLAIN, "the plain reading"), (&FACE, "the C face")] {
            if (name == "the plain reading" || landed) && !(sample.holds)(side) {
                println!("  {name}: not so: {}", sample.what);
                failed += 1;
            }
        }
    }
    println!("samples of documents 01 and 02 and of the turned mesh: {} by the plain reading, {face} by the C face, {failed} differ", SAMPLES.len());
    failed
}

// The calls of document 02's No. 1, and the turned mesh.
const FILES: [&str; 2] = ["akf_export_mesh_stl", "akf_import_mesh_stl"];
const TURNED: [&str; 1] = ["akf_extract_turned_mesh"];

fn asked_for(name: &str, only: &[String]) -> bool {
    only.is_empty() || only.iter().any(|n| n == name || name[4..] == *n)
}

// What each side hands back to these calls, judged by itself: how much of it is wrong. `judge` tells that, and says what it saw.
fn by_itself(what: &str, calls: &[&str], judge: impl Fn(&Side) -> (usize, String)) -> usize {
    let mut wrong = 0;
    for (side, name) in [(&PLAIN, "the plain reading"), (&FACE, "the C face")] {
        if name == "the plain reading" || calls.iter().all(|call| LANDED.contains(call)) {
            let (failures, told) = judge(side);
            println!("{what} by {name}: {told}");
            wrong += failures;
        }
    }
    wrong
}

// Meshes written and read back: how many were lost.
fn there_and_back(side: &Side, seed: u64, meshes: usize) -> (usize, String) {
    let trips = compare::round::run(side, seed, meshes);
    (trips.lost, trips.told())
}

// Directions of turned meshes: how many are wrong.
fn directions(side: &Side, seed: u64, fields: usize) -> (usize, String) {
    let windings = compare::winding::run(side, seed, fields);
    (windings.directions.failures(), windings.told())
}

fn compare(seed: u64, cases: usize, only: &[String]) -> ExitCode {
    let mut differences = samples();
    #[cfg(rust)]
    if only.is_empty() {
        differences += compare::vectors::check(std::path::Path::new("crates"));
    }
    println!("seed {seed}; the plain reading of document 01 beside the Rust with ordered tables, and beside the C face");
    println!("{:31}{:>8} | {:>10} {:>7} {:>7} | {:>10} {:>7} {:>7} | seconds, answers", "call", "cases", "the Rust", "stated", "differ", "the face", "", "differ");
    let begun = Instant::now();
    for c in COMPARED.iter().filter(|c| asked_for(c.name, only)) {
        let mut answers = BTreeMap::new();
        let cases = cases * c.times;
        let start = Instant::now();
        let (rust, face) = run(c, seed, cases, &mut answers);
        let told: Vec<String> = answers.iter().map(|(a, n)| format!("{a}:{n}")).collect();
        println!("{:31}{:>8} | {} | {} | {:.1} s, {}", c.name, cases, rust.shown(), face.shown(), start.elapsed().as_secs_f64(), told.join(" "));
        rust.explain(c, Beside::Rust);
        face.explain(c, Beside::Face);
        differences += rust.differences + face.differences;
    }
    if FILES.iter().any(|call| asked_for(call, only)) {
        differences += by_itself("written and read back", &FILES, |side| there_and_back(side, seed, cases));
    }
    if TURNED.iter().any(|call| asked_for(call, only)) {
        differences += by_itself("turned", &TURNED, |side| directions(side, seed, cases));
    }
    #[cfg(rust)]
    if cases >= 100_000 {
        differences += compare::large::run(&|call| asked_for(call, only));
    }
    println!("differences: {differences}, in {:.0} s", begun.elapsed().as_secs_f64());
    ExitCode::from((differences > 0) as u8)
}

// How a side that misreads differs from the plain reading; one that fails outright shows itself too.
#[cfg(misread)]
fn mistaken(c: &Compared, side: &Side, case: &Case) -> Option<(String, Option<compare::case::Outcome>)> {
    use std::panic::{catch_unwind, AssertUnwindSafe};
    let Ok(wrong) = catch_unwind(AssertUnwindSafe(|| (c.ask)(side, case))) else { return Some(("it panics".to_string(), None)) };
    match judge(&(c.ask)(&PLAIN, case), &wrong, false) {
        Judged::Differs(what) => Some((what, Some(wrong))),
        _ => None,
    }
}

// What a side that misreads does wrong, judged by itself. One that fails outright is wrong in every case.
#[cfg(misread)]
fn wrong_by(judge: impl Fn() -> usize, cases: usize) -> usize {
    std::panic::catch_unwind(std::panic::AssertUnwindSafe(judge)).unwrap_or(cases)
}

// How many of the cases show that a side misreads: to the Rust, and to the plain reading; and by what it hands back alone. Of those that are named, the
// smallest input that shows it.
#[cfg(misread)]
fn misread(seed: u64, cases: usize, named: &[String]) -> ExitCode {
    use compare::misread::MISREAD;
    std::panic::set_hook(Box::new(|_| {}));
    println!("seed {seed}; each misreading of documents 01 and 02 and of the turned mesh, and how many of {cases} cases of a call show it");
    println!("{:28}{:31}{:>10}{:>10}  what is misread", "misreading", "call", "the Rust", "plain");
    let (mut asked, mut unseen) = (0, 0);
    for (name, why, side) in MISREAD.iter().filter(|m| named.is_empty() || named.iter().any(|n| n == m.0)) {
        asked += 1;
        let mut seen = Vec::new();
        for c in COMPARED {
            let mut r = Rng::new(seed, c.name);
            let (mut rust, mut plain, mut first) = (0, 0, None);
            for _ in 0..cases {
                let case = (c.make)(&mut r);
                let Some((_, wrong)) = mistaken(c, side, &case) else { continue };
                plain += 1;
                let beside = wrong.and_then(|w| c.rust.and_then(|rust| rust(&case)).map(|b| (w, b)));
                rust += beside.is_some_and(|(w, b)| matches!(judge(&w, &b, true), Judged::Differs(_))) as usize;
                first.get_or_insert(case);
            }
            if plain > 0 {
                println!("{name:28}{:31}{rust:>10}{plain:>10}  {}", c.name, if seen.is_empty() { why } else { "" });
                seen.push(c.name);
            }
            if let Some(case) = first.filter(|_| !named.is_empty()) {
                let small = shrink(case, &|case| mistaken(c, side, case).is_some());
                println!("  {}: {}\n{}", c.name, mistaken(c, side, &small).unwrap().0, show(&small));
            }
        }
        let lost = wrong_by(|| there_and_back(side, seed, cases).0, cases);
        // a side that turns as the plain reading does has its directions too
        let turns = TURNED.iter().any(|call| seen.contains(call));
        let astray = if turns { wrong_by(|| directions(side, seed, cases).0, cases) } else { 0 };
        for (what, wrong) in [("(written and read back)", lost), ("(directions)", astray)].into_iter().filter(|w| w.1 > 0) {
            println!("{name:28}{what:31}{:>10}{wrong:>10}  {}", "-", if seen.is_empty() { why } else { "" });
            seen.push(what);
        }
        if seen.is_empty() {
            println!("{name:28}{:31}{:>10}{:>10}  {why}: NOT SEEN", "", 0, 0);
            unseen += 1;
        }
    }
    println!("misreadings: {asked}, not seen: {unseen}");
    ExitCode::from((unseen > 0 || asked == 0) as u8)
}

#[cfg(not(misread))]
fn misread(_: u64, _: usize, _: &[String]) -> ExitCode {
    println!("built without the misreadings: use compare/run misread");
    ExitCode::FAILURE
}

fn main() -> ExitCode {
    let arguments: Vec<String> = std::env::args().skip(1).collect();
    if arguments.first().is_some_and(|a| a == "closed") {
        return ExitCode::from(!compare::closing::run() as u8);
    }
    if !cfg!(rust) {
        println!("The Rust isn't at ../shared/docs/src beside this repository: nothing is compared.");
        return ExitCode::SUCCESS;
    }
    if arguments.first().is_some_and(|a| a == "misread") {
        return misread(1, arguments.get(1).map_or(3_000, |n| n.parse().expect("a number")), arguments.get(2..).unwrap_or(&[]));
    }
    if arguments.first().is_some_and(|a| a == "inputs") {
        compare::inputs::print(1, arguments.get(1).map_or(10_000, |n| n.parse().expect("a number")));
        return ExitCode::SUCCESS;
    }
    #[cfg(rust)]
    if arguments.first().is_some_and(|a| a == "partings") {
        compare::partings::print();
        return ExitCode::SUCCESS;
    }
    #[cfg(rust)]
    if arguments.first().is_some_and(|a| a == "vectors") {
        let folder = arguments.get(1).map_or("crates", |s| s);
        compare::vectors::write(std::path::Path::new(folder)).expect("a folder to write to");
        return ExitCode::SUCCESS;
    }
    let number = |i: usize, default: u64| arguments.get(i).map_or(default, |s| s.parse().expect("a number"));
    compare(number(0, 1), number(1, 100_000) as usize, arguments.get(2..).unwrap_or(&[]))
}
