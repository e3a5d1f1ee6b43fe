//! Compares the library's calls with the separately written auditor's answers.
//!
//! compare fixed [CALL..]         the cases of a fixed seed
//! compare fresh [CALL..]         fewer, from a fresh seed; SEED=n gives the seed
//! compare soak SECONDS [CALL..]  fresh sets of each call in turn, until the time is up
//! compare replay FOLDER          one case, from the files that a difference leaves behind
//! compare premises               the premises of fairness, on pairs that fork, and on lists
//! compare round_trips            simulated submissions taken apart and assembled again
//!
//! A CALL is sha256, lms_check, assemble, district or audit; without one all are run. A case that
//! differs is written to a folder (src/folder.rs): FAILED if it is set, otherwise compare.failed in
//! the current folder. With TRACE set, each case is named and written there before it runs, so that
//! one in which the library crashes is found.

use auditor::cases::Size;
use auditor::random::fresh_seed;
use compare::call::{Answer, Call, Case};
use compare::run::{Counts, Difference, Watch};
use compare::{calls, folder, premises, round_trips};
use std::path::{Path, PathBuf};
use std::time::{Duration, Instant};
use std::{env, process::exit};

const FIXED_SEED: u64 = 1;

fn main() {
    let arguments: Vec<String> = env::args().skip(1).collect();
    match &arguments.iter().map(String::as_str).collect::<Vec<_>>()[..] {
        ["fixed", names @ ..] => fixed(names),
        ["fresh", names @ ..] => fresh(names),
        ["soak", seconds, names @ ..] => match seconds.parse() {
            Ok(seconds) => soak(seconds, names),
            Err(_) => stop("SECONDS is not a number"),
        },
        ["replay", folder] => replay(Path::new(folder)),
        ["premises"] => {
            tell("premises", premises::hold());
            tell("premises", premises::hold_in_lists());
        }
        ["round_trips"] => tell("round trips", round_trips::hold()),
        _ => stop(
            "use: compare fixed|fresh [CALL..] | soak SECONDS [CALL..] | replay FOLDER | premises | \
             round_trips",
        ),
    }
}

/// Prints what was found, or stops where something does not hold.
fn tell(about: &str, held: Result<String, &'static str>) {
    match held {
        Ok(found) => println!("compare: {found}"),
        Err(why) => stop(&format!("{about}: {why}")),
    }
}

/// The calls with these names, or all.
fn chosen(names: &[&str]) -> Vec<Box<dyn Call>> {
    let known: Vec<&str> = calls::all().iter().map(|call| call.shape().name).collect();
    if let Some(other) = names.iter().find(|name| !known.contains(name)) {
        stop(&format!("no call is named {other}: name one of {}", known.join(", ")));
    }
    let mut all = calls::all();
    all.retain(|call| names.is_empty() || names.contains(&call.shape().name));
    all
}

fn fixed(names: &[&str]) {
    for call in chosen(names) {
        run_set(&*call, "fixed set", FIXED_SEED, Size::Full);
    }
}

fn fresh(names: &[&str]) {
    let seed = seed();
    for call in chosen(names) {
        let name = call.shape().name;
        println!("compare: SEED={seed} compare fresh {name} gives this set again");
        run_set(&*call, &format!("fresh set of SEED={seed}"), seed, Size::Small);
    }
}

/// One set; stops if a case differs, or if there are too few.
fn run_set(call: &dyn Call, set: &str, seed: u64, size: Size) {
    let mut counts = Counts::default();
    counts.run_set(call, (seed, size), None, &mut Program::new(call, set));
    print(call, set, &counts);
    if let Some(missing) = counts.missing(call, size) {
        stop(&format!("{}, {set}: {missing}", call.shape().name));
    }
}

/// Fresh sets of each call in turn, until the time is up.
fn soak(seconds: u64, names: &[&str]) {
    let end = Instant::now() + Duration::from_secs(seconds);
    let first = seed();
    let mut seeds = first..;
    let mut totals = vec![Counts::default(); chosen(names).len()];
    println!("compare: SEED={first} compare soak SECONDS begins with the same cases");
    while Instant::now() < end {
        for (call, counts) in chosen(names).iter().zip(&mut totals) {
            if Instant::now() < end {
                let seed = seeds.next().expect("a seed");
                let set = format!("fresh set of SEED={seed}");
                let mut program = Program::new(&**call, &set);
                counts.run_set(&**call, (seed, Size::Small), Some(end), &mut program);
            }
        }
    }
    for (call, counts) in chosen(names).iter().zip(&totals) {
        print(&**call, &format!("{} fresh sets in {seconds} seconds", counts.sets), counts);
    }
}

/// The case of a folder; a folder that names no call is an audit's.
fn replay(path: &Path) {
    let name = folder::call_name(path).unwrap_or_else(|_| "audit".into());
    let call = &*chosen(&[&name])[0];
    let mut counts = Counts::default();
    let mut program = Program { writes: false, ..Program::new(call, "replay") };
    folder::read(path, call, |case| counts.run(call, case, &mut program))
        .unwrap_or_else(|why| stop(&why));
    print(call, "replay", &counts);
}

fn seed() -> u64 {
    fresh_seed().unwrap_or_else(|why| stop(why))
}

fn print(call: &dyn Call, set: &str, counts: &Counts) {
    let (name, Counts { cases, calls, numbers, within, .. }) = (call.shape().name, counts);
    println!(
        "compare: {name}, {set}: {cases} cases, {calls} calls of the library, all as expected"
    );
    for (number, count) in numbers {
        println!("compare: {name}, number {number}: {count} cases");
    }
    for (number, count) in within {
        println!("compare: {name}, number {number} within what is written: {count} times");
    }
}

/// Writes out the case that differs, and ends.
struct Program<'a> {
    call: &'a dyn Call,
    set: String,
    trace: bool,
    writes: bool,
}

impl<'a> Program<'a> {
    fn new(call: &'a dyn Call, set: &str) -> Self {
        let trace = env::var_os("TRACE").is_some();
        Program { call, set: set.into(), trace, writes: true }
    }

    fn write(&self, case: &Case, expected: &Answer, given: Option<&Answer>) {
        if !self.writes {
            return;
        }
        let failed = env::var_os("FAILED").map_or("compare.failed".into(), PathBuf::from);
        let name = failed.display();
        if let Err(error) = folder::write(&failed, self.call, case, expected, given) {
            stop(&format!("{name}: {error}; set FAILED to another folder"));
        }
        let tool = self.call.shape().tool.map(|tool| format!("; so does {tool} {name}"));
        println!("compare replay {name} runs this case again{}", tool.unwrap_or_default());
    }
}

impl Watch for Program<'_> {
    fn begins(&mut self, case: &Case, expected: &Answer) {
        if self.trace {
            println!("{}, {}, {}", self.call.shape().name, self.set, case.name);
            self.write(case, expected, None);
        }
    }

    fn differs(&mut self, Difference { case, why, expected, given }: Difference) {
        println!("compare: {}, {}, {}: {why}", self.call.shape().name, self.set, case.name);
        self.write(case, expected, given);
        exit(1)
    }
}

fn stop(why: &str) -> ! {
    eprintln!("compare: {why}");
    exit(2)
}
