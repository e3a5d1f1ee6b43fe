//! Runs cases: both sides are asked, and the first that differs is told.

use crate::call::{Answer, Call, Case, Input, Output, AROUND};
use auditor::cases::Size;
use std::collections::BTreeMap;
use std::time::Instant;

/// A case in which something is wrong.
pub struct Difference<'a> {
    pub case: &'a Case<'a>,
    pub why: String,
    pub expected: &'a Answer,
    /// The library's answer, where it is what is wrong.
    pub given: Option<&'a Answer>,
}

/// What happens on the way.
pub trait Watch {
    /// Before the library is asked.
    fn begins(&mut self, _case: &Case, _expected: &Answer) {}

    /// The first case in which something is wrong; those after it are left out.
    fn differs(&mut self, difference: Difference);
}

/// How many cases and calls of the library there were, and how often each number came.
#[derive(Clone, Debug, Default, PartialEq)]
pub struct Counts {
    pub sets: u64,
    pub cases: u64,
    pub calls: u64,
    pub numbers: BTreeMap<u64, u64>,
    /// How often each came within what was written.
    pub within: BTreeMap<u64, u64>,
    /// Whether a case differed.
    pub failed: bool,
}

impl Counts {
    /// Runs the set that the seed makes, as far as the time goes.
    pub fn run_set(
        &mut self,
        call: &dyn Call,
        (seed, size): (u64, Size),
        end: Option<Instant>,
        watch: &mut dyn Watch,
    ) {
        self.sets += 1;
        call.cases(seed, size, &mut |case| {
            if !self.failed && end.map_or(true, |end| Instant::now() < end) {
                self.run(call, case, watch);
            }
        });
    }

    /// Runs one case. Buffers of no bytes are given as NULL also.
    pub fn run(&mut self, call: &dyn Call, case: &Case, watch: &mut dyn Watch) {
        let mut expected = Answer::before(&case.outputs);
        expected.returned = call.auditor(&case.inputs, &mut expected.outputs_mut());
        let mut fail = |why: String, given: Option<&Answer>, watch: &mut dyn Watch| {
            self.failed = true;
            watch.differs(Difference { case, why, expected: &expected, given });
        };
        if let Some(why) = case.expect.as_ref().and_then(|broken| broken(&expected)) {
            return fail(format!("the auditor is wrong, or the case: {why}"), None, watch);
        }
        watch.begins(case, &expected);
        let empty = case.inputs.iter().any(|input| input.is_empty()) || case.outputs.contains(&0);
        for null in [false, true].into_iter().take(1 + usize::from(empty)) {
            let given = ask(call, case, null);
            if let Some(mut why) = difference(call, &expected, &given) {
                if null {
                    why += ", no bytes given as NULL";
                }
                return fail(why, Some(&given), watch);
            }
            self.calls += 1;
        }
        if let Some(why) = call.also_wrong(&case.inputs, &expected) {
            return fail(why, None, watch);
        }
        self.cases += 1;
        *self.numbers.entry(expected.returned[0]).or_default() += 1;
        for number in call.within(&case.inputs, &expected) {
            *self.within.entry(number).or_default() += 1;
        }
    }

    /// What is missing from a set of this size, if something is: cases, or a number in the full
    /// one.
    pub fn missing(&self, call: &dyn Call, size: Size) -> Option<String> {
        let shape = call.shape();
        let fewest = if size == Size::Full { shape.fewest.0 } else { shape.fewest.1 };
        if self.cases < fewest {
            return Some(format!("{} cases, and {fewest} are the fewest", self.cases));
        }
        if size == Size::Small {
            return None;
        }
        if let Some(never) = shape.numbers.iter().find(|n| !self.numbers.contains_key(n)) {
            return Some(format!("number {never} never came: add cases for it"));
        }
        let never = shape.within.iter().find(|number| !self.within.contains_key(number));
        never.map(|n| format!("number {n} never came within what is written: add cases for it"))
    }
}

/// The library's answer; with `null`, to NULL for each buffer of no bytes.
fn ask(call: &dyn Call, case: &Case, null: bool) -> Answer {
    let mut answer = Answer::before(&case.outputs);
    let inputs: Vec<Input> = case.inputs.iter().map(|bytes| Input::new(bytes, null)).collect();
    let mut outputs: Vec<Output> =
        answer.outputs_mut().into_iter().map(|bytes| Output::new(bytes, null)).collect();
    let returned = call.library(&inputs, &mut outputs);
    answer.returned = returned;
    answer
}

/// How the answer given differs from the one expected, if it does.
fn difference(call: &dyn Call, expected: &Answer, given: &Answer) -> Option<String> {
    let shape = call.shape();
    let mut words = Vec::new();
    for (i, name) in shape.returns.iter().enumerate() {
        let (right, found) = (expected.returned[i], given.returned[i]);
        if right != found {
            words.push(format!("{name} {found}, expected {right}"));
        }
    }
    for (i, (name, _)) in shape.outputs.iter().enumerate() {
        let (right, found) = (&expected.rooms[i], &given.rooms[i]);
        let Some(at) = right.iter().zip(found).position(|(a, b)| a != b) else {
            continue;
        };
        let end = right.len() - AROUND;
        let which = match at {
            at if at < AROUND => format!("byte {} before the {name}", AROUND - at),
            at if at >= end => format!("byte {} after the {name}", at - end + 1),
            at => format!("byte {} of the {name}", at - AROUND),
        };
        words.push(format!("{which} is {}, expected {}", found[at], right[at]));
    }
    (!words.is_empty()).then(|| words.join("; "))
}

#[cfg(test)]
mod tests;
