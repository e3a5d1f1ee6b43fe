//! A wrong count of steps is caught: the library's by the auditor's, the auditor's by what a case
//! was made to be.

use super::*;
use crate::call::{Call, Input, Output, Shape};
use crate::calls::lms_check::LmsCheck;
use crate::run::{Counts, Difference, Watch};
use auditor::lms::MESSAGE_LIMIT;

/// Who counts wrongly.
#[derive(Clone, Copy, PartialEq)]
enum Side {
    Library,
    Auditor,
}

/// Both sides answer as the auditor does, but for the steps of one side.
struct Miscounts {
    side: Side,
    /// The steps for an answer's number and right steps.
    steps: fn(u64, u64) -> u64,
}

impl Miscounts {
    fn answer(&self, side: Side, inputs: &[&[u8]]) -> Vec<u64> {
        let mut answer = LmsCheck.auditor(inputs, &mut []);
        if self.side == side {
            answer[2] = (self.steps)(answer[0], answer[2]);
        }
        answer
    }
}

impl Call for Miscounts {
    fn shape(&self) -> &'static Shape {
        LmsCheck.shape()
    }

    /// Some that are good, bad by the root, bad by the form, and too long.
    fn cases(&self, seed: u64, size: Size, take: &mut dyn FnMut(&Case)) {
        let mut inputs = Inputs { take, random: Random::new(seed), size };
        let mut made = inputs.make_any(&ONE_TIME_TYPES[3], &TREE_TYPES[0]);
        inputs.good("good", &made);
        inputs.flip_in_key("root", &made, 8 * KEY_LENGTH - 1);
        inputs.flip_in_key("type", &made, 0);
        made.message = pattern(MESSAGE_LIMIT + 1);
        inputs.long("too long", &made);
    }

    fn library(&self, inputs: &[Input], _: &mut [Output]) -> Vec<u64> {
        let bytes: Vec<&[u8]> = inputs.iter().map(|input| input.bytes().unwrap_or(&[])).collect();
        self.answer(Side::Library, &bytes)
    }

    fn auditor(&self, inputs: &[&[u8]], _: &mut [&mut [u8]]) -> Vec<u64> {
        self.answer(Side::Auditor, inputs)
    }
}

/// What was told of the first case that differed.
#[derive(Default)]
struct Told(Vec<String>);

impl Watch for Told {
    fn differs(&mut self, Difference { case, why, .. }: Difference) {
        self.0.push(format!("{}: {why}", case.name));
    }
}

#[test]
fn wrong_steps() {
    let faults: [(&str, fn(u64, u64) -> u64); 4] = [
        ("good", |number, steps| steps + u64::from(number == 0)),
        ("root", |number, steps| if number == 0 { steps } else { 0 }),
        ("type", |number, steps| if number == 15 { steps.max(1) } else { steps }),
        ("too long", |number, steps| if number == 16 { 1 } else { steps }),
    ];
    for (case, steps) in faults {
        for (side, words) in
            [(Side::Library, "): steps "), (Side::Auditor, "): the auditor is wrong, or the case")]
        {
            let (mut counts, mut told) = (Counts::default(), Told::default());
            counts.run_set(&Miscounts { side, steps }, (2, Size::Full), None, &mut told);
            let told = told.0.concat();
            assert!(told.starts_with(&format!("{case} (")) && told.contains(words), "{told}");
        }
    }
}

/// Without a fault nothing is told.
#[test]
fn right_steps() {
    let (mut counts, mut told) = (Counts::default(), Told::default());
    let right = Miscounts { side: Side::Library, steps: |_, steps| steps };
    counts.run_set(&right, (2, Size::Full), None, &mut told);
    assert_eq!((counts.cases, told.0), (4, Vec::new()));
}
