//! `hirelog_assemble`: the logs and bags of tests/auditor.

use crate::call::{Answer, Call, Case, Input, Output, Shape};
use auditor::assemble::{assemble, cases, LONGEST};
use auditor::build::log_bytes;
use auditor::cases::Size;
use auditor::roster::Roster;
use auditor::submission::Submission;
use auditor::verdicts::Verdicts;
use hirelog::sys::hirelog_assemble;
use std::cell::RefCell;

static SHAPE: Shape = Shape {
    name: "assemble",
    inputs: &["roster", "log", "items"],
    outputs: &[("submission", LONGEST)],
    returns: &["number", "length"],
    numbers: &[0, 2, 3, 4, 8, 11, 19, 20, 21],
    within: &[],
    fewest: (12_000, 600),
    tool: Some("assemble_tool"),
};

#[derive(Default)]
pub struct Assemble {
    verdicts: RefCell<Verdicts>,
}

impl Call for Assemble {
    fn shape(&self) -> &'static Shape {
        &SHAPE
    }

    fn cases(&self, seed: u64, size: Size, take: &mut dyn FnMut(&Case)) {
        cases::run(seed, size, &mut |case| {
            take(&Case {
                name: case.name.clone(),
                inputs: vec![case.roster, case.log, case.items],
                outputs: vec![case.output],
                expect: Some(Box::new(|answer| case.expect.broken(&found(answer)))),
            });
        });
    }

    fn library(&self, inputs: &[Input], outputs: &mut [Output]) -> Vec<u64> {
        let [roster, log, items] = inputs else { unreachable!("three inputs") };
        let [output] = outputs else { unreachable!("one output") };
        let given = (roster.bytes(), log.bytes(), items.bytes(), output.bytes());
        let written = match given {
            (Some(roster), Some(log), Some(items), Some(output)) => {
                hirelog::assemble_into(roster, log, items, output)
            }
            // SAFETY: as the harness says.
            _ => unsafe {
                hirelog_assemble(
                    roster.start(),
                    roster.length(),
                    log.start(),
                    log.length(),
                    items.start(),
                    items.length(),
                    output.start(),
                    output.length(),
                )
            },
        };
        vec![written.number.into(), written.length as u64]
    }

    fn auditor(&self, inputs: &[&[u8]], outputs: &mut [&mut [u8]]) -> Vec<u64> {
        let verdicts = &mut self.verdicts.borrow_mut();
        let (number, length) = assemble(inputs[0], inputs[1], inputs[2], outputs[0], verdicts);
        vec![number.into(), length as u64]
    }

    /// What is written is a submission that the auditor accepts, and it reads as the same log.
    fn also_wrong(&self, inputs: &[&[u8]], answer: &Answer) -> Option<String> {
        let written = found(answer).ok()?;
        let roster = Roster::read(inputs[0]).expect("a roster that is not refused");
        match Submission::read(&roster, &written, &mut self.verdicts.borrow_mut()) {
            Err(number) => Some(format!("what is written is refused by {number}")),
            Ok(read) if log_bytes(&read.records) != inputs[1] => {
                Some("what is written reads as another log".into())
            }
            Ok(_) => None,
        }
    }
}

/// What is written; the number where nothing is.
fn found(answer: &Answer) -> Result<Vec<u8>, u8> {
    match answer.returned[..] {
        [0, length] => answer.outputs()[0].get(..length as usize).map(<[u8]>::to_vec).ok_or(0),
        [number, _] => Err(number as u8),
        _ => unreachable!("a number and a length"),
    }
}

#[cfg(test)]
mod tests {
    use super::*;
    use auditor::cases::whole;
    use auditor::cluster::Keys;
    use auditor::signer::Signer;

    /// An answer in which the submission is damaged, or of another log, is told.
    #[test]
    fn accepted() {
        let signer = Signer::new(&Keys::new("assembled").cluster_from_0(3, 5, 8));
        let (roster, draft) = (signer.roster(), whole(&signer));
        let (log, right) = (log_bytes(&draft.records), draft.bytes());
        let wrong = |log: &[u8], written: &[u8], number| {
            let mut answer = Answer::before(&[written.len()]);
            answer.outputs_mut()[0].copy_from_slice(written);
            answer.returned = vec![number, if number == 0 { written.len() as u64 } else { 0 }];
            Assemble::default().also_wrong(&[&roster, log, &[]], &answer)
        };
        assert_eq!(wrong(&log, &right, 0), None);
        let other = Some("what is written reads as another log".into());
        assert_eq!(wrong(&log[36..], &right, 0), other);
        let mut damaged = right.clone();
        damaged[200] ^= 1;
        assert_eq!(wrong(&log, &damaged, 0), Some("what is written is refused by 15".into()));
        assert_eq!(wrong(&log, &damaged, 20), None);
    }
}
