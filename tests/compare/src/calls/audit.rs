//! `hirelog_audit`: the cases of tests/auditor.

use crate::call::{Answer, Call, Case, Input, Output, Shape};
use auditor::audit::{audit, Charge, Findings, REPORT_SIZE};
use auditor::cases::{self, Size};
use auditor::verdicts::Verdicts;
use hirelog::sys::hirelog_audit;
use hirelog::Refused;
use std::cell::RefCell;

static SHAPE: Shape = Shape {
    name: "audit",
    inputs: &["roster", "first", "second"],
    outputs: &[("report", REPORT_SIZE)],
    returns: &["number"],
    numbers: &[0, 1, 2, 3, 4, 5, 6, 7, 8, 9, 10, 11, 12, 13, 14, 15],
    within: &[],
    fewest: (5000, 500),
    tool: Some("audit_tool"),
};

#[derive(Default)]
pub struct Audit {
    verdicts: RefCell<Verdicts>,
}

impl Call for Audit {
    fn shape(&self) -> &'static Shape {
        &SHAPE
    }

    fn cases(&self, seed: u64, size: Size, take: &mut dyn FnMut(&Case)) {
        cases::run(seed, size, &mut |case| {
            take(&Case {
                name: case.name.clone(),
                inputs: vec![case.roster, case.first, case.second],
                outputs: vec![case.report],
                expect: Some(Box::new(|answer| case.expect.broken(found(answer).as_ref()))),
            })
        });
    }

    fn library(&self, inputs: &[Input], outputs: &mut [Output]) -> Vec<u64> {
        let [roster, first, second] = inputs else { unreachable!("three inputs") };
        let [report] = outputs else { unreachable!("one output") };
        let given = (roster.bytes(), first.bytes(), second.bytes(), report.bytes());
        if let (Some(roster), Some(first), Some(second), Some(report)) = given {
            return vec![hirelog::audit_into(roster, first, second, report).into()];
        }
        // SAFETY: as the harness says.
        let number = unsafe {
            hirelog_audit(
                roster.start(),
                roster.length(),
                first.start(),
                first.length(),
                second.start(),
                second.length(),
                report.start(),
                report.length(),
            )
        };
        vec![number.into()]
    }

    fn auditor(&self, inputs: &[&[u8]], outputs: &mut [&mut [u8]]) -> Vec<u64> {
        let verdicts = &mut self.verdicts.borrow_mut();
        vec![audit(inputs[0], inputs[1], inputs[2], outputs[0], verdicts).into()]
    }

    /// The wrapper of rust/ reads in the report what is written there.
    fn also_wrong(&self, _: &[&[u8]], answer: &Answer) -> Option<String> {
        let found = found(answer)?;
        let read = wrapped(answer.outputs()[0]);
        (read != found).then(|| format!("the wrapper reads {read:?}, and it is {found:?}"))
    }
}

/// What the report says; nothing where its buffer was too short.
fn found(answer: &Answer) -> Option<Findings> {
    (answer.returned[0] != 1).then(|| Findings::read(answer.outputs()[0]))
}

/// What the wrapper reads from the report, written as the auditor's findings.
fn wrapped(report: &[u8]) -> Findings {
    let bytes = report[..REPORT_SIZE].try_into().expect("a report's bytes");
    match hirelog::read_report(bytes).expect("a number and a place of document 01") {
        Err(Refused { refusal, place }) => {
            Findings { number: refusal.number(), place: place as u8, ..Findings::default() }
        }
        Ok(found) => {
            let row = |row: hirelog::Charge| Charge { rule: row.rule, term: row.term };
            let rows = found.charges.map(|charge| charge.map(row));
            Findings { fork: found.fork.unwrap_or(0), rows, ..Findings::default() }
        }
    }
}
