//! Reports of every length, and buffers of no bytes.

use super::worked_examples::{one_leader, stale_leader};
use super::{empty, Case, Cases, Expect};
use crate::audit::REPORT_SIZE;

impl Cases<'_> {
    pub fn reports(&mut self) {
        let signer = self.signer(3, 5);
        let roster = signer.roster();
        let right = empty(&signer).bytes();
        let mut lengths: Vec<usize> = (0..=70).collect();
        lengths.extend([100, 106, 128, 255, 256, 257, 309, 4096, 65536 + 53, 100_000]);
        for report in self.some(lengths, 10) {
            for (name, roster, first, second, number, place) in [
                ("accepted", &roster[..], &right[..], &right[..], 0, 0),
                ("no roster", &[], &right, &right, 2, 0),
                ("no first", &roster, &[], &right, 5, 1),
                ("no second", &roster, &right, &[], 5, 2),
                ("nothing", &[], &[], &[], 2, 0),
                ("a bad second", &roster, &right, &right[1..], 5, 2),
            ] {
                let expect = match report < REPORT_SIZE {
                    true => Expect::Short,
                    false => Expect::Number(number, place),
                };
                let name = format!("{name}, report of {report} bytes");
                (self.take)(&Case { name, roster, first, second, report, expect });
            }
        }
        for (first, second) in [one_leader(&signer), stale_leader(&self.signer(3, 5))] {
            let (first, second) = (first.bytes(), second.bytes());
            for report in [0, 1, 52, 53, 54, 60, 1000] {
                let expect = match report < REPORT_SIZE {
                    true => Expect::Short,
                    false => Expect::Number(0, 0),
                };
                (self.take)(&Case {
                    name: format!("a fork, report of {report} bytes"),
                    roster: &roster,
                    first: &first,
                    second: &second,
                    report,
                    expect,
                });
            }
        }
    }
}
