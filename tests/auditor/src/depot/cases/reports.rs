//! Reports of every length around the one that is enough.

use super::refused::refused;
use super::{empties, found, Case, Cases, Expect};
use crate::cases::led;
use crate::depot::{report_size, FEWEST, MOST};

impl Cases<'_> {
    pub fn reports(&mut self) {
        let signer = self.signer(3);
        let roster = signer.roster();
        for count in FEWEST..=MOST {
            let submissions = empties(&signer, count);
            let mut lengths: Vec<usize> = (0..=count + 20).collect();
            lengths.extend([53, 100, 256, 256 + count, 260 + count, 4096, 65536, 65540 + count]);
            for report in self.some(lengths, 8) {
                let right = found(&vec![0; count], 0, (0, 0));
                self.reported("empty ones", &roster, &submissions, report, right);
            }
        }
        // A fork, and refused ones: all bytes of the report are other than before.
        let draft = led(&signer, "b", 0b101, 1);
        let mut submissions = vec![led(&signer, "a", 0b011, 1).bytes(), draft.bytes()];
        let mut numbers = vec![0, 0];
        for count in FEWEST..=MOST {
            let enough = report_size(count);
            for report in self.some(vec![0, 1, count, enough - 1, enough, enough + 1, 100], 2) {
                let right = found(&numbers, 1, (1, 2));
                self.reported("a fork", &roster, &submissions, report, right);
            }
            let number = 5 + count as u8;
            submissions.push(refused(&signer, &draft, number));
            numbers.push(number);
        }
    }

    /// A run with a report of so many bytes, which is refused with number 1 if they are too few.
    fn reported(
        &mut self,
        name: &str,
        roster: &[u8],
        submissions: &[Vec<u8>],
        report: usize,
        right: Expect,
    ) {
        let lengths: Vec<u32> = submissions.iter().map(|one| one.len() as u32).collect();
        let short = report < report_size(lengths.len());
        let expect = if short { Expect::Refused(1) } else { right };
        let name = format!("{name}, {} of them, report of {report} bytes", lengths.len());
        let buffer = &submissions.concat();
        (self.take)(&Case { name, roster, buffer, lengths: &lengths, report, expect });
    }
}
