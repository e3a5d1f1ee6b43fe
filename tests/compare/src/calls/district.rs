//! `hirelog_district`: the runs of tests/auditor over lists of submissions. The list of lengths is
//! an input of bytes, four to each, in the order that the machine has them.

use crate::call::{Answer, Call, Case, Input, Output, Shape};
use auditor::bytes::u32_at;
use auditor::cases::Size;
use auditor::depot::{cases, district, end_to_end, report_size, Findings, MOST};
use auditor::submission::{RECORD_SIZE, TRAILER_SIZE};
use auditor::verdicts::Verdicts;
use hirelog::sys::hirelog_district;
use std::cell::RefCell;
use std::ptr;

static SHAPE: Shape = Shape {
    name: "district",
    inputs: &["roster", "buffer", "lengths"],
    outputs: &[("report", MOST + 4)],
    returns: &["number"],
    numbers: &[0, 1, 2, 3, 4, 17, 18],
    within: &[0, 5, 6, 7, 8, 9, 10, 11, 12, 13, 14, 15],
    fewest: (6000, 600),
    tool: Some("district_tool"),
};

#[derive(Default)]
pub struct District {
    verdicts: RefCell<Verdicts>,
}

impl Call for District {
    fn shape(&self) -> &'static Shape {
        &SHAPE
    }

    fn cases(&self, seed: u64, size: Size, take: &mut dyn FnMut(&Case)) {
        cases::run(seed, size, &mut |case| {
            let lengths = written(case.lengths);
            let count = case.lengths.len();
            take(&Case {
                name: case.name.clone(),
                inputs: vec![case.roster, case.buffer, &lengths],
                outputs: vec![case.report],
                expect: Some(Box::new(move |answer| case.expect.broken(&found(answer, count)))),
            });
        });
    }

    fn library(&self, inputs: &[Input], outputs: &mut [Output]) -> Vec<u64> {
        let [roster, buffer, lengths] = inputs else { unreachable!("three inputs") };
        let [report] = outputs else { unreachable!("one output") };
        // Numbers of the machine, aligned as such, and after a first one no better than that.
        let room = lengths.bytes().map(|bytes| [vec![u32::MAX], read(bytes)].concat());
        let aligned = room.as_ref().map(|room| &room[1..]);
        let given = (roster.bytes(), buffer.bytes(), aligned, report.bytes());
        if let (Some(roster), Some(buffer), Some(lengths), Some(report)) = given {
            return vec![hirelog::district_into(roster, buffer, lengths, report).into()];
        }
        let start = aligned.map_or(ptr::null(), |lengths| lengths.as_ptr());
        // SAFETY: as the harness says; there are as many lengths as are read.
        let number = unsafe {
            hirelog_district(
                roster.start(),
                roster.length(),
                buffer.start(),
                buffer.length(),
                start,
                aligned.map_or(0, |lengths| lengths.len()),
                report.start(),
                report.length(),
            )
        };
        vec![number.into()]
    }

    fn auditor(&self, inputs: &[&[u8]], outputs: &mut [&mut [u8]]) -> Vec<u64> {
        let verdicts = &mut self.verdicts.borrow_mut();
        vec![district(inputs[0], inputs[1], &read(inputs[2]), outputs[0], verdicts).into()]
    }

    /// The submissions' own numbers.
    fn within(&self, inputs: &[&[u8]], answer: &Answer) -> Vec<u64> {
        let found = found(answer, read(inputs[2]).len());
        found.map_or(Vec::new(), |found| found.numbers.into_iter().map(u64::from).collect())
    }

    /// Naming: two accepted submissions that committed different records, and nobody named; or
    /// another first pair than the records themselves show.
    fn also_wrong(&self, inputs: &[&[u8]], answer: &Answer) -> Option<String> {
        let lengths = read(inputs[2]);
        let found = found(answer, lengths.len()).ok()?;
        let submissions = end_to_end(inputs[1], &lengths);
        let fork = first_fork(&submissions, &found.numbers);
        if fork != found.fork {
            return Some(format!("the records fork first in {fork:?}, and {found:?}"));
        }
        (fork != (0, 0) && found.named == 0).then(|| format!("nobody is named, and {fork:?} fork"))
    }
}

/// The lengths that the bytes hold.
fn read(bytes: &[u8]) -> Vec<u32> {
    bytes.chunks_exact(4).map(|four| u32::from_ne_bytes(four.try_into().expect("four"))).collect()
}

/// The bytes of the lengths.
fn written(lengths: &[u32]) -> Vec<u8> {
    lengths.iter().flat_map(|length| length.to_ne_bytes()).collect()
}

/// What the report of a run over so many submissions says; the number where it is refused.
fn found(answer: &Answer, count: usize) -> Result<Findings, u8> {
    match answer.returned[0] {
        0 if answer.outputs()[0].len() < report_size(count) => Err(0),
        0 => Ok(Findings::read(answer.outputs()[0], count)),
        number => Err(number as u8),
    }
}

/// The positions of the first two accepted submissions whose committed records differ.
fn first_fork(submissions: &[&[u8]], numbers: &[u8]) -> (u8, u8) {
    for (i, lower) in submissions.iter().enumerate() {
        for (j, higher) in submissions.iter().enumerate().skip(i + 1) {
            if numbers[i] == 0 && numbers[j] == 0 {
                let (a, b) = (committed(lower), committed(higher));
                let both = a.len().min(b.len());
                if a[..both] != b[..both] {
                    return (i as u8 + 1, j as u8 + 1);
                }
            }
        }
    }
    (0, 0)
}

/// The bytes of the records that an accepted submission commits.
fn committed(submission: &[u8]) -> &[u8] {
    let trailer = submission.len() - TRAILER_SIZE;
    match u32_at(submission, trailer + 36) as usize {
        0 => &[],
        back => &submission[..RECORD_SIZE * u32_at(submission, trailer - back) as usize],
    }
}

#[cfg(test)]
mod tests {
    use super::*;
    use auditor::cases::{empty, led};
    use auditor::cluster::Keys;
    use auditor::signer::Signer;

    #[test]
    fn lengths() {
        let lengths = [0, 44, 1 << 24, u32::MAX];
        assert_eq!(written(&lengths).len(), 16);
        assert_eq!(read(&written(&lengths)), lengths);
        assert_eq!(read(&[]), []);
    }

    /// An empty log; and logs that part at index 2, of which one does not commit that.
    #[test]
    fn naming() {
        let signer = Signer::new(&Keys::new("naming").cluster_from_0(3, 5, 8));
        let drafts = [("ab", 2), ("ac", 1), ("ad", 2)];
        let drafts = drafts.map(|(letters, commit)| led(&signer, letters, 0b011, commit));
        let mut submissions = vec![empty(&signer).bytes()];
        submissions.extend(drafts.iter().map(|draft| draft.bytes()));
        let lengths: Vec<u32> = submissions.iter().map(|one| one.len() as u32).collect();
        let (roster, buffer) = (signer.roster(), submissions.concat());
        let wrong = |numbers: [u8; 4], named, fork| {
            let mut answer = Answer::before(&[report_size(4)]);
            answer.returned = vec![0];
            let found = Findings { numbers: numbers.to_vec(), named, fork };
            answer.outputs_mut()[0].copy_from_slice(&found.bytes());
            District::default().also_wrong(&[&roster, &buffer, &written(&lengths)], &answer)
        };
        assert_eq!(wrong([0; 4], 1, (2, 4)), None);
        assert_eq!(wrong([0; 4], 0, (2, 4)), Some("nobody is named, and (2, 4) fork".into()));
        assert!(wrong([0; 4], 1, (0, 0)).is_some() && wrong([0; 4], 1, (2, 3)).is_some());
        // One of the two is refused.
        assert_eq!(wrong([0, 15, 0, 0], 0, (0, 0)), None);
        assert!(wrong([0, 15, 0, 0], 1, (2, 4)).is_some());
    }
}
