//! Document 02, W1, The whole district at once: the depot's run over a list of submissions, on this
//! package's own judgement of one submission and its own audit of a pair.
//!
//! - `cases`: the runs that tests/compare compares;
//! - `samples`: the districts that make_cases writes.

pub mod cases;
pub mod samples;

use crate::audit::compare;
use crate::bytes::u16_at;
use crate::numbers::{ACCEPTED, LENGTH_COUNT, LENGTH_SUM, SHORT_REPORT};
use crate::roster::{replicas_of, Roster};
use crate::submission::Submission;
use crate::verdicts::Verdicts;

/// The fewest and the most submissions of a run.
pub const FEWEST: usize = 2;
pub const MOST: usize = 9;

/// Bytes of the report of a run over so many submissions: a number for each, the replicas named,
/// and two positions.
pub fn report_size(count: usize) -> usize {
    count + 4
}

/// What a run that is not refused finds.
#[derive(Clone, Debug, Default, PartialEq)]
pub struct Findings {
    /// Each submission's own number, in the order of the list.
    pub numbers: Vec<u8>,
    /// The replicas that are named in some pair of accepted submissions, as bits.
    pub named: u16,
    /// The positions, from 1, of the first pair that forks; 0 and 0 if there is none.
    pub fork: (u8, u8),
}

impl Findings {
    /// The bytes that are written.
    pub fn bytes(&self) -> Vec<u8> {
        let mut bytes = self.numbers.clone();
        bytes.extend(self.named.to_be_bytes());
        bytes.extend([self.fork.0, self.fork.1]);
        bytes
    }

    /// What a report of a run over so many submissions says.
    pub fn read(report: &[u8], count: usize) -> Findings {
        Findings {
            numbers: report[..count].to_vec(),
            named: u16_at(report, count),
            fork: (report[count + 2], report[count + 3]),
        }
    }
}

/// The lines that the command prints for a run: what it finds, or its refusal.
pub fn lines(found: &Result<Findings, u8>) -> String {
    let found = match found {
        Ok(found) => found,
        Err(number) => return format!("refusal {number}\n"),
    };
    let mut lines = format!("refusal {ACCEPTED}\n");
    for (i, number) in found.numbers.iter().enumerate() {
        lines += &format!("submission {} number {number}\n", i + 1);
    }
    lines += &format!("fork {} {}\n", found.fork.0, found.fork.1);
    for replica in replicas_of(found.named) {
        lines += &format!("board {replica}\n");
    }
    lines
}

/// The run as it is called: the number, with the report written into its buffer if that is 0.
pub fn district(
    roster: &[u8],
    buffer: &[u8],
    lengths: &[u32],
    report: &mut [u8],
    verdicts: &mut Verdicts,
) -> u32 {
    match findings(roster, buffer, lengths, report.len(), verdicts) {
        Ok(found) => {
            let bytes = found.bytes();
            report[..bytes.len()].copy_from_slice(&bytes);
            ACCEPTED.into()
        }
        Err(number) => number.into(),
    }
}

/// What a run finds whose report has so many bytes; or its refusal, the first that applies of 2, 3,
/// 4, 17, 18 and 1.
pub fn findings(
    roster: &[u8],
    buffer: &[u8],
    lengths: &[u32],
    report: usize,
    verdicts: &mut Verdicts,
) -> Result<Findings, u8> {
    let roster = Roster::read(roster)?;
    if !(FEWEST..=MOST).contains(&lengths.len()) {
        return Err(LENGTH_COUNT);
    }
    let sum: u64 = lengths.iter().map(|length| u64::from(*length)).sum();
    if sum != buffer.len() as u64 {
        return Err(LENGTH_SUM);
    }
    if report < report_size(lengths.len()) {
        return Err(SHORT_REPORT);
    }
    let judged: Vec<Result<Submission, u8>> = end_to_end(buffer, lengths)
        .into_iter()
        .map(|submission| Submission::read(&roster, submission, verdicts))
        .collect();
    Ok(found_in(&judged))
}

/// The submissions, one after the other in a buffer of as many bytes as they have together.
pub fn end_to_end<'a>(buffer: &'a [u8], lengths: &[u32]) -> Vec<&'a [u8]> {
    let mut rest = buffer;
    let mut submissions = Vec::new();
    for length in lengths {
        let (submission, after) = rest.split_at(*length as usize);
        submissions.push(submission);
        rest = after;
    }
    submissions
}

/// Every pair of accepted submissions is audited, the lower position first; refused ones are left
/// out, and keep their positions.
fn found_in(judged: &[Result<Submission, u8>]) -> Findings {
    let number = |one: &Result<Submission, u8>| *one.as_ref().err().unwrap_or(&ACCEPTED);
    let mut found =
        Findings { numbers: judged.iter().map(number).collect(), ..Findings::default() };
    for (i, lower) in judged.iter().enumerate() {
        for (j, higher) in judged.iter().enumerate().skip(i + 1) {
            let (Ok(lower), Ok(higher)) = (lower, higher) else {
                continue;
            };
            let pair = compare(lower, higher);
            found.named |= pair.named();
            if pair.fork != 0 && found.fork == (0, 0) {
                found.fork = (i as u8 + 1, j as u8 + 1);
            }
        }
    }
    found
}

#[cfg(test)]
mod tests;
