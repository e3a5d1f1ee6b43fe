//! A district's run, over two to nine submissions at once (document 02, W1), and its report.

use crate::numbers::Number;
use crate::report::replicas_of;
use crate::{sys, Refusal, REPLICAS, SUBMISSION_MAX};
use std::fmt;

/// The most submissions of a run.
pub const DISTRICT_MAX: usize = 9;

/// Bytes of the longest report of a run: a buffer of so many always does.
pub const DISTRICT_REPORT_MAX: usize = 13;

/// Bytes of a report after those of the submissions.
const AFTER_NUMBERS: usize = 4;

/// What a run shows.
#[derive(Clone, Debug, PartialEq, Eq)]
pub struct District {
    /// Of each submission, in their order: why it was refused, `None` if it was accepted.
    pub refusals: Vec<Option<Refusal>>,
    /// The replicas named by an audit of any two accepted submissions, from 1, rising.
    pub named: Vec<usize>,
    /// The first two accepted submissions that fork, by their positions from 1, the lower first.
    pub fork: Option<(usize, usize)>,
}

/// Why a whole run is refused.
#[derive(Clone, Copy, Debug, PartialEq, Eq)]
pub enum DistrictRefused {
    /// Numbers 2 to 4, as an audit has them.
    Roster(Refusal),
    /// Number 17: fewer than 2 or more than 9 submissions.
    LengthCount,
    /// Number 18: the lengths do not add up to the buffer. `district` sees to it that they do, so
    /// that only `district_into` can give it.
    LengthSum,
}

impl DistrictRefused {
    /// The refusal with this number, if a run can be refused with it.
    pub fn of(number: u32) -> Option<DistrictRefused> {
        match number {
            sys::LENGTH_COUNT => Some(DistrictRefused::LengthCount),
            sys::LENGTH_SUM => Some(DistrictRefused::LengthSum),
            _ => {
                let refusal = Refusal::of(u8::try_from(number).ok()?)?;
                (refusal <= Refusal::DuplicateKey).then_some(DistrictRefused::Roster(refusal))
            }
        }
    }

    pub fn number(self) -> u32 {
        match self {
            DistrictRefused::Roster(refusal) => refusal.number().into(),
            DistrictRefused::LengthCount => sys::LENGTH_COUNT,
            DistrictRefused::LengthSum => sys::LENGTH_SUM,
        }
    }

    /// Document 01's word, or ours for 17 and 18.
    pub fn word(self) -> &'static str {
        Number::of(self.number()).expect("a row for each refusal").word
    }
}

impl fmt::Display for DistrictRefused {
    fn fmt(&self, to: &mut fmt::Formatter) -> fmt::Result {
        let place = match self {
            DistrictRefused::Roster(_) => "the roster",
            _ => "the lengths",
        };
        write!(to, "{} in {place}", self.word())
    }
}

impl std::error::Error for DistrictRefused {}

/// A district's run: judges each submission by itself, and audits every two of those that are
/// accepted. The answer is what they show, or why the whole run is refused.
///
/// The submissions are copied into one buffer. Of one that is longer than 2,097,152 bytes only the
/// first 2,097,153 are: it is refused for its size whatever it holds, `Refusal::Size`, also where
/// its length is more than a u32 can say. More than nine submissions are refused without a copy of
/// all of them. So no list of slices makes this panic, or gives `DistrictRefused::LengthSum`.
///
/// ```
/// # let read = |file: &str| {
/// #     let samples = concat!(env!("CARGO_MANIFEST_DIR"), "/../samples/one_leader/");
/// #     std::fs::read(samples.to_string() + file).expect("a sample")
/// # };
/// let (roster, first, second) = (read("roster"), read("first"), read("second"));
/// let found = hirelog::district(&roster, &[&first, &first[1..], &second])?;
/// assert_eq!(found.refusals, [None, Some(hirelog::Refusal::Layout), None]);
/// assert_eq!(found.fork, Some((1, 3)));
/// assert_eq!(found.named, [1]);
/// # Ok::<(), hirelog::DistrictRefused>(())
/// ```
pub fn district(roster: &[u8], submissions: &[&[u8]]) -> Result<District, DistrictRefused> {
    // Ten are as many too many as any more, and a byte too long is as long as any more.
    let handed_on: Vec<&[u8]> = submissions
        .iter()
        .take(DISTRICT_MAX + 1)
        .map(|bytes| &bytes[..bytes.len().min(SUBMISSION_MAX + 1)])
        .collect();
    let lengths: Vec<u32> = handed_on.iter().map(|bytes| bytes.len() as u32).collect();
    let mut report = [0; DISTRICT_REPORT_MAX];
    let number = district_into(roster, &handed_on.concat(), &lengths, &mut report);
    if number != sys::OK {
        return Err(DistrictRefused::of(number).expect("a number of a run"));
    }
    Ok(read_district_report(&report, lengths.len()).expect("the report of a run"))
}

/// The run as C has it: the submissions end to end in the buffer, with their lengths. With number 0
/// the first bytes of `report` are written, 4 more than there are lengths. With any other nothing is
/// written.
pub fn district_into(roster: &[u8], buffer: &[u8], lengths: &[u32], report: &mut [u8]) -> u32 {
    // SAFETY: each pointer is a slice's, with the slice's length, and so aligned; the report is lent
    // to nobody else.
    unsafe {
        sys::hirelog_district(
            roster.as_ptr(),
            roster.len(),
            buffer.as_ptr(),
            buffer.len(),
            lengths.as_ptr(),
            lengths.len(),
            report.as_mut_ptr(),
            report.len(),
        )
    }
}

/// Takes a report apart that the library has written for so many submissions, as `district` does;
/// nothing if no run of so many leaves these bytes.
pub fn read_district_report(bytes: &[u8], count: usize) -> Option<District> {
    let whole = count.checked_add(AFTER_NUMBERS)?;
    let (numbers, after) = bytes.get(..whole)?.split_at(count);
    let mut refusals = Vec::new();
    for &number in numbers {
        let refusal = match number {
            0 => None,
            _ => Some(Refusal::of(number).filter(|&refusal| refusal >= Refusal::Size)?),
        };
        refusals.push(refusal);
    }
    let named = replicas_of(u16::from_be_bytes([after[0], after[1]]));
    if named.last().is_some_and(|&replica| replica > REPLICAS) {
        return None;
    }
    let fork = match (usize::from(after[2]), usize::from(after[3])) {
        (0, 0) => None,
        (lower, higher) if 0 < lower && lower < higher && higher <= count => Some((lower, higher)),
        _ => return None,
    };
    Some(District { refusals, named, fork })
}

#[cfg(test)]
mod tests {
    use super::*;

    /// Each field of a report has its bytes, and those after it are not looked at.
    #[test]
    fn fields() {
        let nothing = District { refusals: vec![None; 2], named: vec![], fork: None };
        assert_eq!(read_district_report(&[0; 6], 2), Some(nothing));
        let bytes = [0, 5, 0, 15, 1, 3, 1, 3, 77];
        let found = read_district_report(&bytes, 4).expect("a report");
        assert_eq!(found.refusals, [None, Some(Refusal::Size), None, Some(Refusal::Signature)]);
        assert_eq!(found.named, [1, 2, 9]);
        assert_eq!(found.fork, Some((1, 3)));
        let nine = [&[0; 9][..], &[1, 255, 8, 9]].concat();
        let found = read_district_report(&nine, 9).expect("a report");
        assert_eq!((found.named, found.fork), ((1..=9).collect(), Some((8, 9))));
    }

    /// Bytes that no run leaves: too few, a number that is no submission's, a replica that no roster
    /// has, or a pair that is none.
    #[test]
    fn no_reports() {
        assert_eq!(read_district_report(&[0; 5], 2), None);
        assert_eq!(read_district_report(&[0; 13], usize::MAX), None);
        for number in [1, 2, 3, 4, 16, 17, 18, 255] {
            assert_eq!(read_district_report(&[0, number, 0, 0, 0, 0], 2), None, "{number}");
        }
        for bit in 1..7 {
            assert_eq!(read_district_report(&[0, 0, 1 << bit, 0, 0, 0], 2), None, "{bit}");
        }
        for pair in [[0, 1], [1, 0], [1, 1], [2, 1], [1, 3]] {
            assert_eq!(read_district_report(&[&[0; 4][..], &pair].concat(), 2), None, "{pair:?}");
        }
    }

    /// The numbers that a run is refused with, and their words.
    #[test]
    fn refusals() {
        for number in 0..300 {
            let refused = DistrictRefused::of(number).map(DistrictRefused::number);
            let expected = [2, 3, 4, 17, 18].contains(&number).then_some(number);
            assert_eq!(refused, expected);
        }
        let told = [2, 17, 18].map(|number| DistrictRefused::of(number).expect("one").to_string());
        let words = ["roster size in the roster", "length count in the lengths"];
        assert_eq!(told[..2], words);
        assert_eq!(told[2], "length sum in the lengths");
    }
}
