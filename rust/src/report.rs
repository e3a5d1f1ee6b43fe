//! The audit's report, taken apart (document 01, What stops an audit, and The report).

use crate::numbers::Number;
use std::fmt;

/// Bytes of a report.
pub const REPORT_SIZE: usize = 53;

/// The most replicas (document 01's boards).
pub const REPLICAS: usize = 9;

/// Why an audit is refused; the value is document 01's number.
#[derive(Clone, Copy, Debug, PartialEq, Eq, PartialOrd, Ord)]
pub enum Refusal {
    RosterSize = 2,
    KeyType = 3,
    /// Document 01's twin key: two replicas with one key.
    DuplicateKey = 4,
    Size = 5,
    Version = 6,
    Cluster = 7,
    Counts = 8,
    Layout = 9,
    Signers = 10,
    TermOrder = 11,
    TermCount = 12,
    Leader = 13,
    CommitIndex = 14,
    Signature = 15,
}

/// All refusals, from number 2 on.
const REFUSALS: [Refusal; 14] = [
    Refusal::RosterSize,
    Refusal::KeyType,
    Refusal::DuplicateKey,
    Refusal::Size,
    Refusal::Version,
    Refusal::Cluster,
    Refusal::Counts,
    Refusal::Layout,
    Refusal::Signers,
    Refusal::TermOrder,
    Refusal::TermCount,
    Refusal::Leader,
    Refusal::CommitIndex,
    Refusal::Signature,
];

impl Refusal {
    pub fn number(self) -> u8 {
        self as u8
    }

    /// The refusal with this number, if there is one.
    pub fn of(number: u8) -> Option<Refusal> {
        REFUSALS.into_iter().find(|refusal| refusal.number() == number)
    }

    /// Document 01's word, as its table has it: output quotes the paper.
    pub fn word(self) -> &'static str {
        Number::of(self.number().into()).expect("a row for each refusal").word
    }
}

/// The place of a refusal; the value is the report's byte 1 (document 01's where).
#[derive(Clone, Copy, Debug, PartialEq, Eq)]
pub enum Place {
    Roster = 0,
    First = 1,
    Second = 2,
}

/// A refusal, and its place.
#[derive(Clone, Copy, Debug, PartialEq, Eq)]
pub struct Refused {
    pub refusal: Refusal,
    pub place: Place,
}

impl fmt::Display for Refused {
    fn fmt(&self, to: &mut fmt::Formatter) -> fmt::Result {
        let place = match self.place {
            Place::Roster => "the roster",
            Place::First => "the first submission",
            Place::Second => "the second submission",
        };
        write!(to, "{} in {place}", self.refusal.word())
    }
}

impl std::error::Error for Refused {}

/// Of the rules that a replica broke the first in the order 2, 1, 3, 4, 5 (`rules::ORDER`), and the
/// lowest term for it; for rule 5 the lowest leaf number. It may have broken later ones too.
#[derive(Clone, Copy, Debug, PartialEq, Eq)]
pub struct Charge {
    pub rule: u8,
    /// Of `sys::RULE_ONE_LEAF` no term, but the lowest leaf number that was used for two messages.
    pub term: u32,
}

/// What two accepted submissions show.
#[derive(Clone, Debug, PartialEq, Eq)]
pub struct Findings {
    /// The lowest index, committed in both, whose records differ.
    pub fork: Option<u32>,
    /// Replica k's charge is the k-th.
    pub charges: [Option<Charge>; REPLICAS],
}

impl Findings {
    /// The replicas that are named, from 1, each with its charge.
    pub fn named(&self) -> impl Iterator<Item = (usize, Charge)> + '_ {
        let numbered = (1..).zip(&self.charges);
        numbered.filter_map(|(replica, charge)| charge.map(|charge| (replica, charge)))
    }
}

/// Takes a report apart that the library has written, as `audit` does; nothing if no report has
/// this number and place.
pub fn read_report(bytes: &[u8; REPORT_SIZE]) -> Option<Result<Findings, Refused>> {
    let place = match bytes[1] {
        0 => Place::Roster,
        1 => Place::First,
        2 => Place::Second,
        _ => return None,
    };
    if bytes[0] != 0 {
        return Refusal::of(bytes[0]).map(|refusal| Err(Refused { refusal, place }));
    }
    let fork = u32_at(bytes, 2);
    let named = u16::from_be_bytes([bytes[6], bytes[7]]);
    let charge = |k: usize| Charge { rule: bytes[8 + 5 * k], term: u32_at(bytes, 9 + 5 * k) };
    let charges = std::array::from_fn(|k| (named >> k & 1 == 1).then(|| charge(k)));
    Some(Ok(Findings { fork: (fork != 0).then_some(fork), charges }))
}

/// The replicas of a mask, rising: bit k - 1, counted from the lowest, is replica k.
pub(crate) fn replicas_of(mask: u16) -> Vec<usize> {
    (1..=16).filter(|replica| mask >> (replica - 1) & 1 == 1).collect()
}

pub(crate) fn u32_at(bytes: &[u8], at: usize) -> u32 {
    u32::from_be_bytes(bytes[at..at + 4].try_into().expect("four bytes"))
}

#[cfg(test)]
mod tests {
    use super::*;

    /// Each field of a report has its bytes.
    #[test]
    fn fields() {
        let mut bytes = [0; REPORT_SIZE];
        assert_eq!(read_report(&bytes), Some(Ok(Findings { fork: None, charges: [None; 9] })));
        bytes[2..8].copy_from_slice(&[1, 2, 3, 4, 1, 2]);
        bytes[13..18].copy_from_slice(&[3, 5, 6, 7, 8]);
        bytes[48..].copy_from_slice(&[4, 255, 255, 255, 255]);
        let found = read_report(&bytes).expect("a report").expect("accepted");
        assert_eq!(found.fork, Some(0x01020304));
        let two = Charge { rule: 3, term: 0x05060708 };
        let nine = Charge { rule: 4, term: u32::MAX };
        assert_eq!(found.named().collect::<Vec<_>>(), [(2, two), (9, nine)]);
    }

    /// Numbers 2 to 15 are refusals, each in the place that byte 1 names; others are no report's.
    #[test]
    fn refusals() {
        for number in 2..=15 {
            for (byte, place) in [(0, Place::Roster), (1, Place::First), (2, Place::Second)] {
                let mut bytes = [0; REPORT_SIZE];
                bytes[..2].copy_from_slice(&[number, byte]);
                let refused = read_report(&bytes).expect("a report").expect_err("refused");
                assert_eq!((refused.refusal.number(), refused.place), (number, place));
                assert!(!refused.refusal.word().is_empty());
            }
        }
        assert_eq!([0, 1, 16, 255].map(Refusal::of), [None; 4]);
        for (number, place) in [(1, 0), (16, 0), (255, 1), (0, 3), (5, 3)] {
            let mut bytes = [0; REPORT_SIZE];
            bytes[..2].copy_from_slice(&[number, place]);
            assert_eq!(read_report(&bytes), None);
        }
        let refused = Refused { refusal: Refusal::DuplicateKey, place: Place::Roster };
        assert_eq!(refused.to_string(), "twin key in the roster");
    }
}
