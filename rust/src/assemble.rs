//! Assembling a submission of a log and a bag of items (document 02, W3).

use crate::numbers::Number;
use crate::{sys, Refusal};
use std::fmt;

/// Bytes of the longest submission that is assembled: a buffer of so many always does.
pub const ASSEMBLED_MAX: usize = 1_404_446;

/// Why nothing is assembled.
#[derive(Clone, Copy, Debug, PartialEq, Eq)]
pub enum AssembleRefused {
    /// Numbers 2 to 4, as an audit has them.
    Roster(Refusal),
    /// Number 8: the log ends inside a record, or has more than 4,096 records or 64 terms. Number
    /// 11: the term of one of its records is 0, or below the one before.
    Log(Refusal),
    /// Number 19: the items end inside an item, or the kind of one is not 1, 2 or 3.
    Item,
    /// Number 20: the items do not show who led some term of the log.
    NoLeader,
    /// Number 21: the submission is longer than the output. `assemble` lends one that is long enough,
    /// so that only `assemble_into` can give it.
    ShortOutput,
}

impl AssembleRefused {
    /// The refusal with this number, if assembling can be refused with it.
    pub fn of(number: u32) -> Option<AssembleRefused> {
        match number {
            sys::ITEM => Some(AssembleRefused::Item),
            sys::NO_LEADER => Some(AssembleRefused::NoLeader),
            sys::SHORT_OUTPUT => Some(AssembleRefused::ShortOutput),
            _ => match Refusal::of(u8::try_from(number).ok()?)? {
                log @ (Refusal::Counts | Refusal::TermOrder) => Some(AssembleRefused::Log(log)),
                roster if roster <= Refusal::DuplicateKey => Some(AssembleRefused::Roster(roster)),
                _ => None,
            },
        }
    }

    pub fn number(self) -> u32 {
        match self {
            AssembleRefused::Roster(refusal) | AssembleRefused::Log(refusal) => {
                refusal.number().into()
            }
            AssembleRefused::Item => sys::ITEM,
            AssembleRefused::NoLeader => sys::NO_LEADER,
            AssembleRefused::ShortOutput => sys::SHORT_OUTPUT,
        }
    }

    /// Document 01's word, or ours for 19 to 21.
    pub fn word(self) -> &'static str {
        Number::of(self.number()).expect("a row for each refusal").word
    }
}

impl fmt::Display for AssembleRefused {
    fn fmt(&self, to: &mut fmt::Formatter) -> fmt::Result {
        match self {
            AssembleRefused::Roster(_) => write!(to, "{} in the roster", self.word()),
            AssembleRefused::Log(_) => write!(to, "{} in the log", self.word()),
            AssembleRefused::Item => write!(to, "an item that is cut short or of no kind"),
            AssembleRefused::NoLeader => write!(to, "no leader of some term in the items"),
            AssembleRefused::ShortOutput => write!(to, "an output shorter than the submission"),
        }
    }
}

impl std::error::Error for AssembleRefused {}

/// The submission of a log, with all good signatures for it that the items have; or why there is
/// none. The audit accepts it against the same roster, and its log is this one.
///
/// ```
/// # let read = |file: &str| {
/// #     let samples = concat!(env!("CARGO_MANIFEST_DIR"), "/../samples/one_leader/");
/// #     std::fs::read(samples.to_string() + file).expect("a sample")
/// # };
/// let (roster, first) = (read("roster"), read("first"));
/// let empty = hirelog::assemble(&roster, &[], &[])?;
/// assert_eq!(empty.len(), 44);
/// let record = &first[..36];
/// let alone = hirelog::assemble(&roster, record, &[]);
/// assert_eq!(alone, Err(hirelog::AssembleRefused::NoLeader));
/// # Ok::<(), hirelog::AssembleRefused>(())
/// ```
pub fn assemble(roster: &[u8], log: &[u8], items: &[u8]) -> Result<Vec<u8>, AssembleRefused> {
    let mut output = vec![0; ASSEMBLED_MAX];
    let written = assemble_into(roster, log, items, &mut output);
    if written.number != sys::OK {
        return Err(AssembleRefused::of(written.number).expect("a number of assembling"));
    }
    output.truncate(written.length);
    Ok(output)
}

/// Assembling as C has it: with number 0 the submission stands in the first bytes of `output`, as
/// many as the length says. With any other nothing is written.
pub fn assemble_into(roster: &[u8], log: &[u8], items: &[u8], output: &mut [u8]) -> sys::Written {
    // SAFETY: each pointer is a slice's, with the slice's length; the output is lent to nobody else.
    unsafe {
        sys::hirelog_assemble(
            roster.as_ptr(),
            roster.len(),
            log.as_ptr(),
            log.len(),
            items.as_ptr(),
            items.len(),
            output.as_mut_ptr(),
            output.len(),
        )
    }
}

#[cfg(test)]
mod tests {
    use super::*;
    use crate::{REPLICAS, SUBMISSION_MAX};

    // What is assembled is never refused for its size.
    const _: () = assert!(ASSEMBLED_MAX <= SUBMISSION_MAX);

    /// The longest has all that document 01 lets a submission have, with signatures of height 25.
    #[test]
    fn longest() {
        let signature = 1132 + 32 * 25;
        let (records, leaders) = (4096, 64);
        let certificate = 46 + 2 + REPLICAS * signature;
        let commit = 4 + 2 + REPLICAS * signature;
        let parts = 36 * records + leaders * (certificate + signature) + commit + 44;
        assert_eq!(ASSEMBLED_MAX, parts);
    }

    /// The numbers that assembling is refused with, and their words.
    #[test]
    fn refusals() {
        for number in 0..300 {
            let refused = AssembleRefused::of(number).map(AssembleRefused::number);
            let expected = [2, 3, 4, 8, 11, 19, 20, 21].contains(&number).then_some(number);
            assert_eq!(refused, expected);
        }
        for (number, told) in [
            (4, "twin key in the roster"),
            (8, "counts in the log"),
            (19, "an item that is cut short or of no kind"),
            (20, "no leader of some term in the items"),
            (21, "an output shorter than the submission"),
        ] {
            assert_eq!(AssembleRefused::of(number).expect("one").to_string(), told);
        }
    }
}
