//! Document 01, A submission: its parts, read from its trailer; numbers 5 to 15, one after the
//! other, each over the whole submission before the next.

mod layout;

use crate::bytes::{array_at, u32_at};
use crate::numbers;
use crate::roster::{replicas_of, Name, Roster};
use crate::statement::{self, pointers, position, Record, Vote};
use crate::verdicts::Verdicts;

/// Bytes of the trailer, of a record, and of a certificate before its signatures.
pub const TRAILER_SIZE: usize = 44;
pub const RECORD_SIZE: usize = 36;
pub const LEADER_HEAD_SIZE: usize = 48;
pub const COMMIT_HEAD_SIZE: usize = 6;

/// The most bytes, records and terms.
pub const MOST_BYTES: usize = 2_097_152;
pub const MOST_RECORDS: u32 = 4096;
pub const MOST_TERMS: u32 = 64;

/// A vote's fields, the signers, and one signature per signer in rising order.
#[derive(Clone, Debug)]
pub struct LeaderCertificate {
    pub vote: Vote,
    pub signers: u16,
    pub signatures: Vec<Vec<u8>>,
}

/// An index, the signers, and one signature per signer in rising order.
#[derive(Clone, Debug)]
pub struct CommitCertificate {
    pub index: u32,
    pub signers: u16,
    pub signatures: Vec<Vec<u8>>,
}

/// The four parts before the trailer, and what the check of their signatures answers.
#[derive(Clone, Debug)]
pub struct Submission {
    pub records: Vec<Record>,
    pub leaders: Vec<LeaderCertificate>,
    pub stamps: Vec<Vec<u8>>,
    pub commit: Option<CommitCertificate>,
    /// One for each signature, in their order; none as long as they are not checked.
    pub uses: Vec<Use>,
}

/// A leaf that a replica has used (document 02, W5): its number, and the message that it signed.
#[derive(Clone, Debug, PartialEq)]
pub struct Use {
    pub replica: u16,
    pub leaf: u32,
    pub message: Vec<u8>,
}

/// The trailer's fields.
#[derive(Clone, Debug)]
pub struct Trailer {
    pub name: [u8; 16],
    pub records: u32,
    pub leaders: u32,
    pub distances: [u32; 4],
    pub version: u32,
}

/// A signature, its replica, and the statement that it stands on.
#[derive(Debug)]
pub struct Slot<'a> {
    pub replica: u16,
    pub statement: Vec<u8>,
    pub signature: &'a [u8],
}

/// A run of records of one term: the indexes of its first and its last.
#[derive(Clone, Copy, Debug, PartialEq)]
pub struct Run {
    pub term: u32,
    pub first: usize,
    pub last: usize,
}

impl Trailer {
    /// The trailer is the last 44 bytes.
    fn read(bytes: &[u8]) -> Trailer {
        let last = &bytes[bytes.len() - TRAILER_SIZE..];
        Trailer {
            name: array_at(last, 0),
            records: u32_at(last, 16),
            leaders: u32_at(last, 20),
            distances: [24, 28, 32, 36].map(|at| u32_at(last, at)),
            version: u32_at(last, 40),
        }
    }
}

impl Submission {
    /// The submission, or the lowest of the numbers 5 to 15 that applies.
    pub fn read(roster: &Roster, bytes: &[u8], verdicts: &mut Verdicts) -> Result<Submission, u8> {
        if bytes.len() < TRAILER_SIZE || bytes.len() > MOST_BYTES {
            return Err(numbers::SIZE);
        }
        let trailer = Trailer::read(bytes);
        if trailer.version != 1 {
            return Err(numbers::VERSION);
        }
        if trailer.name != roster.name {
            return Err(numbers::CLUSTER);
        }
        if trailer.records > MOST_RECORDS || trailer.leaders > MOST_TERMS {
            return Err(numbers::COUNTS);
        }
        let parts =
            layout::parts(bytes, &trailer, roster.signature_size()).ok_or(numbers::LAYOUT)?;
        let uses = parts.validate(roster, verdicts)?;
        Ok(Submission { uses, ..parts })
    }

    /// The leaves that its signatures use, or the lowest of the numbers 10 to 15 that applies.
    fn validate(&self, roster: &Roster, verdicts: &mut Verdicts) -> Result<Vec<Use>, u8> {
        if !self.signers_are_right(roster) {
            return Err(numbers::SIGNERS);
        }
        if !terms_are_in_order(&self.records) {
            return Err(numbers::TERM_ORDER);
        }
        if self.leaders.len() != self.runs().len() {
            return Err(numbers::TERM_COUNT);
        }
        if !self.leaders_are_right(roster) {
            return Err(numbers::LEADER);
        }
        if self
            .commit
            .iter()
            .any(|commit| commit.index == 0 || commit.index as usize > self.records.len())
        {
            return Err(numbers::COMMIT_INDEX);
        }
        self.uses_of_good(roster, verdicts).ok_or(numbers::SIGNATURE)
    }

    /// Check 10: every certificate has at least q signers, none above replica n.
    fn signers_are_right(&self, roster: &Roster) -> bool {
        let leaders = self.leaders.iter().map(|leader| leader.signers);
        let commit = self.commit.iter().map(|commit| commit.signers);
        leaders.chain(commit).all(|mask| {
            let signers = replicas_of(mask);
            signers.len() >= roster.quorum() && signers.iter().all(|k| *k as usize <= roster.n())
        })
    }

    /// The log's runs of one term each, in log order.
    pub fn runs(&self) -> Vec<Run> {
        runs(&self.records)
    }

    /// Check 13: every leader certificate has the fields that its term's first record asks for.
    fn leaders_are_right(&self, roster: &Roster) -> bool {
        let pointers = pointers(&self.records);
        self.leaders.iter().zip(self.runs()).all(|(leader, run)| {
            let before = position(&self.records, &pointers, run.first - 1);
            leader.vote == Vote::on(&before, leader.vote.candidate, run.term)
                && (1..=roster.n()).contains(&(leader.vote.candidate as usize))
                && replicas_of(leader.signers).contains(&leader.vote.candidate)
        })
    }

    /// Check 15: votes, stamps and receipts; if all are good, the leaf and the message of each.
    fn uses_of_good(&self, roster: &Roster, verdicts: &mut Verdicts) -> Option<Vec<Use>> {
        let checked = self.slots(&roster.name).into_iter().map(|slot| {
            let Slot { replica, statement: message, signature } = slot;
            let leaf = verdicts.leaf(roster.key(replica), &message, signature)?;
            Some(Use { replica, leaf, message })
        });
        checked.collect()
    }

    /// Every signature of a submission that meets checks 10 to 14, with what it stands on.
    pub fn slots(&self, name: &Name) -> Vec<Slot<'_>> {
        let pointers = pointers(&self.records);
        let mut slots = Vec::new();
        for leader in &self.leaders {
            let statement = statement::vote(name, &leader.vote);
            slots.extend(certified(leader.signers, &statement, &leader.signatures));
        }
        for ((leader, run), signature) in self.leaders.iter().zip(self.runs()).zip(&self.stamps) {
            let statement = statement::stamp(name, &position(&self.records, &pointers, run.last));
            slots.push(Slot { replica: leader.vote.candidate, statement, signature });
        }
        if let Some(commit) = &self.commit {
            let at = position(&self.records, &pointers, commit.index as usize);
            let statement = statement::receipt(name, &at);
            slots.extend(certified(commit.signers, &statement, &commit.signatures));
        }
        slots
    }
}

/// Check 11: no term is 0 or below the one before.
pub fn terms_are_in_order(records: &[Record]) -> bool {
    let mut before = 0;
    for record in records {
        if record.term == 0 || record.term < before {
            return false;
        }
        before = record.term;
    }
    true
}

/// The runs of one term each of a log, in its order.
pub fn runs(records: &[Record]) -> Vec<Run> {
    let mut runs: Vec<Run> = Vec::new();
    for (i, record) in records.iter().enumerate() {
        match runs.last_mut() {
            Some(run) if run.term == record.term => run.last = i + 1,
            _ => runs.push(Run { term: record.term, first: i + 1, last: i + 1 }),
        }
    }
    runs
}

/// One signature per signer, in rising order.
fn certified<'a>(signers: u16, statement: &[u8], signatures: &'a [Vec<u8>]) -> Vec<Slot<'a>> {
    let slot = |(replica, signature): (u16, &'a Vec<u8>)| Slot {
        replica,
        statement: statement.to_vec(),
        signature,
    };
    replicas_of(signers).into_iter().zip(signatures).map(slot).collect()
}

#[cfg(test)]
mod tests;
