//! Document 02, W3, Assemble a submission: field staff hold a log and a bag of items, and want a
//! submission. What is written is not looked at again here: the tests read it by this package's own
//! judgement of one submission.
//!
//! - `items`: the bag's items and their bytes;
//! - `cases`: the calls that tests/compare compares;
//! - `samples`: the files that make_cases writes.

pub mod cases;
pub mod items;
pub mod samples;

use crate::build::Draft;
use crate::numbers::{ACCEPTED, COUNTS, NO_LEADER, SHORT_OUTPUT, TERM_ORDER};
use crate::roster::{mask_of, replicas_of, signature_size, Roster, MOST};
use crate::statement::{pointers, position, Record, Statement, Vote};
use crate::submission::{
    runs, terms_are_in_order, CommitCertificate, LeaderCertificate, Submission, COMMIT_HEAD_SIZE,
    LEADER_HEAD_SIZE, MOST_RECORDS, MOST_TERMS, RECORD_SIZE, TRAILER_SIZE,
};
use crate::verdicts::Verdicts;
use items::Item;
use std::collections::{BTreeMap, BTreeSet, HashMap};

/// The bytes of the longest submission: most records and terms, and everything signed by nine with
/// trees of height 25.
pub const LONGEST: usize = {
    let (terms, signature) = (MOST_TERMS as usize, signature_size(25));
    let leaders = terms * (LEADER_HEAD_SIZE + MOST * signature);
    let commit = COMMIT_HEAD_SIZE + MOST * signature;
    RECORD_SIZE * MOST_RECORDS as usize + leaders + terms * signature + commit + TRAILER_SIZE
};

/// The call: the number, and how many bytes of the output are written, 0 when it is refused.
pub fn assemble(
    roster: &[u8],
    log: &[u8],
    bag: &[u8],
    output: &mut [u8],
    verdicts: &mut Verdicts,
) -> (u32, usize) {
    match assembled(roster, log, bag, output.len(), verdicts) {
        Ok(submission) => {
            output[..submission.len()].copy_from_slice(&submission);
            (ACCEPTED.into(), submission.len())
        }
        Err(number) => (number.into(), 0),
    }
}

/// The submission for an output of so many bytes; or the refusal, the first that applies of 2, 3, 4,
/// 8, 11, 19, 20 and 21.
pub fn assembled(
    roster: &[u8],
    log: &[u8],
    bag: &[u8],
    output: usize,
    verdicts: &mut Verdicts,
) -> Result<Vec<u8>, u8> {
    let roster = Roster::read(roster)?;
    let records = read_log(log)?;
    let signed = Signed::new(&roster, items::read(bag, roster.signature_size())?);
    let submission = submission(&signed, &records, verdicts).ok_or(NO_LEADER)?;
    if output < submission.len() {
        return Err(SHORT_OUTPUT);
    }
    Ok(submission)
}

/// The lines that the command prints for what is written against this roster, or for a refusal; after
/// number 20 it prints one more, the term without a leader.
pub fn lines(roster: &[u8], written: &Result<Vec<u8>, u8>, verdicts: &mut Verdicts) -> String {
    let written = match written {
        Ok(written) => written,
        Err(number) => return format!("refusal {number}\n"),
    };
    let roster = Roster::read(roster).expect("a roster that is not refused");
    let read = Submission::read(&roster, written, verdicts);
    let Submission { records, leaders, commit, .. } = read.expect("it is accepted");
    let signers = |mask| replicas_of(mask).iter().map(|k| format!(" {k}")).collect::<String>();
    let mut lines = format!("refusal {ACCEPTED}\nlength {}\n", written.len());
    lines += &format!("records {}\n", records.len());
    for LeaderCertificate { vote, signers: mask, .. } in &leaders {
        let (term, candidate) = (vote.term, vote.candidate);
        lines += &format!("term {term} board {candidate} signers{}\n", signers(*mask));
    }
    lines += &match commit {
        Some(commit) => format!("commit {} signers{}\n", commit.index, signers(commit.signers)),
        None => "commit 0\n".into(),
    };
    lines
}

/// The log's records, or number 8 or 11.
fn read_log(log: &[u8]) -> Result<Vec<Record>, u8> {
    let records: Vec<Record> = log.chunks_exact(RECORD_SIZE).map(Record::read).collect();
    let terms: BTreeSet<u32> = records.iter().map(|record| record.term).collect();
    if log.len() % RECORD_SIZE != 0
        || records.len() > MOST_RECORDS as usize
        || terms.len() > MOST_TERMS as usize
    {
        return Err(COUNTS);
    }
    if !terms_are_in_order(&records) {
        return Err(TERM_ORDER);
    }
    Ok(records)
}

/// The submission of this log, if each of its terms has a leader.
fn submission(signed: &Signed, records: &[Record], verdicts: &mut Verdicts) -> Option<Vec<u8>> {
    let pointers = pointers(records);
    let mut draft = Draft::unsigned(signed.roster.name, records, &[], None);
    for run in runs(records) {
        let before = position(records, &pointers, run.first - 1);
        let last = Statement::Stamp(position(records, &pointers, run.last));
        let (leader, stamp) = (1..=signed.roster.n() as u16).find_map(|candidate| {
            let vote = Vote::on(&before, candidate, run.term);
            signed.leader(vote, &last, verdicts)
        })?;
        draft.leaders.push(leader);
        draft.stamps.push(stamp);
    }
    draft.commit = (1..=records.len()).rev().find_map(|index| {
        let receipt = Statement::Receipt(position(records, &pointers, index));
        let (signers, signatures) = signed.quorum(&receipt, verdicts)?;
        Some(CommitCertificate { index: index as u32, signers, signatures })
    });
    draft.lay_out();
    Some(draft.bytes())
}

/// The bag against a roster: who has signed what.
struct Signed<'a> {
    roster: &'a Roster,
    /// The items of each statement, in the order in which the bag has them.
    items: HashMap<Vec<u8>, Vec<Item>>,
}

impl<'a> Signed<'a> {
    fn new(roster: &'a Roster, bag: Vec<Item>) -> Self {
        let mut items: HashMap<Vec<u8>, Vec<Item>> = HashMap::new();
        for item in bag {
            items.entry(item.statement.clone()).or_default().push(item);
        }
        Signed { roster, items }
    }

    /// Each replica's signature of the statement, with the roster's cluster name: of those that are
    /// good the first.
    fn good(&self, statement: &Statement, verdicts: &mut Verdicts) -> BTreeMap<u16, Vec<u8>> {
        let statement = statement.bytes(&self.roster.name);
        let mut good = BTreeMap::new();
        for Item { replica, signature, .. } in self.items.get(&statement).into_iter().flatten() {
            let has_key = (1..=self.roster.n()).contains(&usize::from(*replica));
            if has_key
                && !good.contains_key(replica)
                && verdicts.good(self.roster.key(*replica), &statement, signature)
            {
                good.insert(*replica, signature.clone());
            }
        }
        good
    }

    /// All good signers of the statement, with their signatures in rising order, if they are a
    /// quorum.
    fn quorum(
        &self,
        statement: &Statement,
        verdicts: &mut Verdicts,
    ) -> Option<(u16, Vec<Vec<u8>>)> {
        let good = self.good(statement, verdicts);
        let signers: Vec<u16> = good.keys().copied().collect();
        (signers.len() >= self.roster.quorum())
            .then(|| (mask_of(&signers), good.into_values().collect()))
    }

    /// The certificate and the stamp of the vote's candidate, if a quorum has voted so, the candidate
    /// with it, and the candidate has stamped the term's last record.
    fn leader(
        &self,
        vote: Vote,
        last: &Statement,
        verdicts: &mut Verdicts,
    ) -> Option<(LeaderCertificate, Vec<u8>)> {
        let (signers, signatures) = self.quorum(&Statement::Vote(vote), verdicts)?;
        if signers & mask_of(&[vote.candidate]) == 0 {
            return None;
        }
        let stamp = self.good(last, verdicts).remove(&vote.candidate)?;
        Some((LeaderCertificate { vote, signers, signatures }, stamp))
    }
}

#[cfg(test)]
mod tests;
