//! A submission taken apart into what it can be assembled of again: its log, and an item for each of
//! its signatures (document 02, W3).

use hirelog::{read_submission, sha256, RECORD_SIZE};

/// The log's records, and the items in the order of the submission: votes, stamps, receipts.
pub struct Apart {
    pub log: Vec<u8>,
    pub items: Vec<Vec<u8>>,
}

impl Apart {
    /// Of a submission that the audit accepts.
    pub fn of(roster: &[u8], submission: &[u8]) -> Apart {
        let contents = read_submission(submission).expect("a submission");
        let (log, mut rest) = submission.split_at(RECORD_SIZE * contents.records);
        let (pointers, size) = (pointers(log), signature_size(roster));
        let item = |replica: usize, kind: u8, fields: &[u8], signature: &[u8]| {
            [&(replica as u16).to_be_bytes()[..], &[kind], &roster[..16], fields, signature]
                .concat()
        };
        let position = |index: usize| {
            let term = &log[RECORD_SIZE * (index - 1)..][..4];
            [term, &(index as u32).to_be_bytes(), &pointers[index]].concat()
        };
        let mut take = |size: usize| {
            let (taken, after) = rest.split_at(size);
            rest = after;
            taken
        };
        let mut items = Vec::new();
        for leader in &contents.leaders {
            let vote = &take(48)[..46];
            items.extend(leader.signers.iter().map(|&k| item(k, 3, vote, take(size))));
        }
        for leader in &contents.leaders {
            let of_term = |record: &[u8]| record[..4] == leader.term.to_be_bytes();
            let last = log.chunks(RECORD_SIZE).rposition(of_term).expect("a record of the term");
            items.push(item(leader.candidate, 1, &position(last + 1), take(size)));
        }
        if let Some(commit) = &contents.commit {
            take(6);
            let receipt = position(commit.index as usize);
            items.extend(commit.signers.iter().map(|&k| item(k, 2, &receipt, take(size))));
        }
        Apart { log: log.to_vec(), items }
    }
}

/// Bytes of a signature under the roster's keys, by the tree type of the first.
pub fn signature_size(roster: &[u8]) -> usize {
    1132 + 160 * (usize::from(roster[18 + 3]) - 4)
}

/// Pointers 0 to H of a log.
fn pointers(log: &[u8]) -> Vec<[u8; 32]> {
    let mut pointers = vec![[0; 32]];
    for (index, record) in (1u32..).zip(log.chunks(RECORD_SIZE)) {
        let before = &pointers[pointers.len() - 1];
        let string = [&index.to_be_bytes(), record, before].concat();
        pointers.push(sha256(&string).expect("a short message"));
    }
    pointers
}
