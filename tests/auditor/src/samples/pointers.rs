//! Submissions on which tests/c/pointer_count.c counts how often records are hashed (document 02,
//! W2): accepted ones of several sizes, with commits at several places, and refused ones, by each
//! number, which have records too.

use crate::build::Draft;
use crate::cluster::{Cluster, Keys};
use crate::depot::cases::refused::refused;
use crate::roster::mask_of;
use crate::sha256::sha256;
use crate::signer::Signer;
use crate::statement::Record;
use crate::submission::{CommitCertificate, MOST_BYTES, TRAILER_SIZE};
use std::collections::BTreeSet;
use std::rc::Rc;

/// The records and the terms of the logs that are accepted.
const SIZES: [(u32, u32); 5] = [(1, 1), (2, 1), (2, 2), (4096, 1), (4096, 64)];

/// Those of the log that is refused, and where it is committed.
const REFUSED_SIZE: (u32, u32) = (40, 4);
const REFUSED_COMMIT: u32 = 20;

/// As many leaves as replica 1, which signs the most, needs for all of them: 45 votes, 28 stamps
/// and 12 receipts.
const LEAVES: u32 = 85;

/// Three replicas.
pub fn cluster() -> Rc<Cluster> {
    Keys::new("pointers").cluster_with(3, LEAVES)
}

/// The submissions, each with its name and number.
pub fn submissions(cluster: &Rc<Cluster>) -> Vec<(String, u8, Vec<u8>)> {
    let signer = Signer::new(cluster);
    let mut made = Vec::new();
    for size in SIZES {
        let (records, terms) = size;
        // No commit, one at the start, in the middle (with 64 terms not at the end of one) and at the end.
        for commit in BTreeSet::from([0, 1, records / 2 + 1, records]) {
            let place = if commit == 0 { "no_commit".into() } else { format!("commit_{commit}") };
            let name = format!("records_{records}_terms_{terms}_{place}");
            made.push((name, 0, submission(&signer, size, commit).bytes()));
        }
    }
    let accepted = submission(&signer, REFUSED_SIZE, REFUSED_COMMIT);
    made.push(("refused_5".into(), 5, too_long(&accepted)));
    for number in 6..=12 {
        made.push((format!("refused_{number}"), number, refused(cluster, &accepted, number)));
    }
    for (number, what, change) in CHANGES {
        let mut draft = accepted.clone();
        change(&mut draft);
        made.push((format!("refused_{number}_{what}"), number, draft.bytes()));
    }
    made
}

/// The changes that get numbers 13 to 15, early and late in their checks.
const CHANGES: [(u8, &str, fn(&mut Draft)); 10] = [
    (13, "first_leader", |draft| draft.leaders[0].vote.candidate = 0),
    (13, "last_leader", |draft| last(&mut draft.leaders).vote.last_pointer[31] ^= 1),
    (14, "index_0", |draft| commit(draft).index = 0),
    (14, "index_41", |draft| commit(draft).index = REFUSED_SIZE.0 + 1),
    (15, "first_vote", |draft| draft.leaders[0].signatures[0][100] ^= 1),
    (15, "last_vote", |draft| last(&mut last(&mut draft.leaders).signatures)[100] ^= 1),
    (15, "first_stamp", |draft| draft.stamps[0][100] ^= 1),
    (15, "last_stamp", |draft| last(&mut draft.stamps)[100] ^= 1),
    (15, "first_receipt", |draft| commit(draft).signatures[0][100] ^= 1),
    (15, "last_receipt", |draft| last(&mut commit(draft).signatures)[100] ^= 1),
];

fn last<T>(list: &mut [T]) -> &mut T {
    list.last_mut().expect("one at least")
}

fn commit(draft: &mut Draft) -> &mut CommitCertificate {
    draft.commit.as_mut().expect("a commit certificate")
}

/// A log of so many records and terms, other than that of any other size, committed up to an index
/// or not at all for 0. Each replica leads in turn, elected by itself and the next.
fn submission(signer: &Signer, size: (u32, u32), commit: u32) -> Draft {
    let next = |k: u16| k % 3 + 1;
    let leaders: Vec<(u16, u16)> = (0..size.1 as u16)
        .map(|i| i % 3 + 1)
        .map(|candidate| (candidate, mask_of(&[candidate, next(candidate)])))
        .collect();
    signer.submission(&log(size), &leaders, (commit > 0).then_some((commit, signer.first_quorum())))
}

fn log((records, terms): (u32, u32)) -> Vec<Record> {
    let payload = |i: u32| sha256(&[&[records, terms, i].map(u32::to_be_bytes).concat()]);
    (0..records).map(|i| Record { term: 1 + i * terms / records, payload: payload(i) }).collect()
}

/// The submission with as many bytes before its trailer as make it one byte too long.
fn too_long(accepted: &Draft) -> Vec<u8> {
    let mut bytes = accepted.bytes();
    let trailer = bytes.split_off(bytes.len() - TRAILER_SIZE);
    bytes.resize(MOST_BYTES + 1 - TRAILER_SIZE, 0);
    [bytes, trailer].concat()
}

#[cfg(test)]
mod tests {
    use super::*;
    use crate::build::ends;

    /// The logs have as many records and terms as their sizes say, and no two begin alike.
    #[test]
    fn logs() {
        let sizes = [&SIZES[..], &[REFUSED_SIZE]].concat();
        for (records, terms) in &sizes {
            let log = log((*records, *terms));
            assert_eq!((log.len(), ends(&log).len()), (*records as usize, *terms as usize));
        }
        let beginnings: BTreeSet<[u8; 32]> =
            sizes.iter().map(|size| log(*size)[0].payload).collect();
        assert_eq!(beginnings.len(), sizes.len());
    }
}
