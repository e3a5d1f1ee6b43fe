//! Sample files: the smallest submission for each number, pairs with the lines that `audit` prints
//! for them, and in `pointers` submissions whose hashes are counted. All of them follow from fixed
//! labels, so they are always the same.

pub mod pointers;

use crate::build::{log, Draft};
use crate::cases::accepted::{large, largest, LARGEST_LEAVES, LARGE_LEAVES};
use crate::cases::leaves::places::{self, Place};
use crate::cases::worked_examples::{one_leader, stale_leader};
use crate::cases::{empty, led, small, whole};
use crate::cluster::{Cluster, Keys};
use crate::numbers::ACCEPTED;
use crate::roster::{mask_of, Roster};
use crate::sha256::{sha256, Digest};
use crate::signer::Signer;
use crate::statement::{self, Record, POINTER_0};
use crate::submission::{CommitCertificate, Submission};
use crate::verdicts::Verdicts;
use std::rc::Rc;

/// A roster and two submissions.
pub struct Pair {
    pub folder: &'static str,
    pub roster: Vec<u8>,
    pub first: Vec<u8>,
    pub second: Vec<u8>,
}

/// The cluster of the small samples: three replicas, trees of height 5.
pub fn cluster() -> Rc<Cluster> {
    Keys::new("samples").cluster_with(3, 12)
}

/// The keys of the large ones, which have nine.
pub fn large_keys() -> Keys {
    Keys::new("large sample")
}

/// One submission for each number that a submission can get, with that number; and more that are
/// accepted, committed in part, not at all and up to the end.
pub fn submissions(cluster: &Rc<Cluster>) -> Vec<(String, u8, Vec<u8>)> {
    let mut samples = Vec::new();
    for number in [0].into_iter().chain(5..=15) {
        samples.push((format!("n{number:02}"), number, smallest(cluster, number)));
    }
    let led = |commit| led(&Signer::new(cluster), "abc", cluster.first_quorum(), commit);
    samples.push(("whole".into(), 0, whole(&Signer::new(cluster)).bytes()));
    samples.push(("uncommitted".into(), 0, led(0).bytes()));
    samples.push(("committed".into(), 0, led(3).bytes()));
    samples
}

/// The submission's number, and the pointers of the record at its commit certificate's index and of
/// its log's last record: pointer 0 for one that it does not have, and for both if it is refused.
pub fn judged(roster: &Roster, bytes: &[u8], verdicts: &mut Verdicts) -> (u8, [Digest; 2]) {
    match Submission::read(roster, bytes, verdicts) {
        Ok(submission) => {
            let pointers = statement::pointers(&submission.records);
            let committed = submission.commit.map_or(0, |commit| commit.index as usize);
            (ACCEPTED, [pointers[committed], pointers[submission.records.len()]])
        }
        Err(number) => (number, [POINTER_0; 2]),
    }
}

/// The smallest submission that gets the number; for 5, the longest of those that are too short.
fn smallest(cluster: &Rc<Cluster>, number: u8) -> Vec<u8> {
    let mut draft = empty(cluster);
    match number {
        0 => (),
        5 => return draft.bytes().split_off(1),
        6 => draft.trailer.version = 0,
        7 => draft.trailer.name[15] ^= 1,
        8 => draft.trailer.records = 4097,
        9 => draft.trailer.records = 1,
        10 => {
            set_commit(cluster, &mut draft, 0, 0);
        }
        11 => {
            draft.records.push(Record { term: 0, payload: [0; 32] });
            draft.lay_out();
        }
        12 => {
            draft.records = log(&[(1, "a")]);
            draft.lay_out();
        }
        13 => {
            draft = small(&Signer::new(cluster));
            draft.leaders[0].vote.candidate = 0;
        }
        14 => {
            let quorum = cluster.first_quorum();
            set_commit(cluster, &mut draft, 1, quorum);
        }
        15 => {
            draft = small(&Signer::new(cluster));
            draft.stamps[0][0] ^= 1;
        }
        _ => panic!("no submission gets number {number}: ask for 0 or 5 to 15"),
    }
    draft.bytes()
}

/// A commit certificate without good signatures.
fn set_commit(cluster: &Cluster, draft: &mut Draft, index: u32, signers: u16) {
    let signatures = cluster.no_signatures(signers);
    draft.commit = Some(CommitCertificate { index, signers, signatures });
    draft.lay_out();
}

fn pair(folder: &'static str, cluster: &Cluster, (first, second): (Draft, Draft)) -> Pair {
    Pair { folder, roster: cluster.roster(), first: first.bytes(), second: second.bytes() }
}

/// What stands in the folder samples: document 01's worked pairs, one each for document 02's W4, W6
/// and W5, and one that all but fills the buffers of the program.
pub fn samples(cluster: &Rc<Cluster>, keys: &Keys) -> Vec<Pair> {
    let nine = keys.cluster(9, 5);
    vec![
        pair("empty", cluster, (empty(cluster), empty(cluster))),
        pair("one_leader", cluster, one_leader(&Signer::new(cluster))),
        pair("stale_leader", cluster, stale_leader(&Signer::new(cluster))),
        pair("two_requests", cluster, two_requests(&Signer::new(cluster))),
        pair("votes_and_stamps", cluster, votes_and_stamps(&Signer::new(cluster))),
        pair("one_leaf", cluster, one_leaf(&Signer::new(cluster))),
        pair("large", &nine, filling(&Signer::new(&nine))),
    ]
}

/// More pairs, that are tested and measured: one with its submissions exchanged, and two too large
/// for the program.
pub fn more_pairs(cluster: &Rc<Cluster>, keys: &Keys) -> Vec<Pair> {
    let (first, second) = stale_leader(&Signer::new(cluster));
    let many = keys.cluster_with(9, LARGE_LEAVES);
    let tall = keys.cluster_from_0(9, 9, LARGEST_LEAVES);
    vec![
        pair("stale_leader_exchanged", cluster, (second, first)),
        pair("most_terms", &many, large(&Signer::new(&many))),
        pair("largest", &tall, (largest(&Signer::new(&tall)), empty(&tall))),
    ]
}

/// n = 3. Replicas 1 and 2 elect replica 1 in term 2 twice: on the record that replica 3 led in
/// term 1, and on an empty log. Each time they commit the record that follows. Replica 2 voted for
/// one candidate only, but for two requests; replica 1 asked for them, voted for both, and stamped
/// two logs, which comes first (document 02, W6). Replica 3 did no wrong.
fn two_requests(signer: &Signer) -> (Draft, Draft) {
    let first = log(&[(1, "a"), (2, "b")]);
    let first = signer.submission(&first, &[(3, 0b110), (1, 0b011)], Some((2, 0b011)));
    let second = signer.submission(&log(&[(2, "c")]), &[(1, 0b011)], Some((1, 0b011)));
    (first, second)
}

/// n = 3. Replica 1 votes in term 1 for replica 2 and for replica 3. In term 2 it is elected on the
/// record of the one and on that of the other, and stamps two logs, each of which it commits with
/// the leader before it. Its stamps come before its votes, though the votes of term 1 are in a lower
/// term (document 02, W6). Replicas 2 and 3 did no wrong.
fn votes_and_stamps(signer: &Signer) -> (Draft, Draft) {
    let made = |payloads: [&str; 2], other, signers| {
        let records = log(&[(1, payloads[0]), (2, payloads[1])]);
        signer.submission(&records, &[(other, signers), (1, signers)], Some((2, signers)))
    };
    (made(["a", "b"], 2, 0b011), made(["c", "d"], 3, 0b101))
}

/// n = 3. Replicas 1 and 2 elect replica 1 in term 1; it leads one record, and then another, and
/// the same two give receipts for both. Replica 2 signs its two receipts with leaf 7. Nobody breaks
/// another rule, and there is no fork.
pub fn one_leaf(signer: &Signer) -> (Draft, Draft) {
    let records = log(&[(1, "a"), (1, "b")]);
    let made = |length: usize| {
        signer.submission(&records[..length], &[(1, 0b011)], Some((length as u32, 0b011)))
    };
    let (mut first, mut second) = (made(1), made(2));
    for draft in [&mut first, &mut second] {
        places::sign(signer, draft, 2, Place::Receipt, 7);
    }
    (first, second)
}

/// n = 9, two terms, 182 records. The logs part at index 60: replica 1 stamps both in term 4,
/// and replicas 5 to 7 give receipts in term 5 and then elect, in term 7, a leader without those
/// records.
fn filling(signer: &Signer) -> (Draft, Draft) {
    let made = |last_term, parted: &[u8]| -> Vec<Record> {
        let record = |i: u8| Record {
            term: if i <= 100 { 4 } else { last_term },
            payload: sha256(&[&[i], if i < 60 { &[] } else { parted }]),
        };
        (1..=182).map(record).collect()
    };
    let signers = |first: u16| mask_of(&(first..first + 5).collect::<Vec<_>>());
    let first = [(1, signers(1)), (2, signers(2))];
    let first = signer.submission(&made(5, b"a"), &first, Some((182, signers(3))));
    let others = mask_of(&[1, 6, 7, 8, 9]);
    let second = [(1, others), (9, signers(5))];
    let second = signer.submission(&made(7, b"b"), &second, Some((182, others)));
    (first, second)
}

#[cfg(test)]
mod tests {
    use super::*;
    use crate::audit::findings;
    use crate::program::lines;

    /// Each sample gets its number, in both places.
    #[test]
    fn numbers() {
        let cluster = cluster();
        let (roster, none) = (cluster.roster(), empty(&cluster).bytes());
        let mut verdicts = Verdicts::default();
        let samples = submissions(&cluster);
        assert_eq!(samples.len(), 15);
        for (name, number, bytes) in samples {
            let found = findings(&roster, &bytes, &none, &mut verdicts);
            assert_eq!((found.number, found.place), (number, (number != 0) as u8), "{name}");
            let found = findings(&roster, &none, &bytes, &mut verdicts);
            assert_eq!((found.number, found.place), (number, 2 * (number != 0) as u8), "{name}");
        }
    }

    /// Three records with no commit and with one at each index; an empty log; and a submission that
    /// is refused by the last check.
    #[test]
    fn judged_pointers() {
        let cluster = cluster();
        let roster = Roster::read(&cluster.roster()).expect("a roster that is right");
        let mut verdicts = Verdicts::default();
        let mut judge = |draft: &Draft| judged(&roster, &draft.bytes(), &mut verdicts);
        let committed = |commit| led(&Signer::new(&cluster), "abc", 0b011, commit);
        for commit in 0..=3 {
            let draft = committed(commit);
            let pointers = statement::pointers(&draft.records);
            assert_eq!(judge(&draft), (0, [pointers[commit as usize], pointers[3]]), "{commit}");
        }
        assert_eq!(judge(&empty(&cluster)), (0, [[0; 32]; 2]));
        let mut draft = committed(2);
        draft.stamps[0][0] ^= 1;
        assert_eq!(judge(&draft), (15, [[0; 32]; 2]));
    }

    /// The lines that document 01 gives, and those of the other pairs.
    #[test]
    fn worked_lines() {
        let mut verdicts = Verdicts::default();
        let expected = [
            "refusal 0 in 0\nfork 0\n",
            "refusal 0 in 0\nfork 1\nboard 1 rule 2 term 1\n",
            "refusal 0 in 0\nfork 1\nboard 2 rule 3 term 2\n",
            "refusal 0 in 0\nfork 1\nboard 1 rule 2 term 2\nboard 2 rule 1 term 2\n",
            "refusal 0 in 0\nfork 1\nboard 1 rule 2 term 2\n",
            "refusal 0 in 0\nfork 0\nboard 2 rule 5 term 7\n",
            "refusal 0 in 0\nfork 60\nboard 1 rule 2 term 4\nboard 5 rule 3 term 7\n\
                board 6 rule 3 term 7\nboard 7 rule 3 term 7\n",
            "refusal 0 in 0\nfork 1\nboard 2 rule 4 term 2\n",
            "refusal 5 in 1\nfork 0\n",
            "refusal 5 in 1\nfork 0\n",
        ];
        let (cluster, keys) = (cluster(), large_keys());
        let mut pairs = samples(&cluster, &keys);
        pairs.extend(more_pairs(&cluster, &keys));
        assert_eq!(pairs.len(), expected.len());
        for (pair, expected) in pairs.iter().zip(expected) {
            let Pair { roster, first, second, .. } = pair;
            let printed = lines(Some(roster), Some(first), Some(second), &mut verdicts);
            assert_eq!(printed, expected, "{}", pair.folder);
        }
    }
}
