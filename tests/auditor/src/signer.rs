//! Signs what a case needs. Each replica's messages have leaves of their own: a new message takes
//! the next leaf of the replica's key and keeps it, so that one message has one signature in both
//! submissions, and no leaf signs two messages.

use crate::build::{ends, Draft};
use crate::cluster::Cluster;
use crate::leaves::Leaves;
use crate::roster::replicas_of;
use crate::statement::{self, pointers, position, Record};
use std::cell::RefCell;
use std::ops::Deref;
use std::rc::Rc;

/// A cluster, and the leaves that are taken in one case. A copy goes on from the same leaves: for
/// cases that begin alike.
#[derive(Clone)]
pub struct Signer {
    cluster: Rc<Cluster>,
    /// Replica k's are the k-th, counted from its first real leaf.
    leaves: RefCell<Vec<Leaves<Vec<u8>>>>,
}

impl Deref for Signer {
    type Target = Cluster;

    fn deref(&self) -> &Cluster {
        &self.cluster
    }
}

impl Signer {
    /// No leaf is taken yet.
    pub fn new(cluster: &Rc<Cluster>) -> Signer {
        Signer::after(cluster, vec![Leaves::default(); cluster.n()])
    }

    /// These leaves are taken, replica k's by the k-th.
    pub fn after(cluster: &Rc<Cluster>, leaves: Vec<Leaves<Vec<u8>>>) -> Signer {
        Signer { cluster: cluster.clone(), leaves: RefCell::new(leaves) }
    }

    /// A replica's signature; for a number that no replica has, as many bytes that are none.
    pub fn sign(&self, replica: u16, message: &[u8]) -> Vec<u8> {
        if replica == 0 || replica as usize > self.n() {
            return vec![replica as u8; self.signature_size()];
        }
        let number = self.leaves.borrow_mut()[replica as usize - 1].of(message.to_vec());
        self.sign_with(replica, self.cluster.leaves(replica).start + number, message)
    }

    /// Another signature of a message, by a leaf of its own; each number has another.
    pub fn sign_again(&self, replica: u16, message: &[u8], number: u8) -> Vec<u8> {
        let copy = [message, &[number]].concat();
        let leaf = self.leaves.borrow_mut()[replica as usize - 1].of(copy);
        self.sign_with(replica, self.cluster.leaves(replica).start + leaf, message)
    }

    /// One signature for each bit, rising.
    pub fn sign_each(&self, signers: u16, message: &[u8]) -> Vec<Vec<u8>> {
        replicas_of(signers).into_iter().map(|k| self.sign(k, message)).collect()
    }

    /// A submission of this log, right in all parts if the claims are: each term's candidate and
    /// signers, and the commit's index and signers.
    pub fn submission(
        &self,
        records: &[Record],
        leaders: &[(u16, u16)],
        commit: Option<(u32, u16)>,
    ) -> Draft {
        let mut draft = Draft::unsigned(self.name, records, leaders, commit);
        self.sign_all(&mut draft);
        draft.lay_out();
        draft
    }

    /// Signs what the draft's fields now say, as many signatures as there are signers' bits.
    pub fn sign_all(&self, draft: &mut Draft) {
        let pointers = pointers(&draft.records);
        let at = |index: usize| position(&draft.records, &pointers, index);
        for leader in &mut draft.leaders {
            let message = statement::vote(&self.name, &leader.vote);
            leader.signatures = self.sign_each(leader.signers, &message);
        }
        let ends = ends(&draft.records);
        for (i, stamp) in draft.stamps.iter_mut().enumerate() {
            let end = ends.get(i).copied().unwrap_or(0);
            let candidate = draft.leaders[i].vote.candidate;
            *stamp = self.sign(candidate, &statement::stamp(&self.name, &at(end)));
        }
        if let Some(commit) = &mut draft.commit {
            let index = (commit.index as usize).min(draft.records.len());
            let message = statement::receipt(&self.name, &at(index));
            commit.signatures = self.sign_each(commit.signers, &message);
        }
    }
}

#[cfg(test)]
mod tests {
    use super::*;
    use crate::bytes::u32_at;
    use crate::cluster::Keys;
    use crate::lms::check;
    use crate::roster::Roster;
    use std::collections::BTreeSet;

    /// Each message takes the next leaf and has one signature; other replicas count for themselves.
    #[test]
    fn a_leaf_for_each_message() {
        let cluster = Keys::new("signer").cluster_with(3, 32);
        let roster = Roster::read(&cluster.roster()).expect("a roster");
        let signer = Signer::new(&cluster);
        for message in 0..32u8 {
            let signature = signer.sign(1, &[message]);
            assert_eq!(u32_at(&signature, 0), message.into());
            assert_eq!(check(roster.key(1), &[message], &signature).good(), Some(message.into()));
        }
        for message in 0..32u8 {
            assert_eq!(u32_at(&signer.sign(1, &[message]), 0), message.into(), "kept");
        }
        assert_eq!(u32_at(&signer.sign(2, &[31]), 0), 0);
        assert_eq!(signer.sign(0, &[1]), vec![0; 1292]);
        assert_eq!(signer.sign(4, &[1]), vec![4; 1292]);
    }

    /// More messages than leaves are a mistake of the case, and are not signed with a used leaf.
    #[test]
    #[should_panic(expected = "leaf 32 of replica 1 is none of 0..32: ask for more leaves")]
    fn too_many_messages() {
        let signer = Signer::new(&Keys::new("signer").cluster_with(3, 32));
        let leaves: BTreeSet<u32> =
            (0..33u8).map(|message| u32_at(&signer.sign(1, &[message]), 0)).collect();
        assert_eq!(leaves.len(), 33);
    }

    /// Copies go on from the leaves that are taken; a new signer begins anew.
    #[test]
    fn copies() {
        let cluster = Keys::new("signer").cluster(3, 5);
        let signer = Signer::new(&cluster);
        let base = signer.sign(1, b"base");
        let leaf = |signer: &Signer, message: &[u8]| u32_at(&signer.sign(1, message), 0);
        let (one, other) = (signer.clone(), signer.clone());
        assert_eq!((leaf(&one, b"one"), leaf(&other, b"other"), leaf(&signer, b"more")), (1, 1, 1));
        assert_eq!((one.sign(1, b"base"), leaf(&one, b"two")), (base, 2));
        assert_eq!(leaf(&Signer::new(&cluster), b"one"), 0);
    }

    /// Rule 5 needs a one-time key that is used twice: a chosen leaf signs anything.
    #[test]
    fn one_leaf_twice() {
        let signer = Signer::new(&Keys::new("signer").cluster(3, 6));
        let roster = Roster::read(&signer.roster()).expect("a roster");
        let leaf = signer.leaves(2).start + 5;
        let two = [&b"one"[..], b"other"].map(|message| signer.sign_with(2, leaf, message));
        assert_eq!(two.clone().map(|signature| u32_at(&signature, 0)), [leaf; 2]);
        assert_eq!(check(roster.key(2), b"one", &two[0]).good(), Some(leaf));
        assert_eq!(check(roster.key(2), b"other", &two[1]).good(), Some(leaf));
    }

    /// Two submissions of one case: a vote that stands in both has one signature, and all other
    /// signatures of a replica have other leaves.
    #[test]
    fn two_submissions() {
        let signer = Signer::new(&Keys::new("signer").cluster(3, 5));
        let (first, second) = crate::cases::worked_examples::one_leader(&signer);
        assert_eq!(first.leaders[0].signatures, second.leaders[0].signatures);
        let leaf = |signature: &Vec<u8>| u32_at(signature, 0);
        let of_1 = [&first, &second].map(|draft| {
            let commit = draft.commit.as_ref().expect("a commit certificate");
            [
                leaf(&draft.leaders[0].signatures[0]),
                leaf(&draft.stamps[0]),
                leaf(&commit.signatures[0]),
            ]
        });
        assert_eq!(of_1, [[0, 1, 2], [0, 3, 4]]);
    }
}
