//! The keys of a cluster, its roster, and signatures by chosen leaves.

use crate::lms::sign::chains::OneTimeKeys;
use crate::lms::sign::few::FewLeaves;
use crate::lms::{tree_type, TreeType, ONE_TIME_TYPES};
use crate::roster::{mask_of, quorum, Name, MOST};
use crate::sha256::{sha256, Digest};
use std::cell::RefCell;
use std::collections::HashMap;
use std::ops::Range;
use std::rc::Rc;

/// The leaves of the lowest trees.
const LOW_LEAVES: u32 = 32;

/// How many leaves are real, if nobody asks for more: a replica signs no more messages in a pair of
/// four terms each.
pub const FEW_LEAVES: u32 = 20;

/// How many of a taller tree are real then: enough for the cases with one submission.
const FEW_TALL_LEAVES: u32 = 10;

/// Where a taller tree's real leaves may begin, in steps of a low tree's leaves.
const PLACES: u8 = 32;

/// One-time keys for up to nine replicas, shared by the clusters that stand on them: a leaf costs
/// thousands of hashes, and the nodes above it next to none.
pub struct Keys {
    label: String,
    replicas: Vec<Rc<OneTimeKeys>>,
}

impl Keys {
    /// The label chooses everything.
    pub fn new(label: &str) -> Keys {
        let replicas = (1..=MOST).map(|k| {
            let identifier = sixteen(seeded(label, "I", &[k as u8]));
            OneTimeKeys::new(&ONE_TIME_TYPES[3], identifier, seeded(label, "seed", &[k as u8]))
        });
        Keys { label: label.into(), replicas: replicas.map(Rc::new).collect() }
    }

    /// n replicas whose keys have this tree type. In trees that are taller than the lowest the
    /// real leaves are at the beginning for replica 1, at the end for replica 2, and anywhere for
    /// the others.
    pub fn cluster(&self, n: usize, tree: u32) -> Rc<Cluster> {
        let tree = tree_type(tree).expect("a tree type is 5 to 9");
        self.make(n, tree, |k| match (tree.h, k) {
            (5, _) => 0..FEW_LEAVES,
            (_, 1) => 0..FEW_TALL_LEAVES,
            (_, 2) => (1 << tree.h) - LOW_LEAVES..(1 << tree.h) - LOW_LEAVES + FEW_TALL_LEAVES,
            _ => {
                let place = seeded(&self.label, "leaf", &[k as u8])[0] % PLACES;
                let first = u32::from(place) * LOW_LEAVES;
                first..first + FEW_TALL_LEAVES
            }
        })
    }

    /// So many real leaves, from leaf 0 on: in the lowest trees if these have as many, otherwise in
    /// those of height 10.
    pub fn cluster_with(&self, n: usize, leaves: u32) -> Rc<Cluster> {
        let tree = if leaves <= LOW_LEAVES { 5 } else { 6 };
        self.cluster_from_0(n, tree, leaves)
    }

    /// So many real leaves, from leaf 0 on, in trees of a chosen type.
    pub fn cluster_from_0(&self, n: usize, tree: u32, leaves: u32) -> Rc<Cluster> {
        self.cluster_each(n, tree, |_| 0..leaves)
    }

    /// The real leaves of each replica, in trees of a chosen type.
    pub fn cluster_each(
        &self,
        n: usize,
        tree: u32,
        real: impl Fn(usize) -> Range<u32>,
    ) -> Rc<Cluster> {
        self.make(n, tree_type(tree).expect("a tree type is 5 to 9"), real)
    }

    fn make(
        &self,
        n: usize,
        tree: &'static TreeType,
        real: impl Fn(usize) -> Range<u32>,
    ) -> Rc<Cluster> {
        let keys = (1..=n).map(|k| FewLeaves::new(self.replicas[k - 1].clone(), tree, real(k)));
        let name = sixteen(seeded(&self.label, "name", &[n as u8, tree.code as u8, 0]));
        Rc::new(Cluster { name, keys: keys.collect(), made: RefCell::default() })
    }
}

fn seeded(label: &str, what: &str, numbers: &[u8]) -> Digest {
    sha256(&[label.as_bytes(), what.as_bytes(), numbers])
}

fn sixteen(digest: Digest) -> [u8; 16] {
    digest[..16].try_into().expect("sixteen bytes")
}

/// A replica, a leaf and a message.
type Signing = (u16, u32, Vec<u8>);

/// Replicas with their private keys.
pub struct Cluster {
    pub name: Name,
    keys: Vec<FewLeaves>,
    /// Signatures made before.
    made: RefCell<HashMap<Signing, Vec<u8>>>,
}

impl Cluster {
    pub fn n(&self) -> usize {
        self.keys.len()
    }

    pub fn quorum(&self) -> usize {
        quorum(self.n())
    }

    /// The mask of all replicas.
    pub fn all(&self) -> u16 {
        mask_of(&(1..=self.n() as u16).collect::<Vec<_>>())
    }

    /// The mask of the first q replicas.
    pub fn first_quorum(&self) -> u16 {
        mask_of(&(1..=self.quorum() as u16).collect::<Vec<_>>())
    }

    /// S.
    pub fn signature_size(&self) -> usize {
        self.keys[0].signature_length()
    }

    /// The roster's bytes.
    pub fn roster(&self) -> Vec<u8> {
        let mut bytes = self.name.to_vec();
        bytes.extend((self.n() as u16).to_be_bytes());
        for key in &self.keys {
            bytes.extend(key.key());
        }
        bytes
    }

    /// The leaves of a replica's key that can sign.
    pub fn leaves(&self, replica: u16) -> Range<u32> {
        self.keys[replica as usize - 1].real.clone()
    }

    /// A replica's signature by a chosen leaf, whatever else that leaf has signed. A `Signer`
    /// chooses leaves so that none signs two messages.
    pub fn sign_with(&self, replica: u16, leaf: u32, message: &[u8]) -> Vec<u8> {
        let sign = || self.sign_anew(replica, leaf, 0, message);
        let mut made = self.made.borrow_mut();
        made.entry((replica, leaf, message.to_vec())).or_insert_with(sign).clone()
    }

    /// The same with another C for each number, and so with other bytes; 0 has that of `sign_with`.
    pub fn sign_anew(&self, replica: u16, leaf: u32, number: u8, message: &[u8]) -> Vec<u8> {
        let key = &self.keys[replica as usize - 1];
        key.sign_anew(leaf, number, message).unwrap_or_else(|| {
            let real = self.leaves(replica);
            panic!("leaf {leaf} of replica {replica} is none of {real:?}: ask for more leaves")
        })
    }

    /// As many bytes as the signers' signatures have, and none of them a signature.
    pub fn no_signatures(&self, signers: u16) -> Vec<Vec<u8>> {
        vec![vec![0; self.signature_size()]; signers.count_ones() as usize]
    }
}

#[cfg(test)]
mod tests {
    use super::*;
    use crate::roster::Roster;

    /// Every number of replicas and every tree type makes a roster.
    #[test]
    fn rosters() {
        let keys = Keys::new("rosters");
        for (n, tree) in [(3, 5), (9, 5), (3, 6), (4, 7), (3, 8), (3, 9)] {
            let cluster = keys.cluster(n, tree);
            let roster = Roster::read(&cluster.roster()).expect("a roster");
            assert_eq!((roster.n(), roster.name), (n, cluster.name));
            assert_eq!(roster.signature_size(), cluster.signature_size());
        }
        assert_eq!(keys.cluster_with(3, 32).signature_size(), crate::roster::signature_size(5));
        assert_eq!(keys.cluster_with(3, 33).signature_size(), crate::roster::signature_size(10));
    }
}
