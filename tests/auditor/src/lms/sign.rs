//! LMS keys and signatures (RFC 8554) to be checked: made from seeds, for tests only.

pub mod chains;
pub mod few;

use super::{inner_value, leaf_value, Leaf, OneTimeType, TreeType};
use crate::sha256::{sha256, Digest};

/// A one-time private key: its values come from a seed.
pub struct OneTime {
    kind: &'static OneTimeType,
    leaf: Leaf,
    seed: Digest,
}

impl OneTime {
    pub fn new(kind: &'static OneTimeType, identifier: [u8; 16], q: u32, seed: Digest) -> Self {
        OneTime { kind, leaf: Leaf { identifier, q }, seed }
    }

    /// RFC 8554, appendix A: the value that chain i begins with.
    fn secret(&self, i: usize) -> Digest {
        let Leaf { identifier, q } = &self.leaf;
        sha256(&[identifier, &q.to_be_bytes(), &(i as u16).to_be_bytes(), &[0xff], &self.seed])
    }

    /// RFC 8554, 4.3, algorithm 1: the one-time key K.
    pub fn public(&self) -> Digest {
        let largest = self.kind.largest_digit();
        let end = |i| self.leaf.chain(i, 0, largest, self.secret(i)).0;
        let ends: Vec<u8> = (0..self.kind.p).flat_map(end).collect();
        self.leaf.one_time_key(&ends)
    }

    /// RFC 8554, 4.5, algorithm 3: type, C, and each chain's value at its digit.
    pub fn sign(&self, c: &Digest, message: &[u8]) -> Vec<u8> {
        let digits = self.kind.digits(&self.leaf.message_hash(c, message));
        let mut signature = self.kind.code.to_be_bytes().to_vec();
        signature.extend(c);
        for (i, digit) in digits.into_iter().enumerate() {
            signature.extend(self.leaf.chain(i, 0, digit, self.secret(i)).0);
        }
        signature
    }

    /// The sum in the checksum of the message's hash, to choose C by.
    pub fn checksum(&self, c: &Digest, message: &[u8]) -> u16 {
        self.kind.checksum(&self.leaf.message_hash(c, message)) >> self.kind.ls
    }

    /// Key and signature where only the path has values: any nodes are taken for it and the root
    /// follows. `node` numbers the leaf; it is 2^h + q, and another one only for a bad signature.
    pub fn sign_on_path(
        &self,
        tree: &TreeType,
        node: u64,
        path: &[Digest],
        c: &Digest,
        message: &[u8],
    ) -> (Vec<u8>, Vec<u8>) {
        let identifier = &self.leaf.identifier;
        let mut value = leaf_value(identifier, node as u32, &self.public());
        for (level, sibling) in path.iter().enumerate() {
            let above = (node >> (level + 1)) as u32;
            value = match (node >> level) & 1 {
                1 => inner_value(identifier, above, sibling, &value),
                _ => inner_value(identifier, above, &value, sibling),
            };
        }
        (
            key(self.kind, tree, identifier, &value),
            join(self.leaf.q, &self.sign(c, message), tree, path),
        )
    }
}

/// A private key with every node of its tree; for low trees.
pub struct Tree {
    kind: &'static OneTimeType,
    tree: &'static TreeType,
    identifier: [u8; 16],
    seed: Digest,
    /// T[1] to T[2^(h + 1) - 1]; T[0] is not used.
    nodes: Vec<Digest>,
}

impl Tree {
    /// RFC 8554, 5.3: all of T[r], from the leaves down to T[1].
    pub fn new(
        kind: &'static OneTimeType,
        tree: &'static TreeType,
        identifier: [u8; 16],
        seed: Digest,
    ) -> Self {
        let leaves = 1usize << tree.h;
        let mut nodes = vec![[0; 32]; 2 * leaves];
        for r in (1..2 * leaves).rev() {
            nodes[r] = if r >= leaves {
                let one_time = OneTime::new(kind, identifier, (r - leaves) as u32, seed);
                leaf_value(&identifier, r as u32, &one_time.public())
            } else {
                inner_value(&identifier, r as u32, &nodes[2 * r], &nodes[2 * r + 1])
            };
        }
        Tree { kind, tree, identifier, seed, nodes }
    }

    /// RFC 8554, 5.3: the public key.
    pub fn key(&self) -> Vec<u8> {
        key(self.kind, self.tree, &self.identifier, &self.nodes[1])
    }

    /// RFC 8554, 5.4.1, algorithm 5: leaf q's signature, with the sibling of each node on the way.
    pub fn sign(&self, q: u32, c: &Digest, message: &[u8]) -> Vec<u8> {
        let one_time = OneTime::new(self.kind, self.identifier, q, self.seed);
        let r = (1usize << self.tree.h) + q as usize;
        let path: Vec<Digest> =
            (0..self.tree.h).map(|level| self.nodes[(r >> level) ^ 1]).collect();
        join(q, &one_time.sign(c, message), self.tree, &path)
    }
}

/// RFC 8554, 5.3: the two types, I and T[1].
fn key(kind: &OneTimeType, tree: &TreeType, identifier: &[u8; 16], root: &Digest) -> Vec<u8> {
    [&tree.code.to_be_bytes()[..], &kind.code.to_be_bytes(), identifier, root].concat()
}

/// RFC 8554, 5.4: q, the one-time signature, the tree type and the path.
fn join(q: u32, one_time_signature: &[u8], tree: &TreeType, path: &[Digest]) -> Vec<u8> {
    let (q, code) = (q.to_be_bytes(), tree.code.to_be_bytes());
    [&q[..], one_time_signature, &code, &path.concat()].concat()
}

#[cfg(test)]
mod tests {
    use super::*;
    use crate::hex;
    use crate::lms::{check, ONE_TIME_TYPES, TREE_TYPES};

    /// Every leaf of a full tree signs for the tree's key, and only its own message.
    #[test]
    fn full_tree() {
        for kind in &ONE_TIME_TYPES {
            let tree = Tree::new(kind, &TREE_TYPES[0], [7; 16], [8; 32]);
            for q in 0..32 {
                let signature = tree.sign(q, &[9; 32], b"message");
                assert_eq!(check(&tree.key(), b"message", &signature).good(), Some(q));
                assert_eq!(check(&tree.key(), b"massage", &signature).good(), None);
            }
        }
    }

    /// With a full tree's path, a signature on a path is the full tree's.
    #[test]
    fn path() {
        let (kind, height) = (&ONE_TIME_TYPES[2], &TREE_TYPES[0]);
        let tree = Tree::new(kind, height, [1; 16], [2; 32]);
        for q in 0..32 {
            let path: Vec<Digest> =
                (0..5).map(|level| tree.nodes[((32 + q as usize) >> level) ^ 1]).collect();
            let one_time = OneTime::new(kind, [1; 16], q, [2; 32]);
            let (key, signature) =
                one_time.sign_on_path(height, 32 + q as u64, &path, &[3; 32], b"message");
            assert_eq!(key, tree.key());
            assert_eq!(signature, tree.sign(q, &[3; 32], b"message"));
        }
    }

    /// RFC 8554, appendix F, test case 2: both trees from their seeds, made as appendix A says.
    #[test]
    fn rfc_test_case_2() {
        let cases = [
            (
                &ONE_TIME_TYPES[2],
                &TREE_TYPES[1],
                "558b8966c48ae9cb898b423c83443aae014a72f1b1ab5cc85cf1d892903b5439",
                "d08fabd4a2091ff0a8cb4ed834e74534",
                "32a58885cd9ba0431235466bff9651c6c92124404d45fa53cf161c28f1ad5a8e",
            ),
            (
                &ONE_TIME_TYPES[3],
                &TREE_TYPES[0],
                "a1c4696e2608035a886100d05cd99945eb3370731884a8235e2fb3d4d71f2547",
                "215f83b7ccb9acbcd08db97b0d04dc2b",
                "a1cd035833e0e90059603f26e07ad2aad152338e7a5e5984bcd5f7bb4eba40b7",
            ),
        ];
        for (kind, height, seed, identifier, root) in cases {
            let seed = hex::read(seed).unwrap().try_into().unwrap();
            let identifier = hex::read(identifier).unwrap().try_into().unwrap();
            let tree = Tree::new(kind, height, identifier, seed);
            assert_eq!(hex::write(&tree.nodes[1]), root);
        }
    }
}
