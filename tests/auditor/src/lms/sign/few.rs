//! A private key of which only a few neighbouring leaves are real; the other leaves and nodes beside
//! the way up from them are made up, and the root follows. So tall trees cost no more than low ones.

use super::chains::OneTimeKeys;
use super::{inner_value, join, key, leaf_value, TreeType};
use crate::sha256::Digest;
use std::ops::Range;
use std::rc::Rc;

pub struct FewLeaves {
    keys: Rc<OneTimeKeys>,
    tree: &'static TreeType,
    /// The numbers of the leaves that are real.
    pub real: Range<u32>,
    /// The height of the lowest node above all of them, at its place in the tree.
    low: u32,
    /// The nodes from that one, here 1, to the leaves; number 0 is not used.
    nodes: Vec<Digest>,
    /// The made-up nodes, from that one's sibling up.
    path: Vec<Digest>,
    key: Vec<u8>,
}

impl FewLeaves {
    /// The first of the real leaves has to be a multiple of a power of two that is not below their
    /// number.
    pub fn new(keys: Rc<OneTimeKeys>, tree: &'static TreeType, real: Range<u32>) -> Self {
        let low = (real.len() as u32).next_power_of_two().ilog2();
        assert!(real.start % (1 << low) == 0 && real.end <= 1 << tree.h, "{real:?} of {tree:?}");
        let identifier = &keys.identifier;
        let common = ((1u32 << tree.h) + real.start) >> low;
        let mut nodes = vec![[0; 32]; 2 << low];
        for local in (1..nodes.len()).rev() {
            let depth = local.ilog2();
            let number = (common << depth) + local as u32 - (1 << depth);
            let q = number.wrapping_sub(1 << tree.h);
            nodes[local] = if depth < low {
                inner_value(identifier, number, &nodes[2 * local], &nodes[2 * local + 1])
            } else if real.contains(&q) {
                leaf_value(identifier, number, &keys.public(q))
            } else {
                keys.made_up("leaf", q)
            };
        }
        let path: Vec<Digest> = (low..tree.h).map(|level| keys.made_up("path", level)).collect();
        let mut node = common;
        let mut value = nodes[1];
        for sibling in &path {
            let odd = node % 2 == 1;
            node /= 2;
            value = match odd {
                true => inner_value(identifier, node, sibling, &value),
                false => inner_value(identifier, node, &value, sibling),
            };
        }
        let key = key(keys.kind, tree, identifier, &value);
        FewLeaves { keys, tree, real, low, nodes, path, key }
    }

    /// The public key.
    pub fn key(&self) -> &[u8] {
        &self.key
    }

    /// Bytes of a signature.
    pub fn signature_length(&self) -> usize {
        crate::lms::signature_length(self.keys.kind, self.tree)
    }

    /// Leaf q's signature, if it is one of the real leaves. A leaf that has signed another message
    /// signs this one too: whoever calls sees to that.
    pub fn sign(&self, q: u32, message: &[u8]) -> Option<Vec<u8>> {
        self.sign_anew(q, 0, message)
    }

    /// The same with another C for each number; 0 has that of `sign`.
    pub fn sign_anew(&self, q: u32, number: u8, message: &[u8]) -> Option<Vec<u8>> {
        if !self.real.contains(&q) {
            return None;
        }
        let local = ((1 << self.low) + q - self.real.start) as usize;
        let mut path: Vec<Digest> =
            (0..self.low).map(|level| self.nodes[(local >> level) ^ 1]).collect();
        path.extend(&self.path);
        Some(join(q, &self.keys.sign(q, number, message), self.tree, &path))
    }
}

#[cfg(test)]
mod tests {
    use super::*;
    use crate::lms::sign::Tree;
    use crate::lms::{check, ONE_TIME_TYPES, TREE_TYPES};

    fn keys() -> Rc<OneTimeKeys> {
        Rc::new(OneTimeKeys::new(&ONE_TIME_TYPES[3], [4; 16], [5; 32]))
    }

    /// For every height, at the first, middle and last leaves: good for its own message only. A
    /// leaf that is not real does not sign.
    #[test]
    fn every_height() {
        let keys = keys();
        for tree in &TREE_TYPES {
            for first in [0, 1 << (tree.h - 1), (1 << tree.h) - 4] {
                let few = FewLeaves::new(keys.clone(), tree, first..first + 3);
                for q in first..first + 3 {
                    let signature = few.sign(q, &[7]).expect("a real leaf");
                    assert_eq!(signature.len(), few.signature_length());
                    assert_eq!(signature[..4], q.to_be_bytes());
                    assert_eq!(check(few.key(), &[7], &signature).good(), Some(q));
                    assert_eq!(check(few.key(), &[8], &signature).good(), None);
                }
                assert_eq!(few.sign(first + 3, &[7]), None);
            }
        }
    }

    /// Where all leaves are real, the key is the whole tree's.
    #[test]
    fn all_leaves() {
        let few = FewLeaves::new(keys(), &TREE_TYPES[0], 0..32);
        let whole = Tree::new(&ONE_TIME_TYPES[3], &TREE_TYPES[0], [4; 16], [5; 32]);
        assert_eq!(few.key(), whole.key());
        let signature = few.sign(21, b"message").expect("a real leaf");
        let c = signature[8..40].try_into().expect("32 bytes");
        assert_eq!(signature, whole.sign(21, &c, b"message"));
    }

    /// A leaf may sign two messages, as a cheat's does: a check of either alone does not notice.
    #[test]
    fn one_leaf_twice() {
        let few = FewLeaves::new(keys(), &TREE_TYPES[1], 64..66);
        let [one, other] = [b"one", b"two"].map(|message| few.sign(65, message).expect("real"));
        assert_eq!((&one[..4], one != other), (&other[..4], true));
        assert_eq!(check(few.key(), b"one", &one).good(), Some(65));
        assert_eq!(check(few.key(), b"two", &other).good(), Some(65));
    }

    /// A leaf may sign one message twice, with other bytes: both are good.
    #[test]
    fn one_message_twice() {
        let few = FewLeaves::new(keys(), &TREE_TYPES[1], 64..66);
        let signed = [0, 1, 2].map(|number| few.sign_anew(64, number, b"one").expect("real"));
        assert_eq!(few.sign(64, b"one").as_ref(), Some(&signed[0]));
        assert!(signed[0] != signed[1] && signed[0] != signed[2] && signed[1] != signed[2]);
        for signature in signed {
            assert_eq!(check(few.key(), b"one", &signature).good(), Some(64));
        }
    }
}
