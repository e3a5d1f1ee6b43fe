//! Leaf numbers inside the tree and past it, whole trees, and checksums chosen by C.

use super::{Inputs, Made};
use auditor::lms::sign::{OneTime, Tree};
use auditor::lms::{OneTimeType, TreeType, N, TREE_TYPES};
use auditor::sha256::Digest;
use std::collections::BTreeMap;

impl Inputs<'_> {
    /// Leaves to the last, and leaf numbers past it, signed as if the tree had them: the way up
    /// goes by the sum of 2^h and q, by that sum in 32 bits, by 2^h or q, or by q's lower bits.
    pub fn leaf_numbers(&mut self, one_time: &'static OneTimeType, tree: &'static TreeType) {
        let leaves = 1u32 << tree.h;
        for q in [0, 1, leaves / 2 - 1, leaves / 2, leaves - 2, leaves - 1] {
            let message = self.message();
            let made = self.make(one_time, tree, q, message);
            self.good("leaf of the tree", &made);
        }
        let past = leaves + self.random.below((u32::MAX - leaves) as usize) as u32;
        let numbers = [
            leaves,
            leaves + 1,
            2 * leaves - 1,
            2 * leaves,
            past,
            1 << 31,
            u32::MAX - leaves,
            u32::MAX,
        ];
        for q in numbers {
            let sum = leaves as u64 + q as u64;
            let (joined, lower) = ((leaves | q) as u64, (leaves + q % leaves) as u64);
            let mut nodes = vec![sum, sum as u32 as u64, joined, lower];
            nodes.sort();
            nodes.dedup();
            for node in nodes {
                let message = self.message();
                let made = self.make_at(one_time, tree, q, node, message);
                self.misformed(&format!("leaf past the tree, as node {node}"), &made);
            }
        }
    }

    /// All leaves of one whole tree, each with its own number and its neighbour's.
    pub fn every_leaf(&mut self, one_time: &'static OneTimeType) {
        let height = &TREE_TYPES[0];
        let tree = Tree::new(one_time, height, self.random.array(), self.random.array());
        for q in 0..1 << height.h {
            let message = self.message();
            let signature = tree.sign(q, &self.random.array(), &message);
            let mut made = Made { one_time, tree: height, q, key: tree.key(), message, signature };
            self.good("whole tree", &made);
            made.signature[..4].copy_from_slice(&(q ^ 1).to_be_bytes());
            self.bad("whole tree, the neighbour's number", &made);
        }
    }

    /// The lowest and the highest checksum among many choices of C, and those just below, at and
    /// just above a multiple of 256, for shorter digits of 16: there the lower digits of the
    /// checksum begin anew, and the steps of the whole are more at once (document 02, W7).
    pub fn checksums(&mut self, one_time: &'static OneTimeType) {
        let tree = &TREE_TYPES[0];
        let q = self.leaf(tree);
        let private = OneTime::new(one_time, self.random.array(), q, self.random.array());
        // Of one byte, so that a choice costs one block.
        let message = self.random.bytes(1);
        // The sums of wide digits lie farther apart.
        let (tries, multiple) = if one_time.w == 8 { (300_000, 256) } else { (50_000, 16) };
        let mut choices: BTreeMap<u16, Digest> = BTreeMap::new();
        for _ in 0..self.count(tries) {
            let c = self.random.array();
            choices.entry(private.checksum(&c, &message)).or_insert(c);
        }
        let ends = [choices.first_key_value(), choices.last_key_value()];
        let ends = ends.map(|end| end.map(|(sum, _)| *sum));
        choices.retain(|sum, _| ends.contains(&Some(*sum)) || (sum + 1) % multiple < 3);
        for (sum, c) in choices {
            let path: Vec<Digest> = (0..tree.h).map(|_| self.random.array()).collect();
            let node = (1 << tree.h) + q as u64;
            let (key, signature) = private.sign_on_path(tree, node, &path, &c, &message);
            let made = Made { one_time, tree, q, key, message: message.clone(), signature };
            self.good(&format!("checksum {sum}"), &made);
            let chain_bit = 8 * (8 + N) + self.random.below(8 * N * one_time.p);
            self.flip_in_signature(&format!("checksum {sum}, a chain changed"), &made, chain_bit);
            let root_bit = 8 * 24 + self.random.below(8 * N);
            self.flip_in_key(&format!("checksum {sum}, the root changed"), &made, root_bit);
        }
    }
}
