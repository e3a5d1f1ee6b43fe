//! The inputs: good signatures of every width and height, and each way to spoil one.

mod leaves;
mod messages;
mod shapes;
mod spoiled;
#[cfg(test)]
mod tests;

use crate::call::{Answer, Case};
use auditor::cases::Size;
use auditor::lms::sign::OneTime;
use auditor::lms::{distances, OneTimeType, TreeType, KEY_LENGTH, N, ONE_TIME_TYPES, TREE_TYPES};
use auditor::numbers::{ACCEPTED, LONG_MESSAGE, SIGNATURE};
use auditor::random::Random;
use auditor::sha256::Digest;
use std::ops::Range;

/// Every kind of input, from this seed.
pub fn run(seed: u64, size: Size, take: &mut dyn FnMut(&Case)) {
    let mut inputs = Inputs { take, random: Random::new(seed), size };
    for one_time in &ONE_TIME_TYPES {
        for tree in &TREE_TYPES {
            inputs.signatures(one_time, tree);
            inputs.field_edges(one_time, tree);
            inputs.lengths(one_time, tree);
            inputs.types(one_time, tree);
            inputs.leaf_numbers(one_time, tree);
        }
        inputs.unknown_heights(one_time);
        inputs.checksums(one_time);
        inputs.every_leaf(one_time);
        inputs.every_byte(one_time);
        inputs.message_lengths(one_time);
        inputs.no_bytes(one_time);
        inputs.long_messages(one_time);
    }
    inputs.every_length();
    inputs.past_32_bits();
}

/// The first bytes of one fixed sequence, for long messages.
fn pattern(length: usize) -> Vec<u8> {
    (0..length as u32).map(|i| (i.wrapping_mul(0x9e37_79b1) >> 24) as u8).collect()
}

/// A key, a message and a signature.
#[derive(Clone)]
struct Made {
    one_time: &'static OneTimeType,
    tree: &'static TreeType,
    q: u32,
    key: Vec<u8>,
    message: Vec<u8>,
    signature: Vec<u8>,
}

impl Made {
    /// What it is, for a difference.
    fn name(&self, what: &str) -> String {
        format!("{what} (w {}, h {}, leaf {})", self.one_time.w, self.tree.h, self.q)
    }

    /// Where the signature has its tree type.
    fn tree_type_at(&self) -> usize {
        8 + N * (self.one_time.p + 1)
    }

    /// The steps that the fields lead to as they stand, if the form is right.
    fn steps(&self) -> u32 {
        distances::steps(self.one_time, &self.key, &self.message, &self.signature)
    }

    /// RFC 8554, 5.4 and 4.5: fields of the signature; the first and the last chain and node.
    fn signature_fields(&self) -> [(&'static str, Range<usize>); 8] {
        let (type_at, end) = (self.tree_type_at(), self.signature.len());
        [
            ("leaf number", 0..4),
            ("one-time type", 4..8),
            ("C", 8..8 + N),
            ("first chain", 8 + N..8 + 2 * N),
            ("last chain", type_at - N..type_at),
            ("tree type", type_at..type_at + 4),
            ("first node", type_at + 4..type_at + 4 + N),
            ("last node", end - N..end),
        ]
    }

    /// RFC 8554, 5.3: fields of the key.
    fn key_fields(&self) -> [(&'static str, Range<usize>); 4] {
        [("tree type", 0..4), ("one-time type", 4..8), ("I", 8..24), ("T[1]", 24..KEY_LENGTH)]
    }
}

/// Where inputs come from and where they go.
struct Inputs<'a> {
    take: &'a mut dyn FnMut(&Case),
    random: Random,
    size: Size,
}

impl Inputs<'_> {
    /// As many in the full set; a few of them in the small one.
    fn count(&self, full: usize) -> usize {
        match self.size {
            Size::Full => full,
            Size::Small => full.div_ceil(10),
        }
    }

    /// A leaf number of the tree.
    fn leaf(&mut self, tree: &TreeType) -> u32 {
        self.random.below(1 << tree.h) as u32
    }

    /// A message of at most 300 bytes.
    fn message(&mut self) -> Vec<u8> {
        let length = self.random.below(301);
        self.random.bytes(length)
    }

    /// A signature of the leaf, good if the leaf is in the tree.
    fn make(
        &mut self,
        one_time: &'static OneTimeType,
        tree: &'static TreeType,
        q: u32,
        message: Vec<u8>,
    ) -> Made {
        self.make_at(one_time, tree, q, (1 << tree.h) + q as u64, message)
    }

    /// The same with the leaf's number in the tree given.
    fn make_at(
        &mut self,
        one_time: &'static OneTimeType,
        tree: &'static TreeType,
        q: u32,
        node: u64,
        message: Vec<u8>,
    ) -> Made {
        let private = OneTime::new(one_time, self.random.array(), q, self.random.array());
        let path: Vec<Digest> = (0..tree.h).map(|_| self.random.array()).collect();
        let c = self.random.array();
        let (key, signature) = private.sign_on_path(tree, node, &path, &c, &message);
        Made { one_time, tree, q, key, message, signature }
    }

    /// A signature of any leaf for any short message.
    fn make_any(&mut self, one_time: &'static OneTimeType, tree: &'static TreeType) -> Made {
        let (q, message) = (self.leaf(tree), self.message());
        self.make(one_time, tree, q, message)
    }

    /// By the leaf that it was made with.
    fn good(&mut self, what: &str, made: &Made) {
        self.hand_on(what, made, [ACCEPTED.into(), made.q, made.steps()]);
    }

    /// Of the right form, and bad by the root: all chains have been gone through.
    fn bad(&mut self, what: &str, made: &Made) {
        self.hand_on(what, made, [SIGNATURE.into(), 0, made.steps()]);
    }

    /// Not of the right form: bad before any chain (document 02, W7).
    fn misformed(&mut self, what: &str, made: &Made) {
        self.hand_on(what, made, [SIGNATURE.into(), 0, 0]);
    }

    fn long(&mut self, what: &str, made: &Made) {
        self.hand_on(what, made, [LONG_MESSAGE.into(), 0, 0]);
    }

    /// With the number, leaf and steps that it was made to have.
    fn hand_on(&mut self, what: &str, made: &Made, right: [u32; 3]) {
        let right = right.map(u64::from);
        let broken = move |answer: &Answer| {
            let found = &answer.returned;
            (found[..] != right).then(|| format!("made to be {right:?}, and is {found:?}"))
        };
        (self.take)(&Case {
            name: made.name(what),
            inputs: vec![&made.key, &made.message, &made.signature],
            outputs: vec![],
            expect: Some(Box::new(broken)),
        });
    }
}

/// Flips one bit, counted from the first byte's highest.
fn flip(bytes: &mut [u8], bit: usize) {
    bytes[bit / 8] ^= 0x80 >> (bit % 8);
}
