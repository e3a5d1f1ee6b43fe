//! The one-time keys of one LMS key, each made when it is first asked for. Every eighth value of its
//! chains is kept, so that a signature costs few steps.

use super::{Leaf, OneTime, OneTimeType};
use crate::sha256::{sha256, Digest};
use std::cell::RefCell;
use std::collections::HashMap;
use std::rc::Rc;

/// The steps from one kept value to the next.
const STRIDE: u32 = 8;

/// One-time keys of one type, I and seed; trees of any height may stand on them.
pub struct OneTimeKeys {
    pub kind: &'static OneTimeType,
    pub identifier: [u8; 16],
    seed: Digest,
    made: RefCell<HashMap<u32, Rc<Chains>>>,
}

/// One leaf's chains.
struct Chains {
    /// K.
    public: Digest,
    /// Of each chain the values at 0, 8, 16 ..
    kept: Vec<Vec<Digest>>,
}

impl OneTimeKeys {
    pub fn new(kind: &'static OneTimeType, identifier: [u8; 16], seed: Digest) -> Self {
        OneTimeKeys { kind, identifier, seed, made: RefCell::default() }
    }

    /// A value that is no node of a tree, to stand in a node's place.
    pub fn made_up(&self, what: &str, number: u32) -> Digest {
        sha256(&[what.as_bytes(), &self.seed, &number.to_be_bytes()])
    }

    /// K of leaf q.
    pub fn public(&self, q: u32) -> Digest {
        self.chains(q).public
    }

    /// RFC 8554, 4.5, algorithm 3, as `OneTime::sign` has it, from the values kept. Seed, message
    /// and a number choose C, so a leaf's signature of a message by one number is always the same.
    pub fn sign(&self, q: u32, number: u8, message: &[u8]) -> Vec<u8> {
        let number: &[u8] = if number == 0 { &[] } else { &[number] };
        let c = sha256(&[b"C", &self.seed, message, number]);
        let (leaf, chains) = (self.leaf(q), self.chains(q));
        let digits = self.kind.digits(&leaf.message_hash(&c, message));
        let mut signature = self.kind.code.to_be_bytes().to_vec();
        signature.extend(c);
        for (i, digit) in digits.into_iter().enumerate() {
            let kept = digit / STRIDE;
            let value = chains.kept[i][kept as usize];
            signature.extend(leaf.chain(i, STRIDE * kept, digit, value).0);
        }
        signature
    }

    fn leaf(&self, q: u32) -> Leaf {
        Leaf { identifier: self.identifier, q }
    }

    /// Leaf q's chains, made now if they are new.
    fn chains(&self, q: u32) -> Rc<Chains> {
        self.made.borrow_mut().entry(q).or_insert_with(|| Rc::new(self.make(q))).clone()
    }

    fn make(&self, q: u32) -> Chains {
        let (leaf, largest) = (self.leaf(q), self.kind.largest_digit());
        let one_time = OneTime::new(self.kind, self.identifier, q, self.seed);
        let mut ends = Vec::new();
        let mut kept = Vec::new();
        for i in 0..self.kind.p {
            let mut value = one_time.secret(i);
            let mut values = Vec::new();
            for from in (0..=largest).step_by(STRIDE as usize) {
                values.push(value);
                value = leaf.chain(i, from, largest.min(from + STRIDE), value).0;
            }
            ends.extend(value);
            kept.push(values);
        }
        Chains { public: leaf.one_time_key(&ends), kept }
    }
}

#[cfg(test)]
mod tests {
    use super::*;
    use crate::lms::ONE_TIME_TYPES;

    /// For every type, K and the signatures are those made from the seed without anything kept.
    #[test]
    fn as_made_from_the_seed() {
        for kind in &ONE_TIME_TYPES {
            let keys = OneTimeKeys::new(kind, [4; 16], [5; 32]);
            for q in [0, 3, 77] {
                let one_time = OneTime::new(kind, [4; 16], q, [5; 32]);
                assert_eq!(keys.public(q), one_time.public());
                for message in 0..8u8 {
                    let signature = keys.sign(q, message % 3, &[message]);
                    let c = signature[4..36].try_into().expect("32 bytes");
                    assert_eq!(signature, one_time.sign(&c, &[message]));
                }
            }
        }
    }
}
