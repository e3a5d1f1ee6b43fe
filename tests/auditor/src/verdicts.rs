//! Signature checks, each kept: damaged submissions leave most signatures as they were.

use crate::lms::check;
use std::collections::HashMap;

/// A key, a message and a signature.
type Input = (Vec<u8>, Vec<u8>, Vec<u8>);

#[derive(Default)]
pub struct Verdicts {
    /// The leaf of each good signature; nothing for those that are not.
    known: HashMap<Input, Option<u32>>,
    /// How many checks were asked for.
    pub asked: usize,
}

impl Verdicts {
    /// Whether the signature is good.
    pub fn good(&mut self, key: &[u8], message: &[u8], signature: &[u8]) -> bool {
        self.leaf(key, message, signature).is_some()
    }

    /// The leaf that has signed, if the signature is good.
    pub fn leaf(&mut self, key: &[u8], message: &[u8], signature: &[u8]) -> Option<u32> {
        self.asked += 1;
        let input = (key.to_vec(), message.to_vec(), signature.to_vec());
        *self.known.entry(input).or_insert_with(|| check(key, message, signature).good())
    }

    /// How many of them were made: those not known before.
    pub fn made(&self) -> usize {
        self.known.len()
    }
}
