//! LMS signatures (RFC 8554) over SHA-256 with n = m = 32: parameters and the check.

pub mod distances;
pub mod sign;
#[cfg(test)]
mod tests;

use crate::numbers::{ACCEPTED, LONG_MESSAGE, SIGNATURE};
use crate::sha256::{sha256, sha256_of_one_block, Digest, ONE_BLOCK};

/// A longer message is neither good nor bad (document 01, Digest and signature).
pub const MESSAGE_LIMIT: usize = 16_777_216;

/// Bytes of a hash value: n and m of RFC 8554, tables 1 and 2.
pub const N: usize = 32;

/// Bytes of a key: two types, I and T[1] (RFC 8554, 5.3).
pub const KEY_LENGTH: usize = 24 + N;

/// RFC 8554, 7.1: what sets the kinds of hash apart.
const D_PBLC: [u8; 2] = [0x80, 0x80];
const D_MESG: [u8; 2] = [0x81, 0x81];
const D_LEAF: [u8; 2] = [0x82, 0x82];
const D_INTR: [u8; 2] = [0x83, 0x83];

/// RFC 8554, 4.1: type code, bits of a digit, number of chains, checksum shift.
#[derive(Debug, PartialEq)]
pub struct OneTimeType {
    pub code: u32,
    pub w: u32,
    pub p: usize,
    pub ls: u32,
}

/// RFC 8554, table 1.
pub static ONE_TIME_TYPES: [OneTimeType; 4] = [
    OneTimeType { code: 1, w: 1, p: 265, ls: 7 },
    OneTimeType { code: 2, w: 2, p: 133, ls: 6 },
    OneTimeType { code: 3, w: 4, p: 67, ls: 4 },
    OneTimeType { code: 4, w: 8, p: 34, ls: 0 },
];

/// RFC 8554, 5.1: type code and height.
#[derive(Debug, PartialEq)]
pub struct TreeType {
    pub code: u32,
    pub h: u32,
}

/// RFC 8554, table 2.
pub static TREE_TYPES: [TreeType; 5] = [
    TreeType { code: 5, h: 5 },
    TreeType { code: 6, h: 10 },
    TreeType { code: 7, h: 15 },
    TreeType { code: 8, h: 20 },
    TreeType { code: 9, h: 25 },
];

/// The one-time type with this code, if there is one.
pub fn one_time_type(code: u32) -> Option<&'static OneTimeType> {
    ONE_TIME_TYPES.iter().find(|known| known.code == code)
}

/// The tree type with this code, if there is one.
pub fn tree_type(code: u32) -> Option<&'static TreeType> {
    TREE_TYPES.iter().find(|known| known.code == code)
}

/// Bytes of a signature (RFC 8554, 5.4): q, the one-time signature, a type, the path.
pub fn signature_length(one_time: &OneTimeType, tree: &TreeType) -> usize {
    12 + N * (one_time.p + 1) + N * tree.h as usize
}

/// What a check says, and how many chain steps it took (document 02, W7).
#[derive(Clone, Copy, Debug, PartialEq)]
pub enum Verdict {
    /// With the number of the leaf that has signed (document 02, W5).
    Good {
        leaf: u32,
        steps: u32,
    },
    Bad {
        steps: u32,
    },
    Long,
}

impl Verdict {
    /// The number that the library has for it (document 01, What stops an audit).
    pub fn number(self) -> u8 {
        match self {
            Verdict::Good { .. } => ACCEPTED,
            Verdict::Bad { .. } => SIGNATURE,
            Verdict::Long => LONG_MESSAGE,
        }
    }

    /// The leaf that has signed, if the signature is good.
    pub fn good(self) -> Option<u32> {
        match self {
            Verdict::Good { leaf, .. } => Some(leaf),
            Verdict::Bad { .. } | Verdict::Long => None,
        }
    }

    /// The leaf of a good signature; 0 otherwise.
    pub fn leaf(self) -> u32 {
        self.good().unwrap_or(0)
    }

    /// How often the check called the chain's hash: never for a message that is too long.
    pub fn steps(self) -> u32 {
        match self {
            Verdict::Good { steps, .. } | Verdict::Bad { steps } => steps,
            Verdict::Long => 0,
        }
    }
}

/// Whether the signature is the key's for the message, and by which leaf: RFC 8554, 5.4.2,
/// algorithm 6.
pub fn check(key: &[u8], message: &[u8], signature: &[u8]) -> Verdict {
    if message.len() > MESSAGE_LIMIT {
        return Verdict::Long;
    }
    let Some(Led { leaf, root, steps }) = led_to(key, message, signature) else {
        return Verdict::Bad { steps: 0 };
    };
    // Step 4: the candidate root is the key's.
    match array_at(key, 24) == Some(root) {
        true => Verdict::Good { leaf, steps },
        false => Verdict::Bad { steps },
    }
}

/// The root that a signature leads to, to which the key's root is nothing.
pub fn candidate(key: &[u8], message: &[u8], signature: &[u8]) -> Option<Digest> {
    led_to(key, message, signature).map(|led| led.root)
}

/// What a signature of the right form leads to.
struct Led {
    leaf: u32,
    /// The candidate root.
    root: Digest,
    /// The calls of the chain's hash.
    steps: u32,
}

/// The same algorithm's steps 1 to 3. What is not of the right form leads to nothing, and that is
/// seen before anything is hashed.
fn led_to(key: &[u8], message: &[u8], signature: &[u8]) -> Option<Led> {
    // Steps 1 and 2: the parts of the key, and its exact length.
    let tree = tree_type(u32_at(key, 0)?)?;
    let one_time = one_time_type(u32_at(key, 4)?)?;
    if key.len() != KEY_LENGTH {
        return None;
    }
    let identifier: [u8; 16] = array_at(key, 8)?;
    // Step 3: the candidate root.
    candidate_root(identifier, tree, one_time, message, signature)
}

/// RFC 8554, 5.4.2, algorithm 6a: the root that the signature leads to.
fn candidate_root(
    identifier: [u8; 16],
    tree: &TreeType,
    one_time: &'static OneTimeType,
    message: &[u8],
    signature: &[u8],
) -> Option<Led> {
    // Steps 1 and 2.a to 2.c: the leaf number and the one-time type.
    let q = u32_at(signature, 0)?;
    if u32_at(signature, 4)? != one_time.code {
        return None;
    }
    // Steps 2.d to 2.g: the one-time signature and the tree type.
    let type_at = 8 + N * (one_time.p + 1);
    let one_time_signature = signature.get(4..type_at)?;
    if u32_at(signature, type_at)? != tree.code {
        return None;
    }
    // Step 2.i: the leaf number's bound and the exact length.
    if q >= 1 << tree.h || signature.len() != signature_length(one_time, tree) {
        return None;
    }
    // Step 3: the candidate one-time key.
    let leaf = Leaf { identifier, q };
    let (one_time_key, steps) =
        candidate_one_time_key(&leaf, one_time, message, one_time_signature)?;
    // Step 4: from the leaf to the root.
    let mut node = (1 << tree.h) + q;
    let mut value = leaf_value(&identifier, node, &one_time_key);
    let mut path_at = type_at + 4;
    while node > 1 {
        let sibling: Digest = array_at(signature, path_at)?;
        let odd = node % 2 == 1;
        node /= 2;
        value = match odd {
            true => inner_value(&identifier, node, &sibling, &value),
            false => inner_value(&identifier, node, &value, &sibling),
        };
        path_at += N;
    }
    Some(Led { leaf: q, root: value, steps })
}

/// RFC 8554, 4.6, algorithm 4b: the one-time key that the one-time signature leads to, and the calls
/// of the chain's hash.
fn candidate_one_time_key(
    leaf: &Leaf,
    one_time: &'static OneTimeType,
    message: &[u8],
    signature: &[u8],
) -> Option<(Digest, u32)> {
    // Steps 1 and 2: type, C and y, and the exact length.
    if u32_at(signature, 0)? != one_time.code || signature.len() != 4 + N * (one_time.p + 1) {
        return None;
    }
    let c: Digest = array_at(signature, 4)?;
    // Step 3: each chain from its digit to its end.
    let hash = leaf.message_hash(&c, message);
    let (ends, steps) = leaf.ends(one_time, &hash, &signature[4 + N..])?;
    Some((leaf.one_time_key(&ends), steps))
}

impl OneTimeType {
    /// 2^w - 1, where a chain ends.
    fn largest_digit(&self) -> u32 {
        (1 << self.w) - 1
    }

    /// RFC 8554, 3.1.3: coef(bytes, i, w).
    fn coef(&self, bytes: &[u8], i: usize) -> u32 {
        let (w, i) = (self.w, i as u32);
        let byte = bytes[(i * w / 8) as usize] as u32;
        (byte >> (8 - (w * (i % (8 / w)) + w))) & self.largest_digit()
    }

    /// RFC 8554, 4.4, algorithm 2: the checksum of a message hash.
    fn checksum(&self, hash: &Digest) -> u16 {
        let digits = N * 8 / self.w as usize;
        let sum: u32 = (0..digits).map(|i| self.largest_digit() - self.coef(hash, i)).sum();
        (sum << self.ls) as u16
    }

    /// The p digits of a message hash followed by its checksum.
    fn digits(&self, hash: &Digest) -> Vec<u32> {
        let mut bytes = hash.to_vec();
        bytes.extend(self.checksum(hash).to_be_bytes());
        (0..self.p).map(|i| self.coef(&bytes, i)).collect()
    }
}

/// What every hash of a one-time key begins with: I and q.
struct Leaf {
    identifier: [u8; 16],
    q: u32,
}

impl Leaf {
    /// RFC 8554, 4.5 and 4.6, step Q: the message's hash.
    fn message_hash(&self, c: &Digest, message: &[u8]) -> Digest {
        sha256(&[&self.identifier, &self.q.to_be_bytes(), &D_MESG, c, message])
    }

    /// RFC 8554, 4.6, step 3, outer loop: all chains' ends, from the values y at the hash's digits;
    /// and the calls of the chain's hash.
    fn ends(&self, one_time: &OneTimeType, hash: &Digest, y: &[u8]) -> Option<(Vec<u8>, u32)> {
        let mut ends = Vec::with_capacity(N * one_time.p);
        let mut steps = 0;
        for (i, digit) in one_time.digits(hash).into_iter().enumerate() {
            let (end, called) = self.chain(i, digit, one_time.largest_digit(), array_at(y, N * i)?);
            ends.extend(end);
            steps += called;
        }
        Some((ends, steps))
    }

    /// RFC 8554, 4.3, 4.5 and 4.6, inner loop: chain i from its value at `from` to that at `to`, and
    /// how often the hash was called for it. So a step is counted where it is made, and nothing has
    /// to be said of digits (document 02, W7).
    fn chain(&self, i: usize, from: u32, to: u32, mut value: Digest) -> (Digest, u32) {
        // I, q, i, j and the value.
        let mut bytes = [0; ONE_BLOCK];
        bytes[..16].copy_from_slice(&self.identifier);
        bytes[16..20].copy_from_slice(&self.q.to_be_bytes());
        bytes[20..22].copy_from_slice(&(i as u16).to_be_bytes());
        let mut called = 0;
        for j in from..to {
            bytes[22] = j as u8;
            bytes[23..].copy_from_slice(&value);
            value = sha256_of_one_block(&bytes);
            called += 1;
        }
        (value, called)
    }

    /// RFC 8554, 4.3 and 4.6, step K: the hash of all chains' ends.
    fn one_time_key(&self, ends: &[u8]) -> Digest {
        sha256(&[&self.identifier, &self.q.to_be_bytes(), &D_PBLC, ends])
    }
}

/// RFC 8554, 5.3: the value of a leaf of the tree.
fn leaf_value(identifier: &[u8; 16], node: u32, one_time_key: &Digest) -> Digest {
    sha256(&[identifier, &node.to_be_bytes(), &D_LEAF, one_time_key])
}

/// RFC 8554, 5.3: the value of a node that is no leaf.
fn inner_value(identifier: &[u8; 16], node: u32, left: &Digest, right: &Digest) -> Digest {
    sha256(&[identifier, &node.to_be_bytes(), &D_INTR, left, right])
}

/// RFC 8554, 3.1.2: strTou32 of the four bytes at an offset, if they are there.
fn u32_at(bytes: &[u8], at: usize) -> Option<u32> {
    array_at(bytes, at).map(u32::from_be_bytes)
}

/// The bytes at an offset, if they are there.
fn array_at<const LENGTH: usize>(bytes: &[u8], at: usize) -> Option<[u8; LENGTH]> {
    bytes.get(at..at + LENGTH)?.try_into().ok()
}
