//! Document 01, The roster: cluster name, n, and n public keys; numbers 2 to 4.

use crate::bytes::{array_at, u16_at, u32_at};
use crate::numbers::{DUPLICATE_KEY, KEY_TYPE, ROSTER_SIZE};

/// The name of a cluster.
pub type Name = [u8; 16];

/// Bytes of a public key.
pub const KEY_SIZE: usize = 56;

/// Bytes before the first key.
pub const HEAD_SIZE: usize = 18;

/// The most replicas (document 01's boards).
pub const MOST: usize = 9;

/// A roster that is not refused.
#[derive(Debug)]
pub struct Roster {
    pub name: Name,
    /// Replica k's key is the k-th.
    pub keys: Vec<Vec<u8>>,
    /// The height of every key's tree.
    pub height: usize,
}

impl Roster {
    /// The roster, or number 2, 3 or 4.
    pub fn read(bytes: &[u8]) -> Result<Roster, u8> {
        if bytes.len() < HEAD_SIZE {
            return Err(ROSTER_SIZE);
        }
        let n = u16_at(bytes, 16) as usize;
        if !(3..=MOST).contains(&n) || bytes.len() != HEAD_SIZE + KEY_SIZE * n {
            return Err(ROSTER_SIZE);
        }
        let keys: Vec<Vec<u8>> =
            (0..n).map(|k| bytes[HEAD_SIZE + KEY_SIZE * k..][..KEY_SIZE].to_vec()).collect();
        let tree_type = u32_at(&keys[0], 0);
        let height = match tree_type {
            5 => 5,
            6 => 10,
            7 => 15,
            8 => 20,
            9 => 25,
            _ => return Err(KEY_TYPE),
        };
        for key in &keys {
            if u32_at(key, 0) != tree_type || u32_at(key, 4) != 4 {
                return Err(KEY_TYPE);
            }
        }
        for a in 0..n {
            for b in a + 1..n {
                if keys[a] == keys[b] {
                    return Err(DUPLICATE_KEY);
                }
            }
        }
        Ok(Roster { name: array_at(bytes, 0), keys, height })
    }

    /// The number of replicas.
    pub fn n(&self) -> usize {
        self.keys.len()
    }

    /// The size of a quorum: n - f, where f is (n - 1) / 2 rounded down.
    pub fn quorum(&self) -> usize {
        quorum(self.n())
    }

    /// S: the bytes of a signature.
    pub fn signature_size(&self) -> usize {
        signature_size(self.height)
    }

    /// Replica k's key.
    pub fn key(&self, replica: u16) -> &[u8] {
        &self.keys[replica as usize - 1]
    }
}

/// q for n replicas.
pub fn quorum(n: usize) -> usize {
    n - (n - 1) / 2
}

/// S for trees of this height.
pub const fn signature_size(height: usize) -> usize {
    1132 + 32 * height
}

/// The replicas whose bits are set, rising: bit k - 1, counted from the lowest, is replica k.
pub fn replicas_of(mask: u16) -> Vec<u16> {
    (1..=16).filter(|k| mask >> (k - 1) & 1 == 1).collect()
}

/// The mask with the bits of these replicas.
pub fn mask_of(replicas: &[u16]) -> u16 {
    replicas.iter().fold(0, |mask, k| mask | 1 << (k - 1))
}

#[cfg(test)]
mod tests {
    use super::*;

    /// Document 01, Bench figures: q for n = 3, 4 and 9; S for heights 5 and 25.
    #[test]
    fn worked_examples() {
        assert_eq!([3, 4, 9].map(quorum), [2, 3, 5]);
        assert_eq!([5, 25].map(signature_size), [1292, 1932]);
    }

    /// Any two quorums have a replica in common.
    #[test]
    fn quorums_meet() {
        for n in 3..=MOST {
            assert!(2 * quorum(n) > n && 2 * (quorum(n) - 1) <= n);
        }
    }

    #[test]
    fn masks() {
        assert_eq!(replicas_of(0b1000_0000_0000_0101), [1, 3, 16]);
        for mask in 0..=u16::MAX {
            assert_eq!(mask_of(&replicas_of(mask)), mask);
        }
    }
}
