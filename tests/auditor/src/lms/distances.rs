//! The chain steps of a check as they follow from the digits, each by its distance to the largest
//! one: no chain is gone through. The check counts its calls of the hash instead (document 02, W7),
//! and tests hold the one to the other.

use super::{OneTimeType, D_MESG, N};
use crate::sha256::{sha256, Digest};

/// The steps for a key and a signature of the right form, by their fields as they stand.
pub fn steps(one_time: &OneTimeType, key: &[u8], message: &[u8], signature: &[u8]) -> u32 {
    // RFC 8554, 4.6, step 3: Q of I, q, D_MESG, C and the message.
    of_hash(
        one_time,
        &sha256(&[&key[8..24], &signature[..4], &D_MESG, &signature[8..8 + N], message]),
    )
}

/// The steps for a message hash.
pub fn of_hash(one_time: &OneTimeType, hash: &Digest) -> u32 {
    let in_a_byte = 8 / one_time.w as usize;
    let of_message: u32 =
        hash.iter().map(|byte| distances(one_time, in_a_byte, u32::from(*byte))).sum();
    // RFC 8554, 4.4: this sum is the checksum. What chains are left have its digits, to the last:
    // the shift by ls does no more than put them where coef looks for them.
    of_message + distances(one_time, one_time.p - in_a_byte * N, of_message)
}

/// The sum of the distances to 2^w - 1 of a number's digits, of which there are so many.
fn distances(one_time: &OneTimeType, digits: usize, mut number: u32) -> u32 {
    let base = 1 << one_time.w;
    let mut sum = 0;
    for _ in 0..digits {
        sum += base - 1 - number % base;
        number /= base;
    }
    assert_eq!(number, 0, "digits are left over");
    sum
}
