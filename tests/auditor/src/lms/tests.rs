//! The count of chain steps (document 02, W7).

use super::sign::OneTime;
use super::*;

const MESSAGE: &[u8] = b"message";

/// Leaf 3's key and signature of the message.
fn made(one_time: &'static OneTimeType, tree: &TreeType) -> [Vec<u8>; 2] {
    let path = vec![[3; N]; tree.h as usize];
    let private = OneTime::new(one_time, [1; 16], 3, [2; N]);
    let (key, signature) = private.sign_on_path(tree, (1 << tree.h) + 3, &path, &[4; N], MESSAGE);
    [key, signature]
}

/// A message hash with this sum in its checksum.
fn hash_with(one_time: &OneTimeType, mut sum: u32) -> Digest {
    std::array::from_fn(|_| {
        (0..8 / one_time.w).fold(0, |byte, _| {
            let distance = sum.min(one_time.largest_digit());
            sum -= distance;
            byte << one_time.w | (one_time.largest_digit() - distance)
        }) as u8
    })
}

/// Every sum that a checksum can have, or for 8 bits those next to a multiple of 256: the count is
/// that of the digits, for 8 bits that of the paper too, and lies in its bounds.
#[test]
fn every_checksum() {
    let bounds = [(9, 264), (15, 396), (45, 990), (510, 8415)];
    let leaf = Leaf { identifier: [1; 16], q: 3 };
    for (one_time, bounds) in ONE_TIME_TYPES.iter().zip(bounds) {
        let largest_sum = one_time.largest_digit() * 8 * N as u32 / one_time.w;
        let wide = one_time.w == 8;
        let sums = (0..=largest_sum).filter(|sum| !wide || (sum + 1) % 256 < 3);
        let mut counts = Vec::new();
        for sum in sums.chain([largest_sum]) {
            let hash = hash_with(one_time, sum);
            assert_eq!(u32::from(one_time.checksum(&hash) >> one_time.ls), sum);
            let y = vec![5; N * one_time.p];
            let (_, steps) = leaf.ends(one_time, &hash, &y).expect("a value for each chain");
            assert_eq!(steps, distances::of_hash(one_time, &hash), "{one_time:?}, sum {sum}");
            assert!(!wide || steps == 510 + 255 * (sum / 256), "sum {sum}: {steps} steps");
            assert!(steps <= one_time.p as u32 * one_time.largest_digit());
            counts.push(steps);
        }
        assert_eq!((counts.iter().min(), counts.iter().max()), (Some(&bounds.0), Some(&bounds.1)));
    }
}

/// Of the right form: the full count for a good signature, and for one that is bad by its root.
#[test]
fn right_form() {
    type Spoil = fn(&mut Vec<u8>, &mut Vec<u8>, &mut Vec<u8>);
    let spoils: [Spoil; 8] = [
        |_, message, _| message[0] ^= 1,
        |key, _, _| key[8] ^= 1,                 // I
        |key, _, _| key[KEY_LENGTH - 1] ^= 1,    // the root
        |_, _, signature| signature[3] ^= 1,     // another leaf of the tree
        |_, _, signature| signature[8] ^= 1,     // C
        |_, _, signature| signature[8 + N] ^= 1, // the first chain
        |_, _, signature| *signature.last_mut().expect("a path") ^= 1,
        |_, message, _| message.resize(MESSAGE_LIMIT, 0),
    ];
    for one_time in &ONE_TIME_TYPES {
        for tree in &TREE_TYPES {
            let [key, signature] = made(one_time, tree);
            let steps = distances::steps(one_time, &key, MESSAGE, &signature);
            assert_eq!(check(&key, MESSAGE, &signature), Verdict::Good { leaf: 3, steps });
            // The longest message, which is the last, for one height only.
            for spoil in spoils.iter().take(if tree.h == 5 { 8 } else { 7 }) {
                let (mut key, mut message) = (key.clone(), MESSAGE.to_vec());
                let mut signature = signature.clone();
                spoil(&mut key, &mut message, &mut signature);
                let steps = distances::steps(one_time, &key, &message, &signature);
                assert_eq!(check(&key, &message, &signature), Verdict::Bad { steps });
            }
        }
    }
}

/// Not of the right form, by one thing each: no step is made.
#[test]
fn wrong_form() {
    for one_time in &ONE_TIME_TYPES {
        for tree in &TREE_TYPES {
            let [key, signature] = made(one_time, tree);
            let no_steps = |key: &[u8], signature: &[u8]| {
                assert_eq!(check(key, MESSAGE, signature), Verdict::Bad { steps: 0 });
            };
            let longer = |bytes: &[u8]| [bytes, &[0]].concat();
            for key in [&[][..], &key[..KEY_LENGTH - 1], &longer(&key)] {
                no_steps(key, &signature);
            }
            for signature in [&[][..], &signature[..signature.len() - 1], &longer(&signature)] {
                no_steps(&key, signature);
            }
            for q in [1 << tree.h, u32::MAX] {
                no_steps(&key, &with(&signature, 0, q));
            }
            let type_at = 8 + N * (one_time.p + 1);
            for (key_at, signature_at, right) in [(4, 4, one_time.code), (0, type_at, tree.code)] {
                for code in (0..12).chain([u32::MAX]).filter(|code| *code != right) {
                    let other_key = with(&key, key_at, code);
                    let other_signature = with(&signature, signature_at, code);
                    no_steps(&other_key, &signature);
                    no_steps(&key, &other_signature);
                    // Where the code is a known one, by the length that goes with it.
                    no_steps(&other_key, &other_signature);
                }
            }
        }
    }
}

/// The bytes with another number in them.
fn with(bytes: &[u8], at: usize, number: u32) -> Vec<u8> {
    let mut other = bytes.to_vec();
    other[at..at + 4].copy_from_slice(&number.to_be_bytes());
    other
}

/// Beside number 16 there are no steps, whatever the rest is.
#[test]
fn too_long() {
    let message = vec![0; MESSAGE_LIMIT + 1];
    for one_time in &ONE_TIME_TYPES {
        let [key, signature] = made(one_time, &TREE_TYPES[0]);
        for (key, signature) in [(&key[..], &signature[..]), (&key, &[]), (&[], &signature)] {
            let verdict = check(key, &message, signature);
            assert_eq!((verdict, verdict.steps()), (Verdict::Long, 0));
        }
    }
}
