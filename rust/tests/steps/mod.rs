//! The chain steps of a signature (RFC 8554), counted without the library.

use std::io::Write;
use std::process::{Command, Stdio};

/// The steps under a key of one-time type 4, by document 02 (W7): 510 plus 255 for each whole 256
/// in the checksum of the message's hash.
pub fn steps(key: &[u8], message: &[u8], signature: &[u8]) -> u32 {
    let (identifier, leaf, random) = (&key[8..24], &signature[..4], &signature[8..40]);
    let hash = digest(&[identifier, leaf, &[0x81, 0x81], random, message]);
    let checksum: u32 = hash.iter().map(|&byte| 255 - u32::from(byte)).sum();
    510 + 255 * (checksum / 256)
}

/// SHA-256 by sha256sum, which has no longest message.
fn digest(parts: &[&[u8]]) -> [u8; 32] {
    let mut command = Command::new("sha256sum");
    let mut child =
        command.stdin(Stdio::piped()).stdout(Stdio::piped()).spawn().expect("sha256sum");
    let mut input = child.stdin.take().expect("its input");
    for part in parts {
        input.write_all(part).expect("read by it");
    }
    drop(input);
    let line = child.wait_with_output().expect("its line").stdout;
    let text = std::str::from_utf8(&line[..64]).expect("hex digits");
    std::array::from_fn(|at| u8::from_str_radix(&text[2 * at..][..2], 16).expect("hex digits"))
}
