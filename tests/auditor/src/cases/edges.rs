//! Every field of a submission at its edges, the rest as it was.

use super::change::laid_out;
use super::{Cases, Expect};
use crate::build::Draft;
use crate::bytes::{u16_at, u32_at};

impl Cases<'_> {
    pub fn edges(&mut self) {
        let signer = self.signer(3, 5);
        let s = signer.signature_size() as u32;
        for (base, draft) in laid_out(&signer) {
            let bytes = draft.bytes();
            let mut changes = Vec::new();
            for (what, at, size) in fields(&draft) {
                let right = if size == 2 { u16_at(&bytes, at).into() } else { u32_at(&bytes, at) };
                for value in values(right, size, s, bytes.len() as u32) {
                    changes.push((what.clone(), at, size, value));
                }
            }
            for (what, at, size, value) in self.some(changes, 12) {
                let mut other = bytes.clone();
                let value_bytes = value.to_be_bytes();
                other[at..at + size].copy_from_slice(&value_bytes[4 - size..]);
                let place = 1 + self.random.below(2) as u8;
                let name = format!("{base}, {what} is {value}");
                self.once(&name, &signer, &other, place, Expect::Refused);
            }
        }
    }
}

/// Name, offset and size of each field that is a number.
fn fields(draft: &Draft) -> Vec<(String, usize, usize)> {
    let mut fields = Vec::new();
    for i in 0..draft.records.len() {
        fields.push((format!("record {}'s term", i + 1), 36 * i, 4));
    }
    let mut at = 36 * draft.records.len();
    for (i, leader) in draft.leaders.iter().enumerate() {
        for (what, offset, size) in [
            ("candidate", 0, 2),
            ("term", 2, 4),
            ("last term", 6, 4),
            ("last index", 10, 4),
            ("signers", 46, 2),
        ] {
            fields.push((format!("leader {}'s {what}", i + 1), at + offset, size));
        }
        at += 48 + leader.signatures.concat().len();
    }
    at += draft.stamps.concat().len();
    if let Some(commit) = &draft.commit {
        fields.push(("commit index".into(), at, 4));
        fields.push(("commit signers".into(), at + 4, 2));
        at += 6 + commit.signatures.concat().len();
    }
    for (i, what) in ["H", "L", "d1", "d2", "d3", "d4", "version"].iter().enumerate() {
        fields.push((what.to_string(), at + 16 + 4 * i, 4));
    }
    fields
}

/// Values at the edges of the field and around those that mean something, but the right one.
fn values(right: u32, size: usize, s: u32, length: u32) -> Vec<u32> {
    let mut values = vec![0, 1, 2, 3, 4, 5, 6, 7, 8, 9, 15, 16, 17, 35, 36, 37, 43, 44, 45];
    values.extend([48, 63, 64, 65, 255, 256, 257, 4095, 4096, 4097, 65535, 65536]);
    values.extend([s - 1, s, s + 1, length - 44, length - 43, length]);
    values.push((length - 44).wrapping_sub(1));
    values.extend([right.wrapping_add(1), right.wrapping_sub(1), !right, right << 8]);
    values.extend((0..8 * size as u32).map(|bit| right ^ 1 << bit));
    values.extend([(1 << 31) - 1, 1 << 31, (1 << 31) + 1, u32::MAX - 1, u32::MAX]);
    values.retain(|value| size == 4 || *value <= u16::MAX.into());
    values.sort();
    values.dedup();
    values.retain(|value| *value != right);
    values
}
