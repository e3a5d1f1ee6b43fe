//! Rosters: numbers 2 to 4 in every way and place.

use super::{empty, Cases, Expect};
use crate::cluster::Cluster;
use crate::roster::{HEAD_SIZE, KEY_SIZE};

impl Cases<'_> {
    pub fn rosters(&mut self) {
        self.roster_sizes();
        for n in [3, 4, 9] {
            self.key_types(n);
            self.duplicate_keys(n);
        }
        for tree in 5..=9 {
            let cluster = self.cluster(3, tree);
            self.roster("every tree type", &cluster, &cluster.roster(), 0);
        }
    }

    fn roster(&mut self, name: &str, cluster: &Cluster, roster: &[u8], number: u8) {
        let submission = empty(cluster).bytes();
        self.case(name, roster, &submission, &submission, Expect::Number(number, 0));
    }

    /// Number 2: lengths, and what n may be.
    fn roster_sizes(&mut self) {
        let nine = self.cluster(9, 5);
        let mut long = nine.roster();
        long.extend(self.random.bytes(3 * KEY_SIZE));
        let right = HEAD_SIZE + 9 * KEY_SIZE;
        let mut lengths: Vec<usize> = (0..=20).chain([73, 74, 75, right - 1, right + 1]).collect();
        lengths.extend((0..12).map(|n| HEAD_SIZE + n * KEY_SIZE).filter(|length| *length != right));
        for length in self.some(lengths, 5) {
            self.roster(&format!("nine keys, {length} bytes"), &nine, &long[..length], 2);
        }
        // n's two bytes, with the length that goes with the lower one.
        let numbers: Vec<u16> = vec![0, 1, 2, 10, 11, 12, 0x0103, 0x0300, 0x0309, 0x8003, 0xffff];
        for n in self.some(numbers, 4) {
            let mut roster = long[..HEAD_SIZE + (n as usize % 256).min(12) * KEY_SIZE].to_vec();
            roster[16..18].copy_from_slice(&n.to_be_bytes());
            self.roster(&format!("n = {n}"), &nine, &roster, 2);
        }
        for n in 3..=9 {
            let cluster = self.cluster(n, 5);
            let roster = cluster.roster();
            self.roster(&format!("n = {n}"), &cluster, &roster, 0);
            for other in (0..=10).filter(|other| *other != n) {
                let mut roster = roster.clone();
                roster[17] = other as u8;
                self.roster(&format!("{n} keys, n = {other}"), &cluster, &roster, 2);
            }
        }
    }

    /// Number 3: each type of each key.
    fn key_types(&mut self, n: usize) {
        let cluster = self.cluster(n, 5);
        let mut values: Vec<u32> = (0..=11).collect();
        values.extend([0x100 + 4, 0x100 + 5, 0x0400_0000, 0x0500_0000, 1 << 31, u32::MAX]);
        let mut changes = Vec::new();
        for k in 0..n {
            for (field, right) in [(0, 5), (4, 4)] {
                changes
                    .extend(values.iter().filter(|v| **v != right).map(|value| (k, field, *value)));
            }
        }
        for (k, field, value) in self.some(changes, 6) {
            let mut roster = cluster.roster();
            let at = HEAD_SIZE + k * KEY_SIZE + field;
            roster[at..at + 4].copy_from_slice(&value.to_be_bytes());
            self.roster(&format!("key {} type {value} at {field}", k + 1), &cluster, &roster, 3);
        }
        // All keys of a type that is not allowed, and all of another that is.
        for (field, value, number) in
            [(0, 4, 3), (0, 10, 3), (0, 6, 0), (0, 9, 0), (4, 3, 3), (4, 5, 3), (4, 0, 3)]
        {
            let mut roster = cluster.roster();
            for k in 0..n {
                roster[HEAD_SIZE + k * KEY_SIZE + field + 3] = value;
            }
            self.roster(&format!("all types {value} at {field}"), &cluster, &roster, number);
        }
    }

    /// Number 4: each two keys equal; but for one byte they are no duplicates.
    fn duplicate_keys(&mut self, n: usize) {
        let cluster = self.cluster(n, 5);
        let mut two = Vec::new();
        for a in 0..n {
            two.extend((a + 1..n).map(|b| (a, b)));
        }
        for (a, b) in self.some(two, 3) {
            let mut roster = cluster.roster();
            let key = |k: usize| HEAD_SIZE + k * KEY_SIZE..HEAD_SIZE + (k + 1) * KEY_SIZE;
            roster.copy_within(key(a), key(b).start);
            self.roster(&format!("keys {} and {} equal", a + 1, b + 1), &cluster, &roster, 4);
            for at in [8, 23, 24, 55] {
                let mut almost = roster.clone();
                almost[key(b).start + at] ^= 1 << self.random.below(8);
                let name = format!("keys {} and {} equal but byte {at}", a + 1, b + 1);
                self.roster(&name, &cluster, &almost, 0);
            }
            // A type comes before a duplicate.
            roster[key(n - 1).start + 3] = 6;
            self.roster("duplicate keys and another tree type", &cluster, &roster, 3);
        }
    }
}
