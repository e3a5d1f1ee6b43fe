//! Accepted submissions at the edges: all heights and sizes, largest terms, most terms and records.

use super::{empty, whole, Cases, Expect, Size};
use crate::build::{log, Draft};
use crate::district::shuffle;
use crate::random::Random;
use crate::roster::mask_of;
use crate::sha256::sha256;
use crate::signer::Signer;
use crate::statement::Record;

/// As many leaves as a replica of nine needs for two large submissions: with five signers of nine
/// 36 votes, 9 stamps and 2 receipts.
pub const LARGE_LEAVES: u32 = 47;

/// As many as it needs for the largest: 64 votes, 8 stamps and a receipt.
pub const LARGEST_LEAVES: u32 = 73;

/// Two large submissions of one cluster: 64 terms, 4,096 and 4,095 records, that part at the
/// last record but one.
pub fn large(signer: &Signer) -> (Draft, Draft) {
    let n = signer.n() as u16;
    let q = signer.quorum() as u16;
    let turned = |by: u16| mask_of(&(0..q).map(|i| (i + by) % n + 1).collect::<Vec<_>>());
    let records: Vec<Record> = (0..4096u32)
        .map(|i| Record { term: 1 + i / 64, payload: sha256(&[&i.to_be_bytes()]) })
        .collect();
    let leaders: Vec<(u16, u16)> = (0..64).map(|i| (i % n + 1, turned(i))).collect();
    let mut other = records[..4095].to_vec();
    other[4094].payload[0] ^= 1;
    let first = signer.submission(&records, &leaders, Some((4096, turned(1))));
    let second = signer.submission(&other, &leaders, Some((4095, turned(2))));
    (first, second)
}

/// A log of 4,096 records and 64 terms, up to the largest.
pub fn largest_log() -> Vec<Record> {
    (0..4096u32)
        .map(|i| Record { term: u32::MAX - 63 + i / 64, payload: sha256(&[&i.to_be_bytes()]) })
        .collect()
}

/// The largest submission that is accepted, of nine replicas with trees of height 25: 64 terms,
/// 4,096 records, and everybody signs.
pub fn largest(signer: &Signer) -> Draft {
    let (all, records) = (signer.all(), largest_log());
    let leaders: Vec<(u16, u16)> = (0..64).map(|i| (i % signer.n() as u16 + 1, all)).collect();
    signer.submission(&records, &leaders, Some((4096, all)))
}

impl Cases<'_> {
    pub fn accepted(&mut self) {
        let every: Vec<(usize, u32)> = vec![
            (3, 5),
            (3, 6),
            (3, 7),
            (3, 8),
            (3, 9),
            (4, 5),
            (5, 5),
            (6, 5),
            (7, 5),
            (8, 5),
            (9, 5),
        ];
        for (n, tree) in self.some(every, 3) {
            let signer = self.signer(n, tree);
            let draft = whole(&signer);
            self.lines("the same twice", &signer, &draft, &draft, "fork 0\n");
            let none = empty(&signer);
            self.lines("beside an empty one", &signer, &draft, &none, "fork 0\n");
            self.lines("after an empty one", &signer, &none, &draft, "fork 0\n");
            // Every replica signs, and every replica leads.
            for candidate in [1, n as u16] {
                let records = log(&[(5, "a")]);
                let all = signer.all();
                let draft = signer.submission(&records, &[(candidate, all)], Some((1, all)));
                self.lines("all sign", &signer, &draft, &draft, "fork 0\n");
            }
        }
        self.largest_terms();
        self.every_quorum();
        if self.size == Size::Full {
            let signer = Signer::new(&self.keys.cluster_with(9, LARGE_LEAVES));
            let (first, second) = large(&signer);
            // The two differ in term 64, which replica 63 % 9 + 1 leads.
            let rest = "fork 4095\nboard 1 rule 2 term 64\n";
            self.lines("large", &signer, &first, &second, rest);
            let signer = Signer::new(&self.keys.cluster_from_0(9, 9, LARGEST_LEAVES));
            let (draft, none) = (largest(&signer), empty(&signer));
            self.lines("the largest", &signer, &none, &draft, "fork 0\n");
        }
    }

    /// Terms of 2^32 - 1, charged by each rule.
    fn largest_terms(&mut self) {
        let signer = self.signer(3, 5);
        let most = u32::MAX;
        let one = |term, payload, leader, commit| {
            signer.submission(&log(&[(term, payload)]), &[leader], commit)
        };
        let a = one(most, "a", (1, 0b011), Some((1, 0b011)));
        let b = one(most, "b", (1, 0b101), Some((1, 0b101)));
        let c = one(most, "b", (3, 0b110), Some((1, 0b110)));
        let d = one(most - 1, "a", (1, 0b011), Some((1, 0b110)));
        let rest = format!("fork 1\nboard 1 rule 2 term {most}\n");
        self.lines("largest term, rule 2", &signer, &a, &b, &rest);
        let rest = format!("fork 1\nboard 2 rule 1 term {most}\n");
        self.lines("largest term, rule 1", &signer, &a, &c, &rest);
        let rest = format!("fork 1\nboard 2 rule 3 term {most}\nboard 3 rule 3 term {most}\n");
        self.lines("largest term, rule 3", &signer, &d, &c, &rest);
        let rest = format!("fork 1\nboard 2 rule 4 term {most}\nboard 3 rule 4 term {most}\n");
        self.lines("largest term, rule 4", &signer, &c, &d, &rest);
    }

    /// Each set of signers that may stand under a certificate of four or five replicas.
    fn every_quorum(&mut self) {
        for n in [4, 5] {
            let signer = self.signer(n, 5);
            let masks: Vec<u16> = (0..1 << n)
                .filter(|mask: &u16| mask.count_ones() as usize >= signer.quorum())
                .collect();
            let mut random = Random::new(self.random.word());
            for mask in self.some(masks, 2) {
                let mut signers = crate::roster::replicas_of(mask);
                shuffle(&mut signers, &mut random);
                let draft =
                    signer.submission(&log(&[(1, "a")]), &[(signers[0], mask)], Some((1, mask)));
                let none = empty(&signer);
                self.case(
                    &format!("signers {mask:09b}"),
                    &signer.roster(),
                    &none.bytes(),
                    &draft.bytes(),
                    Expect::Number(0, 0),
                );
            }
        }
    }
}
