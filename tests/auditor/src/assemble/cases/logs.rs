//! Numbers 8 and 11: how long a log is, how many terms it has, and their order.

use super::scene::Scene;
use super::{log_of, Cases, Expect, Size, ANY_OUTPUT};
use crate::build::log_bytes;
use crate::signer::Signer;
use crate::submission::{MOST_RECORDS, MOST_TERMS, RECORD_SIZE};

/// As many leaves as a replica needs for 64 terms: votes, stamps and a receipt.
const MANY_LEAVES: u32 = 129;

impl Cases<'_> {
    pub fn logs(&mut self) {
        self.log_lengths();
        self.term_counts();
        self.record_counts();
        self.term_orders();
    }

    /// A log of these bytes with no items is refused so.
    fn log(&mut self, name: &str, signer: &Signer, log: &[u8], number: u8) {
        let output = ANY_OUTPUT[self.random.below(ANY_OUTPUT.len())];
        self.call(name, (&signer.roster(), log, &[]), output, Expect::Refused(number));
    }

    /// Every length up to some records: whole records have no leader, others are no log.
    fn log_lengths(&mut self) {
        let signer = self.signer(3);
        let log = log_bytes(&log_of(&[1, 1, 2, 2, 2]));
        for length in self.some((1..=log.len()).collect(), 20) {
            let number = if length % RECORD_SIZE == 0 { 20 } else { 8 };
            self.log(&format!("a log of {length} bytes"), &signer, &log[..length], number);
        }
        // All that follows is right, and stays so with a byte more or less.
        for n in [3, 9] {
            let signer = self.signer(n);
            for terms in [&[1][..], &[1, 2], &[2, 2, 2, 5]] {
                let (scene, leaders) = self.elected(&signer, terms);
                self.writes("a log of whole records", &scene, &leaders, None);
                let (roster, items) = (signer.roster(), scene.bytes());
                let mut log = log_bytes(&scene.records);
                log.push(0);
                for length in [log.len() - 2, log.len()] {
                    let name = format!("a right log of {length} bytes");
                    let parts = (&roster[..], &log[..length], &items[..]);
                    self.call(&name, parts, 40_000, Expect::Refused(8));
                }
            }
        }
    }

    /// A log of these terms, each with its leader, replica 1, 2, .. in turn, and its first quorum.
    fn elected(&self, signer: &Signer, terms: &[u32]) -> (Scene, Vec<(u16, u16)>) {
        let mut scene = Scene::new(signer, &log_of(terms));
        let q = signer.first_quorum();
        let count = crate::build::ends(&scene.records).len();
        let leaders: Vec<(u16, u16)> =
            (0..count).map(|i| (1 + i as u16 % q.count_ones() as u16, q)).collect();
        for (i, (candidate, voters)) in leaders.iter().enumerate() {
            scene.elect(i, *candidate, *voters);
        }
        (scene, leaders)
    }

    /// 64 terms, and 65: counted as a set.
    fn term_counts(&mut self) {
        let most = MOST_TERMS;
        let signer = self.signer(3);
        for (name, terms) in [
            ("65 terms", (1..=most + 1).collect::<Vec<u32>>()),
            ("65 terms, two records each", (2..2 * most + 4).map(|i| i / 2).collect()),
            ("terms 0 to 64", (0..=most).collect()),
            ("65 terms, falling", (1..=most + 1).rev().collect()),
            ("65 terms up to the largest", (u32::MAX - most..=u32::MAX).collect()),
            ("4,096 terms", (1..=MOST_RECORDS).collect()),
        ] {
            self.log(name, &signer, &log_bytes(&log_of(&terms)), 8);
        }
        let two_by_turns = |count: u32| (0..count).map(|i| 1 + i % 2).collect::<Vec<u32>>();
        for (name, terms) in [
            ("two terms by turns", two_by_turns(200)),
            ("two terms by turns, all records", two_by_turns(MOST_RECORDS)),
            ("64 terms twice", (0..2 * most).map(|i| 1 + i % most).collect()),
            ("terms 0 to 63", (0..most).collect()),
            ("64 terms, falling", (1..=most).rev().collect()),
        ] {
            self.log(name, &signer, &log_bytes(&log_of(&terms)), 11);
        }
        self.log("64 terms", &signer, &log_bytes(&log_of(&(1..=most).collect::<Vec<_>>())), 20);
        if self.size == Size::Full {
            let signer = Signer::new(&self.keys.cluster_with(3, MANY_LEAVES));
            let (scene, leaders) = self.elected(&signer, &(1..=most).collect::<Vec<_>>());
            self.writes("64 terms, each with its leader", &scene, &leaders, None);
            let mut scene = scene;
            scene.bag.pop();
            self.refuses("64 terms, the last without a stamp", &scene, 20);
        }
    }

    /// 4,096 records, and more.
    fn record_counts(&mut self) {
        let most = MOST_RECORDS as usize;
        let signer = self.signer(3);
        let log = log_bytes(&log_of(&vec![7; most + 2]));
        for (length, number) in [
            (RECORD_SIZE * most - 1, 8),
            (RECORD_SIZE * most, 20),
            (RECORD_SIZE * most + 1, 8),
            (RECORD_SIZE * (most + 1), 8),
            (RECORD_SIZE * (most + 2), 8),
        ] {
            self.log(&format!("{length} bytes of term 7"), &signer, &log[..length], number);
        }
        for length in [most - 1, most] {
            let mut scene = Scene::new(&signer, &log_of(&vec![7; length]));
            scene.elect(0, 2, 0b110);
            scene.add(0b101, &scene.receipt(length));
            let name = format!("{length} records of one term");
            self.writes(&name, &scene, &[(2, 0b110)], Some((length as u32, 0b101)));
        }
        // So many records that their number in 16 bits is small again; no record is looked at first.
        for records in self.some(vec![1 << 16, (1 << 16) + 1], 1) {
            self.log(&format!("{records} records"), &signer, &vec![1; RECORD_SIZE * records], 8);
        }
    }

    /// A term that is 0 or below the one before, in each place; and terms that are right.
    fn term_orders(&mut self) {
        let signer = self.signer(3);
        let right = [1, 1, 2, 5, 5, 9];
        let mut logs = Vec::new();
        for at in 0..right.len() {
            for term in [0, 1, 4, 8, 1 << 8, 1 << 31, u32::MAX] {
                let mut terms = right.to_vec();
                terms[at] = term;
                logs.push(terms);
            }
        }
        logs.extend([
            vec![0],
            vec![0, 0],
            vec![0, 1],
            vec![2, 1],
            vec![256, 255],
            vec![u32::MAX, 1],
        ]);
        for terms in self.some(logs, 12) {
            let falls = terms.windows(2).any(|two| two[1] < two[0]) || terms.contains(&0);
            let number = if falls { 11 } else { 20 };
            self.log(&format!("terms {terms:?}"), &signer, &log_bytes(&log_of(&terms)), number);
        }
        for terms in [&[1, 1 << 8, 1 << 16, 1 << 24][..], &[u32::MAX - 1, u32::MAX], &[u32::MAX]] {
            let (scene, leaders) = self.elected(&signer, terms);
            self.writes(&format!("terms {terms:?}"), &scene, &leaders, None);
        }
    }
}
