//! Clusters of every size and tree type, and rosters that are refused.

use super::scene::Scene;
use super::{Cases, Expect};
use crate::build::{log, log_bytes};
use crate::cases::whole;
use crate::roster::{HEAD_SIZE, KEY_SIZE, MOST};

impl Cases<'_> {
    pub fn sizes(&mut self) {
        let mut every: Vec<(usize, u32)> = (3..=MOST).map(|n| (n, 5)).collect();
        every.extend([(3, 6), (3, 7), (3, 8), (3, 9), (4, 6), (5, 7), (7, 8), (9, 9)]);
        for (n, tree) in self.some(every, 6) {
            let signer = self.signer_of(n, tree);
            let draft = whole(&signer);
            let name = format!("{n} replicas, tree type {tree}");
            self.writes_draft(&name, &Scene::of(&signer, &draft), &draft);
            // Every replica signs, and leads.
            for candidate in [1, n as u16] {
                let (records, all) = (log(&[(5, "a")]), signer.all());
                let draft = signer.submission(&records, &[(candidate, all)], Some((1, all)));
                self.writes_draft(&format!("{name}, all"), &Scene::of(&signer, &draft), &draft);
            }
        }
        self.rosters();
    }

    /// Rosters that are refused, with all the rest right.
    fn rosters(&mut self) {
        for n in [3, 9] {
            let signer = self.signer(n);
            let draft = whole(&signer);
            let (log, items) = (log_bytes(&draft.records), Scene::of(&signer, &draft).bytes());
            let right = signer.roster();
            let mut rosters = Vec::new();
            for length in [0, 1, 17, 18, right.len() - 1, right.len() - KEY_SIZE] {
                rosters.push((2, right[..length].to_vec()));
            }
            rosters.push((2, [&right[..], &[0]].concat()));
            for replicas in [0, 2, 10, 0x0103, 0x0300] {
                let mut roster = right.clone();
                roster[16..18].copy_from_slice(&u16::to_be_bytes(replicas));
                rosters.push((2, roster));
            }
            for key in [0, n - 1] {
                for (field, value) in [(3, 4), (3, 6), (3, 10), (7, 3), (7, 5), (0, 1)] {
                    let mut roster = right.clone();
                    roster[HEAD_SIZE + KEY_SIZE * key + field] = value;
                    rosters.push((3, roster));
                }
                let mut roster = right.clone();
                let from = HEAD_SIZE + KEY_SIZE * (n - 1 - key);
                roster.copy_within(from..from + KEY_SIZE, HEAD_SIZE + KEY_SIZE * (n / 2));
                rosters.push((4, roster));
            }
            for (number, roster) in self.some(rosters, 6) {
                let name = format!("a roster of {} bytes with number {number}", roster.len());
                self.call(&name, (&roster, &log, &items), 40_000, Expect::Refused(number));
            }
        }
    }
}
