//! Drawn pairs that break no rule but the fifth: a log and one that goes on from it, in which some
//! signatures are by drawn leaves. What is right is counted from the leaves that were drawn.

use super::places::{leaf, message, places, sign};
use crate::build::Draft;
use crate::cases::Cases;
use crate::cluster::FEW_LEAVES;
use crate::roster::{mask_of, replicas_of};
use crate::signer::Signer;
use crate::statement::Record;
use std::collections::{BTreeMap, BTreeSet};

impl Cases<'_> {
    pub fn drawn_leaves(&mut self) {
        for round in 0..self.count(200) {
            let n = [3, 3, 4, 5, 9][self.random.below(5)];
            let signer = self.signer(n, 5);
            let mut two = self.one_log(&signer);
            for _ in 0..self.random.below(2 * n) {
                self.drawn_leaf(&signer, &mut two);
            }
            let rest = rows(&mut two, n as u16);
            self.leaves_of(&format!("drawn pair {round} of {n}"), &signer, &two, &rest);
        }
    }

    /// Two submissions, of a log and of what it goes on to, each term with one leader in both; and
    /// receipts for any record, or none. A vote in a later term than a record's is for a log that
    /// has it, so that no vote is stale.
    fn one_log(&mut self, signer: &Signer) -> [Draft; 2] {
        let mut records: Vec<Record> = Vec::new();
        let mut term = 1;
        for _ in 0..2 + self.random.below(3) {
            records.push(Record { term, payload: self.random.array() });
            term += [0, 0, 1, 2][self.random.below(4)];
        }
        let leaders: Vec<u16> =
            records.iter().map(|_| 1 + self.random.below(signer.n()) as u16).collect();
        let lengths = [1 + self.random.below(records.len()), records.len()];
        lengths.map(|length| {
            let log = &records[..length];
            let terms = log.iter().map(|record| record.term).collect::<BTreeSet<_>>().len();
            let elected: Vec<(u16, u16)> = leaders[..terms]
                .iter()
                .map(|leader| (*leader, self.some_quorum(signer) | mask_of(&[*leader])))
                .collect();
            let commit = match self.random.below(4) {
                0 => None,
                _ => Some((1 + self.random.below(length) as u32, self.some_quorum(signer))),
            };
            signer.submission(log, &elected, commit)
        })
    }

    /// One of the signatures again, by any leaf.
    fn drawn_leaf(&mut self, signer: &Signer, two: &mut [Draft; 2]) {
        let draft = &mut two[self.random.below(2)];
        let replica = 1 + self.random.below(signer.n()) as u16;
        let own = places(draft, replica);
        if !own.is_empty() {
            let place = own[self.random.below(own.len())];
            let leaf = self.random.below(FEW_LEAVES as usize) as u32;
            sign(signer, draft, replica, place, leaf);
        }
    }
}

/// The rows of whoever has a leaf with two messages, each with the lowest such leaf.
fn rows(two: &mut [Draft; 2], n: u16) -> String {
    let mut rows = String::new();
    for replica in replicas_of((1 << n) - 1) {
        let mut signed: BTreeMap<u32, BTreeSet<Vec<u8>>> = BTreeMap::new();
        for draft in &mut *two {
            for place in places(draft, replica) {
                let leaf = leaf(draft, replica, place);
                signed.entry(leaf).or_default().insert(message(draft, place));
            }
        }
        let lowest = signed.into_iter().find(|(_, messages)| messages.len() > 1);
        rows += &lowest
            .map_or(String::new(), |(leaf, _)| format!("board {replica} rule 5 term {leaf}\n"));
    }
    rows
}
