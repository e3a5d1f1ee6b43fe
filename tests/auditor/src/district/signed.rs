//! The statements that a district's replicas have signed, and which submissions they allow.

use super::{shuffle, Claim};
use crate::leaves::Leaves;
use crate::random::Random;
use crate::roster::{mask_of, quorum, replicas_of};
use crate::statement::{pointers, Position, Record, Statement, Vote};
use std::collections::BTreeMap;

type Key = (u32, u32, [u8; 32]);

/// Signers of each vote, stamp and receipt.
#[derive(Default)]
pub struct Signed {
    /// By term, last index and last pointer; then by candidate.
    votes: BTreeMap<Key, BTreeMap<u16, (Vote, u16)>>,
    stamps: BTreeMap<Key, u16>,
    receipts: BTreeMap<Key, u16>,
    /// Each replica's leaves. They go with the key: lives and restarts of a replica count on, and
    /// so do others who have its key.
    leaves: BTreeMap<u16, Leaves<Statement>>,
}

impl Signed {
    pub fn vote(&mut self, replica: u16, leaf: u32, vote: Vote) {
        let votes = self.votes.entry((vote.term, vote.last_index, vote.last_pointer)).or_default();
        votes.entry(vote.candidate).or_insert((vote, 0)).1 |= mask_of(&[replica]);
        self.put_leaf(replica, leaf, Statement::Vote(vote));
    }

    pub fn stamp(&mut self, replica: u16, leaf: u32, at: Position) {
        *self.stamps.entry(key(&at)).or_default() |= mask_of(&[replica]);
        self.put_leaf(replica, leaf, Statement::Stamp(at));
    }

    pub fn receipt(&mut self, replica: u16, leaf: u32, at: Position) {
        *self.receipts.entry(key(&at)).or_default() |= mask_of(&[replica]);
        self.put_leaf(replica, leaf, Statement::Receipt(at));
    }

    fn put_leaf(&mut self, replica: u16, leaf: u32, statement: Statement) {
        self.leaves.entry(replica).or_default().put(statement, leaf);
    }

    /// The leaf for a statement of a replica: the one it has, or the next. Who reuses leaves takes
    /// for every fourth message one that is used.
    pub fn leaf_for(&self, replica: u16, statement: &Statement, reuses: bool) -> u32 {
        let Some(leaves) = self.leaves.get(&replica) else {
            return 0;
        };
        let used = reuses && leaves.messages() % 4 == 3;
        let other = if used { leaves.count() / 2 } else { leaves.count() };
        leaves.known(statement).unwrap_or(other)
    }

    /// The leaf by which a replica has signed a statement, if it has.
    pub fn leaf(&self, replica: u16, statement: &Statement) -> Option<u32> {
        self.leaves.get(&replica)?.known(statement)
    }

    /// The leaves that a replica has used.
    pub fn leaves(&self, replica: u16) -> Leaves<Statement> {
        self.leaves.get(&replica).cloned().unwrap_or_default()
    }

    /// Who has voted so.
    pub fn voters(&self, vote: &Vote) -> u16 {
        let votes = self.votes.get(&(vote.term, vote.last_index, vote.last_pointer));
        votes.and_then(|votes| votes.get(&vote.candidate)).map_or(0, |(_, mask)| *mask)
    }

    /// A claim for the log, if its terms all have a leader certificate and a stamp.
    pub fn claim(&self, n: usize, log: &[Record], random: &mut Random) -> Option<Claim> {
        let pointers = pointers(log);
        let mut leaders = Vec::new();
        let mut first = 0;
        for end in 1..=log.len() {
            if end < log.len() && log[end].term == log[first].term {
                continue;
            }
            let term = log[first].term;
            let stamped = self.stamps.get(&(term, end as u32, pointers[end])).copied()?;
            let votes = self.votes.get(&(term, first as u32, pointers[first]))?;
            let elected: Vec<(u16, u16)> = votes
                .iter()
                .map(|(candidate, (_, mask))| (*candidate, *mask))
                .filter(|(candidate, mask)| {
                    let own = mask_of(&[*candidate]);
                    mask.count_ones() as usize >= quorum(n) && mask & own & stamped != 0
                })
                .collect();
            if elected.is_empty() {
                return None;
            }
            let (candidate, mask) = elected[random.below(elected.len())];
            leaders.push((candidate, some_signers(n, mask, candidate, random)));
            first = end;
        }
        let mut commits = Vec::new();
        for index in 1..=log.len() {
            let at = (log[index - 1].term, index as u32, pointers[index]);
            let mask = self.receipts.get(&at).copied().unwrap_or(0);
            if mask.count_ones() as usize >= quorum(n) {
                commits.push((index as u32, mask));
            }
        }
        // Mostly the last one there is.
        let commit = match random.below(8) {
            0 => None,
            1 | 2 if !commits.is_empty() => Some(commits[random.below(commits.len())]),
            _ => commits.last().copied(),
        };
        let commit = commit.map(|(index, mask)| (index, some_signers(n, mask, 0, random)));
        Some(Claim { records: log.to_vec(), leaders, commit })
    }
}

/// At least q of the signers, with the one that must be among them, if there is one.
fn some_signers(n: usize, mask: u16, must: u16, random: &mut Random) -> u16 {
    let mut signers = replicas_of(mask);
    shuffle(&mut signers, random);
    signers.sort_by_key(|k| *k != must);
    let spare = signers.len() - quorum(n);
    let count = quorum(n) + if random.below(3) == 0 { random.below(spare + 1) } else { 0 };
    mask_of(&signers[..count])
}

fn key(at: &Position) -> Key {
    (at.term, at.index, at.pointer)
}
