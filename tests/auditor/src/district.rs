//! A simulated district: replicas that act by document 01's board rules, with document 02's W4 and
//! W5, honest and cheating, and the submissions that what they signed allows.

pub mod acts;
mod claim;
pub mod premises;
mod replica;
mod signed;

use crate::assemble::items::Item;
use crate::build::ends;
use crate::cluster::Cluster;
use crate::random::Random;
use crate::roster::{mask_of, quorum, replicas_of};
use crate::sha256::sha256;
use crate::signer::Signer;
use crate::statement::{pointers, Position, Record, Statement, Vote};
use crate::submission::{Submission, Use};
pub use claim::{two_of, Claim};
pub use replica::Act;
use replica::{Cheats, Replica};
use signed::Signed;
use std::rc::Rc;

/// The replicas' network has two sides; a cheat may live on both, with a state on each.
pub struct District {
    n: usize,
    lives: Vec<Life>,
    /// On each side, the life that was last elected, and on which vote.
    leaders: [Option<(usize, Vote)>; 2],
    signed: Signed,
    /// Replicas whose key others have: it signs whatever is asked for, and no state is kept.
    shared: u16,
    /// Replicas that sign with leaves that have signed another message.
    reusing: u16,
    /// Replicas that keep to the rules, in one life, with their key to themselves.
    pub honest: u16,
    /// Logs that some replica has held.
    held: Vec<Vec<Record>>,
    payloads: u32,
}

struct Life {
    side: usize,
    replica: Replica,
}

impl District {
    /// A district that has gone on for a while; `cheats` says how many replicas may cheat.
    pub fn simulate(n: usize, cheats: usize, random: &mut Random) -> District {
        let lives = (1..=n as u16).map(|number| Life { side: 0, replica: Replica::new(number) });
        let mut district = District {
            n,
            lives: lives.collect(),
            leaders: [None, None],
            signed: Signed::default(),
            shared: 0,
            reusing: 0,
            honest: 0,
            held: vec![Vec::new()],
            payloads: 0,
        };
        let together = random.below(10);
        district.go_on(together, random);
        district.split(cheats, random);
        let apart = 15 + random.below(25);
        district.go_on(apart, random);
        district
    }

    /// The sides part: the cheats are chosen, and every other replica is on one side.
    fn split(&mut self, cheats: usize, random: &mut Random) {
        let mut numbers: Vec<u16> = (1..=self.n as u16).collect();
        shuffle(&mut numbers, random);
        let cheating = numbers[..cheats].to_vec();
        self.honest = mask_of(&numbers[cheats..]);
        for (i, number) in numbers.iter().enumerate() {
            let life = &mut self.lives[*number as usize - 1];
            life.side = i % 2;
            if !cheating.contains(number) {
                continue;
            }
            // Whatever else they do, some use leaves again.
            if number % 3 == 0 {
                self.reusing |= mask_of(&[*number]);
            }
            match random.below(12) {
                0 => life.replica.cheats.votes_twice = true,
                1 => life.replica.cheats.votes_for_staler = true,
                2 => life.replica.cheats.rewrites = true,
                3 => life.replica.cheats.forgets = true,
                4 => self.shared |= mask_of(&[*number]),
                5 | 6 => {
                    life.replica.cheats = Cheats {
                        votes_twice: true,
                        votes_for_staler: true,
                        rewrites: true,
                        ..Cheats::default()
                    }
                }
                7..=9 => {
                    life.replica.cheats = Cheats {
                        votes_twice: true,
                        votes_for_staler: true,
                        asks_twice: true,
                        ..Cheats::default()
                    }
                }
                _ => {
                    let other = Life { side: 1 - life.side, replica: life.replica.clone() };
                    self.lives.push(other);
                }
            }
        }
        for life in &mut self.lives {
            let reuses = self.reusing & mask_of(&[life.replica.number]) != 0;
            life.replica.cheats.reuses_leaves = reuses;
        }
    }

    fn go_on(&mut self, steps: usize, random: &mut Random) {
        for _ in 0..steps {
            let side = random.below(2);
            match random.below(20) {
                0..=4 => self.elect(side, random),
                5..=18 if self.leads(side) => self.lead(side, random),
                5..=18 => self.elect(side, random),
                _ => self.wander(random),
            }
        }
    }

    /// The lives on a side that hear what is said there now.
    fn listeners(&self, side: usize, random: &mut Random) -> Vec<usize> {
        let mut listeners: Vec<usize> = (0..self.lives.len())
            .filter(|i| self.lives[*i].side == side && random.below(8) != 0)
            .collect();
        shuffle(&mut listeners, random);
        listeners
    }

    /// Somebody stands for election.
    fn elect(&mut self, side: usize, random: &mut Random) {
        let listeners = self.listeners(side, random);
        let Some(life) = listeners.first().copied() else {
            return;
        };
        let candidate = &self.lives[life].replica;
        let term = match random.below(6) {
            0 => candidate.term,
            1 => candidate.term + 2,
            _ => candidate.term + 1,
        };
        self.stand(side, life, term, listeners);
    }

    /// A leader that cheats goes to the other side, and stands there again in its term, on the end
    /// of an earlier term of its log than before; whoever votes twice hears it on either side.
    /// Elected, it leads on from there.
    fn ask_again(&mut self, life: usize, vote: Vote, random: &mut Random) {
        let asking = &mut self.lives[life];
        let mut ends = ends(&asking.replica.log);
        ends.retain(|end| *end < vote.last_index as usize);
        ends.push(0);
        asking.side = 1 - asking.side;
        asking.replica.log.truncate(ends[random.below(ends.len())]);
        let side = asking.side;
        let mut listeners = self.listeners(side, random);
        let willing = |i: &usize| self.lives[*i].replica.cheats.votes_twice;
        listeners.retain(|i| !willing(i));
        listeners.extend((0..self.lives.len()).filter(willing));
        self.stand(side, life, vote.term, listeners);
        if self.leads(side) {
            self.lead_on(side, random);
        }
    }

    /// A life stands for election in a term; whoever hears it votes if it may.
    fn stand(&mut self, side: usize, life: usize, term: u32, listeners: Vec<usize>) {
        let candidate = &self.lives[life].replica;
        let (last_term, last_index) = candidate.end();
        let last_pointer = pointers(&candidate.log)[last_index as usize];
        let vote = Vote { candidate: candidate.number, term, last_term, last_index, last_pointer };
        for i in listeners {
            let leaf = self.leaf_for(self.lives[i].replica.number, Statement::Vote(vote));
            let replica = &mut self.lives[i].replica;
            if replica.vote(leaf, &vote, self.n) {
                self.signed.vote(replica.number, leaf, vote);
            }
        }
        for number in replicas_of(self.shared) {
            let leaf = self.leaf_for(number, Statement::Vote(vote));
            self.signed.vote(number, leaf, vote);
        }
        let voters = replicas_of(self.signed.voters(&vote));
        if voters.len() >= quorum(self.n) && voters.contains(&vote.candidate) {
            self.leaders[side] = Some((life, vote));
        }
    }

    /// The leaf by which a replica signs a statement now.
    fn leaf_for(&self, replica: u16, statement: Statement) -> u32 {
        let reuses = self.reusing & mask_of(&[replica]) != 0;
        self.signed.leaf_for(replica, &statement, reuses)
    }

    /// Whether the side's leader is still there and in its term.
    fn leads(&self, side: usize) -> bool {
        self.leaders[side].is_some_and(|(life, vote)| {
            self.lives[life].side == side && self.lives[life].replica.term == vote.term
        })
    }

    /// The side's leader asks again, if it cheats so and has stamped, or leads on.
    fn lead(&mut self, side: usize, random: &mut Random) {
        let Some((life, vote)) = self.leaders[side] else {
            return;
        };
        let leader = &self.lives[life].replica;
        let stamped = leader.last_stamp == Some(vote.term) && vote.last_index > 0;
        if leader.cheats.asks_twice && stamped && random.below(2) == 0 {
            return self.ask_again(life, vote, random);
        }
        self.lead_on(side, random);
    }

    /// The side's leader adds records, stamps, and hands its log on for receipts.
    fn lead_on(&mut self, side: usize, random: &mut Random) {
        let Some((life, vote)) = self.leaders[side] else {
            return;
        };
        if random.below(4) == 0 {
            self.rewrite(life, vote, random);
        }
        for _ in 0..1 + random.below(2) {
            let payload = self.payload();
            let replica = &mut self.lives[life].replica;
            replica.add(Record { term: replica.term, payload });
        }
        // Before the stamp an honest leader may yet change its mind.
        if random.below(5) == 0 {
            self.hand_on(side, life, random);
            self.rewrite(life, vote, random);
        }
        let replica = &self.lives[life].replica;
        if let Some(at) = replica.last_own_record() {
            let number = replica.number;
            let leaf = self.leaf_for(number, Statement::Stamp(at));
            self.lives[life].replica.stamp(leaf).expect("a leaf of its own, or of a cheat");
            self.signed.stamp(number, leaf, at);
        }
        self.hand_on(side, life, random);
    }

    /// The leader puts another record in place of those of its term, if it may or cheats.
    fn rewrite(&mut self, life: usize, vote: Vote, random: &mut Random) {
        let payload = self.payload();
        let replica = &mut self.lives[life].replica;
        let own = replica.log.len().saturating_sub(vote.last_index as usize);
        if own == 0 {
            return;
        }
        let keep = replica.log.len() - 1 - random.below(own);
        let count = replica.log.len() - keep;
        let run: Vec<Record> = (0..count)
            .map(|i| Record { term: replica.term, payload: shifted(payload, i) })
            .collect();
        replica.take(keep, &run);
    }

    /// Those who hear it take the leader's log and give receipts for its end.
    fn hand_on(&mut self, side: usize, life: usize, random: &mut Random) {
        let leader = self.lives[life].replica.clone();
        self.held.push(leader.log.clone());
        for i in self.listeners(side, random) {
            let replica = &mut self.lives[i].replica;
            if i != life {
                if !replica.raise(leader.term) {
                    continue;
                }
                let same = replica.log.iter().zip(&leader.log).take_while(|(a, b)| a == b).count();
                replica.take(same, &leader.log[same..]);
            }
            if random.below(6) != 0 {
                self.give_receipt(i);
            }
            self.held.push(self.lives[i].replica.log.clone());
        }
        let index = leader.log.len();
        if index > 0 {
            let pointer = pointers(&leader.log)[index];
            let term = leader.log[index - 1].term;
            let at = Position { term, index: index as u32, pointer };
            for number in replicas_of(self.shared) {
                let leaf = self.leaf_for(number, Statement::Receipt(at));
                self.signed.receipt(number, leaf, at);
            }
        }
    }

    /// A life gives a receipt for its last record, if it may.
    fn give_receipt(&mut self, life: usize) {
        let replica = &self.lives[life].replica;
        let Some(at) = replica.last_own_record() else {
            return;
        };
        let (number, end) = (replica.number, replica.log.len());
        let leaf = self.leaf_for(number, Statement::Receipt(at));
        self.lives[life].replica.receipt(leaf, end).expect("a leaf of its own, or of a cheat");
        self.signed.receipt(number, leaf, at);
    }

    /// A replica comes to the other side, raises its term, or restarts.
    fn wander(&mut self, random: &mut Random) {
        let chosen = random.below(self.lives.len());
        let life = &mut self.lives[chosen];
        match random.below(4) {
            0 => drop(life.replica.raise(life.replica.term + 1)),
            1 => life.replica.restart(),
            _ => life.side = 1 - life.side,
        }
    }

    /// A payload digest that was not used before.
    fn payload(&mut self) -> [u8; 32] {
        self.payloads += 1;
        sha256(&[b"payload", &self.payloads.to_be_bytes()])
    }

    /// How many replicas there are.
    pub fn n(&self) -> usize {
        self.n
    }

    /// What an honest replica has done, in its order.
    pub fn acts(&self, replica: u16) -> &[Act] {
        &self.lives[replica as usize - 1].replica.acts
    }

    /// How many leaves the replica with the most has used.
    pub fn leaves(&self) -> u32 {
        (1..=self.n as u16).map(|k| self.signed.leaves(k).count()).max().unwrap_or(0)
    }

    /// A claim's submission, as it is accepted, without signatures, but with the leaves that its
    /// replicas signed by.
    pub fn submission(&self, claim: &Claim) -> Submission {
        let uses = claim.statements().into_iter().map(|(replica, statement)| Use {
            replica,
            leaf: self.signed.leaf(replica, &statement).expect("it was signed"),
            message: statement.bytes(&[0; 16]),
        });
        Submission { uses: uses.collect(), ..claim.unsigned() }
    }

    /// Signs for the district's claims, each statement with the leaf that its replica signed it by.
    /// The cluster's keys have to have as many leaves from 0 on.
    pub fn signer(&self, cluster: &Rc<Cluster>) -> Signer {
        let written = |k| self.signed.leaves(k).map(|statement| statement.bytes(&cluster.name));
        Signer::after(cluster, (1..=self.n as u16).map(written).collect())
    }

    /// All that was signed, each statement with the leaf that its replica signed it by. The
    /// cluster's keys have to have as many leaves from 0 on.
    pub fn items(&self, cluster: &Cluster) -> Vec<Item> {
        let mut items = Vec::new();
        for replica in 1..=self.n as u16 {
            let leaves = self.signed.leaves(replica);
            let mut signed: Vec<(u32, Vec<u8>)> =
                leaves.iter().map(|(said, leaf)| (leaf, said.bytes(&cluster.name))).collect();
            signed.sort(); // a map has them in any order
            items.extend(signed.into_iter().map(|(leaf, statement)| {
                let signature = cluster.sign_with(replica, leaf, &statement);
                Item { replica, statement, signature }
            }));
        }
        items
    }

    /// A claim for each log that can be submitted, with chosen signers and a chosen commit.
    pub fn claims(&self, random: &mut Random) -> Vec<Claim> {
        let mut logs: Vec<&[Record]> = Vec::new();
        for log in &self.held {
            for length in 1..=log.len() {
                if !logs.contains(&&log[..length]) {
                    logs.push(&log[..length]);
                }
            }
        }
        logs.into_iter().filter_map(|log| self.signed.claim(self.n, log, random)).collect()
    }
}

/// A digest for the i-th record of a run.
fn shifted(mut payload: [u8; 32], i: usize) -> [u8; 32] {
    payload[0] ^= i as u8;
    payload
}

/// Puts the values into any order.
pub fn shuffle<T>(values: &mut [T], random: &mut Random) {
    for i in (1..values.len()).rev() {
        values.swap(i, random.below(i + 1));
    }
}

#[cfg(test)]
mod tests;
