//! Drawn bags: for each term votes and stamps of some, for each record receipts of some, in any order,
//! with repeats and with items that do not count. What has to come is known from who was drawn.

use super::bags::passed_over;
use super::scene::{spoiled, Made, Scene, SPOILS};
use super::{log_of, Cases, Commit};
use crate::random::Random;
use crate::roster::{quorum, MOST};
use crate::signer::Signer;
use crate::statement::Statement;
use crate::submission::runs;

/// As many leaves as a replica needs: votes for nine in each of three terms, stamps, receipts,
/// repeats, and other clusters' statements.
const LEAVES: u32 = 64;

/// Who has signed what, as it was drawn.
struct Drawn {
    /// For each term the voters of each candidate, and who has stamped its last record.
    terms: Vec<(Vec<u16>, u16)>,
    /// For each record who has a receipt for it.
    receipts: Vec<u16>,
}

/// Some of n replicas, more often than not a quorum.
fn some_of(n: usize, random: &mut Random) -> u16 {
    let mut replicas: Vec<u16> = (0..n as u16).collect();
    crate::district::shuffle(&mut replicas, random);
    let count = match random.below(6) {
        0 => random.below(n + 1),
        1 => quorum(n) - 1,
        2 => n,
        _ => quorum(n) + random.below(n - quorum(n) + 1),
    };
    replicas[..count].iter().map(|k| 1 << k).sum()
}

impl Drawn {
    fn new(n: usize, terms: usize, records: usize, random: &mut Random) -> Drawn {
        let mut drawn = Drawn { terms: Vec::new(), receipts: Vec::new() };
        for _ in 0..terms {
            let mut voters = vec![0; n];
            for _ in 0..1 + random.below(3) {
                let candidate = random.below(n);
                voters[candidate] = some_of(n, random);
                if random.below(4) != 0 {
                    voters[candidate] |= 1 << candidate;
                }
            }
            let stamps = some_of(n, random) | some_of(n, random);
            drawn.terms.push((voters, stamps));
        }
        for _ in 0..records {
            let some = if random.below(3) == 0 { 0 } else { some_of(n, random) };
            drawn.receipts.push(some);
        }
        drawn
    }

    /// The leaders and the commit that these allow, if each term has a leader.
    fn right(&self, n: usize) -> Option<(Vec<(u16, u16)>, Commit)> {
        let is_quorum = |mask: u16| mask.count_ones() as usize >= quorum(n);
        let mut leaders = Vec::new();
        for (voters, stamps) in &self.terms {
            let candidate = (0..n).find(|candidate| {
                let own = 1 << candidate;
                is_quorum(voters[*candidate]) && voters[*candidate] & stamps & own != 0
            })?;
            leaders.push((candidate as u16 + 1, voters[candidate]));
        }
        let commit = (0..self.receipts.len()).rev().find(|i| is_quorum(self.receipts[*i]));
        Some((leaders, commit.map(|i| (i as u32 + 1, self.receipts[i]))))
    }

    /// The items.
    fn scene(&self, signer: &Signer, log: &[u32]) -> Scene {
        let mut scene = Scene::new(signer, &log_of(log));
        for (i, (voters, stamps)) in self.terms.iter().enumerate() {
            for (candidate, mask) in voters.iter().enumerate() {
                scene.add(*mask, &Statement::Vote(scene.vote(i, candidate as u16 + 1)));
            }
            scene.add(*stamps, &scene.stamp(i));
        }
        for (i, mask) in self.receipts.iter().enumerate() {
            scene.add(*mask, &scene.receipt(i + 1));
        }
        scene
    }
}

impl Cases<'_> {
    pub fn drawn(&mut self) {
        for n in self.some((3..=MOST).collect(), 3) {
            let cluster = self.keys.cluster_with(n, LEAVES);
            for round in 0..self.count(10) {
                let signer = Signer::new(&cluster);
                let log = self.terms();
                let terms = runs(&log_of(&log)).len();
                let drawn = Drawn::new(n, terms, log.len(), &mut self.random);
                let mut scene = drawn.scene(&signer, &log);
                self.disturb(&mut scene);
                scene.shuffle(&mut self.random);
                let name = format!("drawn {round}, {n} replicas, terms {log:?}");
                match drawn.right(n) {
                    Some((leaders, commit)) => self.writes(&name, &scene, &leaders, commit),
                    None => self.refuses(&name, &scene, 20),
                }
            }
        }
    }

    /// The terms of a short log.
    fn terms(&mut self) -> Vec<u32> {
        let (mut terms, mut term) = (Vec::new(), 0);
        for _ in 0..1 + self.random.below(3) {
            term += 1 + self.random.below(3) as u32;
            for _ in 0..1 + self.random.below(2) {
                terms.push(term);
            }
        }
        terms
    }

    /// Adds some repeats with other leaves, bad copies, and items that are passed over.
    fn disturb(&mut self, scene: &mut Scene) {
        let base = scene.clone();
        for Made { item, .. } in &base.bag {
            match self.random.below(12) {
                0 => {
                    let mut again = item.clone();
                    again.signature = scene.signer.sign_again(item.replica, &item.statement, 1);
                    scene.bag.push(Made { item: again, good: true });
                }
                1 | 2 => {
                    let spoil = SPOILS[self.random.below(SPOILS.len())];
                    let bad = spoiled(&base.signer, item, spoil, &mut self.random);
                    scene.add_bad(bad);
                }
                3 => {
                    let others = passed_over(&base, item);
                    let (_, other) = others[self.random.below(others.len())].clone();
                    scene.add_bad(other);
                }
                _ => (),
            }
        }
    }
}
