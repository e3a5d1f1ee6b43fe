//! Pairs of accepted submissions: from simulated districts, and loose ones in which every replica
//! signs anything.

use super::{Cases, Expect};
use crate::build::Draft;
use crate::cluster::FEW_LEAVES;
use crate::district::{two_of, District};
use crate::roster::{mask_of, replicas_of};
use crate::sha256::sha256;
use crate::signer::Signer;
use crate::statement::Record;

/// How many loose pairs there are for a number of replicas and a tree type.
const LOOSE_PAIRS: [(usize, u32, usize); 10] = [
    (3, 5, 250),
    (4, 5, 60),
    (5, 5, 40),
    (6, 5, 15),
    (7, 5, 10),
    (8, 5, 10),
    (9, 5, 10),
    (3, 6, 10),
    (4, 8, 10),
    (3, 9, 10),
];

impl Cases<'_> {
    /// Districts of every size with no cheat, some, and cheats only.
    pub fn districts(&mut self) {
        for n in 3..=9 {
            let rounds = self.count(if n < 6 { 30 } else { 12 });
            for round in 0..rounds {
                let cheats = match self.size {
                    super::Size::Full => round % (n + 1),
                    super::Size::Small => self.random.below(n + 1),
                };
                let district = District::simulate(n, cheats, &mut self.random);
                let cluster = self.keys.cluster_with(n, district.leaves());
                let (roster, signer) = (cluster.roster(), district.signer(&cluster));
                let claims = district.claims(&mut self.random);
                for pair in 0..4 {
                    let Some((a, b)) = two_of(&claims, &mut self.random) else {
                        break;
                    };
                    let (first, second) = (a.draft(&signer).bytes(), b.draft(&signer).bytes());
                    let name = format!("district {round} of {n} with {cheats} cheats, pair {pair}");
                    self.case(&name, &roster, &first, &second, Expect::Honest(district.honest));
                }
            }
        }
    }

    /// Short logs of few terms and payloads, any leaders, any signers, any commit.
    pub fn loose_pairs(&mut self) {
        for (n, tree, count) in LOOSE_PAIRS {
            let cluster = self.keys.cluster_from_0(n, tree, FEW_LEAVES);
            let roster = cluster.roster();
            for pair in 0..self.count(count) {
                let signer = Signer::new(&cluster);
                let (first, second) = (self.loose(&signer).bytes(), self.loose(&signer).bytes());
                let name = format!("loose pair {pair} of {n}, tree type {tree}");
                self.case(&name, &roster, &first, &second, Expect::Honest(0));
            }
        }
    }

    fn loose(&mut self, signer: &Signer) -> Draft {
        let mut records = Vec::new();
        let mut term = 1;
        for _ in 0..1 + self.random.below(4) {
            term += [0, 0, 1, 1, 2][self.random.below(5)];
            let payload = sha256(&[&[u8::from(self.random.below(5) == 0)]]);
            records.push(Record { term, payload });
        }
        let mut terms: Vec<u32> = records.iter().map(|record| record.term).collect();
        terms.dedup();
        let leaders: Vec<(u16, u16)> = terms
            .iter()
            .map(|_| {
                let signers = self.some_quorum(signer);
                let replicas = replicas_of(signers);
                (replicas[self.random.below(replicas.len())], signers)
            })
            .collect();
        let commit = match self.random.below(6) {
            0 => None,
            _ => {
                let index = 1 + self.random.below(records.len()) as u32;
                Some((index, self.some_quorum(signer)))
            }
        };
        signer.submission(&records, &leaders, commit)
    }

    /// q replicas, sometimes one more.
    pub fn some_quorum(&mut self, signer: &Signer) -> u16 {
        let mut replicas: Vec<u16> = (1..=signer.n() as u16).collect();
        crate::district::shuffle(&mut replicas, &mut self.random);
        let count = signer.quorum() + usize::from(self.random.below(5) == 0);
        mask_of(&replicas[..count])
    }
}
