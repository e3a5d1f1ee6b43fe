//! Simulated districts: what their replicas can submit, taken apart, and all that they have signed.

use super::scene::Scene;
use super::{Cases, Expect, Size};
use crate::assemble::items;
use crate::build::log_bytes;
use crate::district::{shuffle, District};
use crate::roster::MOST;

/// How many claims of a district are taken.
const CLAIMS: usize = 2;

impl Cases<'_> {
    /// Districts of every size with no cheat, some, and cheats only.
    pub fn districts(&mut self) {
        for n in 3..=MOST {
            for round in 0..self.count(if n < 6 { 12 } else { 6 }) {
                let cheats = match self.size {
                    Size::Full => round % (n + 1),
                    Size::Small => self.random.below(n + 1),
                };
                let district = District::simulate(n, cheats, &mut self.random);
                let mut claims = district.claims(&mut self.random);
                shuffle(&mut claims, &mut self.random);
                let cluster = self.keys.cluster_with(n, district.leaves());
                let signer = district.signer(&cluster);
                let mut all = district.items(&cluster);
                for claim in claims.iter().take(CLAIMS) {
                    let name = format!("district {round} of {n} with {cheats} cheats");
                    let draft = claim.draft(&signer);
                    let mut scene = Scene::of(&signer, &draft);
                    scene.shuffle(&mut self.random);
                    self.writes_draft(&format!("{name}, a claim"), &scene, &draft);
                    // At least what the claim has can be written.
                    shuffle(&mut all, &mut self.random);
                    let (roster, log) = (cluster.roster(), log_bytes(&claim.records));
                    let parts = (&roster[..], &log[..], &items::bytes(&all)[..]);
                    let name = format!("{name}, all that was signed");
                    self.call(&name, parts, 200_000, Expect::Accepted);
                }
            }
        }
    }
}
