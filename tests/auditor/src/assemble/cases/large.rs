//! The largest submission, and bags of very many items.

use super::scene::Scene;
use super::{log_of, Cases, Expect, Size};
use crate::assemble::items::Item;
use crate::assemble::LONGEST;
use crate::build::log_bytes;
use crate::cases::accepted::{largest, LARGEST_LEAVES};
use crate::cases::whole;
use crate::signer::Signer;

impl Cases<'_> {
    pub fn large(&mut self) {
        self.many_items();
        if self.size == Size::Full {
            let signer = Signer::new(&self.keys.cluster_from_0(9, 9, LARGEST_LEAVES));
            let draft = largest(&signer);
            let mut scene = Scene::of(&signer, &draft);
            scene.shuffle(&mut self.random);
            self.case("the largest", &scene, LONGEST, Expect::Written(draft.bytes()));
            self.case("the largest, a byte short", &scene, LONGEST - 1, Expect::Refused(21));
        }
    }

    /// Items that are passed over before the right ones, so many that their number in 8 or in 16 bits
    /// is small again.
    fn many_items(&mut self) {
        let signer = self.signer(3);
        let draft = whole(&signer);
        let base = Scene::of(&signer, &draft);
        let nobody = Item { replica: 0, ..base.bag[0].item.clone() }.bytes();
        let (roster, log) = (signer.roster(), log_bytes(&draft.records));
        let counts = match self.size {
            Size::Full => vec![250, 256, 300, (1 << 16) - 2, 1 << 16],
            Size::Small => vec![256],
        };
        for count in counts {
            let items = [nobody.repeat(count), base.bytes()].concat();
            let right = draft.bytes();
            let name = format!("{count} items of nobody before the others");
            self.call(&name, (&roster, &log, &items), right.len(), Expect::Written(right));
        }
        // And good ones of another log.
        let mut scene = Scene::new(&signer, &draft.records);
        let other = Scene::new(&signer, &log_of(&[1, 1, 3]));
        for _ in 0..self.count(100) {
            scene.add(0b111, &other.receipt(3));
        }
        scene.bag.extend(base.bag);
        self.writes_draft("300 receipts of another log before the others", &scene, &draft);
    }
}
