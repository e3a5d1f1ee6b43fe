//! Any byte of the roster, the log or the bag changed.

use super::scene::Scene;
use super::{Cases, Expect};
use crate::assemble::items::NUMBER_SIZE;
use crate::build::log_bytes;
use crate::cases::whole;

impl Cases<'_> {
    /// A byte takes another value: each of the roster and of the log, and of each item those of number,
    /// kind and fields, and some of the signature.
    pub fn damaged(&mut self) {
        let signer = self.signer(3);
        let draft = whole(&signer);
        let (scene, length) = (Scene::of(&signer, &draft), draft.bytes().len());
        let (roster, log, items) = (signer.roster(), log_bytes(&draft.records), scene.bytes());
        let mut places: Vec<(usize, usize)> = Vec::new();
        places.extend((0..roster.len()).step_by(3).map(|at| (0, at)));
        places.extend((0..log.len()).map(|at| (1, at)));
        let mut begin = 0;
        for made in &scene.bag {
            let fields = NUMBER_SIZE + made.item.statement.len();
            let size = fields + made.item.signature.len();
            places.extend((0..fields).map(|at| (2, begin + at)));
            for _ in 0..4 {
                places.push((2, begin + fields + self.random.below(size - fields)));
            }
            begin += size;
        }
        for (part, at) in self.some(places, 60) {
            let mut parts = [roster.clone(), log.clone(), items.clone()];
            parts[part][at] ^= 1 << self.random.below(8);
            let name = format!("byte {at} of {}", ["the roster", "the log", "the bag"][part]);
            let [roster, log, items] = parts;
            self.call(&name, (&roster, &log, &items), length, Expect::Any);
        }
    }
}
