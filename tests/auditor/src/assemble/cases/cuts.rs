//! Number 19: bags that end inside an item, and kinds that there are not.

use super::scene::{Made, Scene};
use super::{Cases, Expect};
use crate::build::log_bytes;
use crate::cases::whole;
use crate::roster::signature_size;

impl Cases<'_> {
    /// Every cut of the last item, for each kind; at the item's start the bag is right.
    pub fn cuts(&mut self) {
        let signer = self.signer(3);
        let draft = whole(&signer);
        let base = Scene::of(&signer, &draft);
        let (roster, log) = (signer.roster(), log_bytes(&draft.records));
        for kind in [1, 2, 3] {
            let mut scene = base.clone();
            let last = scene.bag.iter().position(|made| made.item.kind() == kind);
            let again = scene.bag[last.expect("an item of each kind")].clone();
            let whole = scene.bytes().len();
            scene.bag.push(again);
            let bag = scene.bytes();
            for length in self.some((whole + 1..bag.len()).collect(), 20) {
                let name = format!("kind {kind} cut after {} bytes", length - whole);
                let parts = (&roster[..], &log[..], &bag[..length]);
                self.call(&name, parts, 40_000, Expect::Refused(19));
            }
            let parts = (&roster[..], &log[..], &bag[..whole]);
            let expect = Expect::Written(draft.bytes());
            self.call("cut before the last item", parts, draft.bytes().len(), expect);
        }
        // The only item: also before its kind.
        let only = base.bag[0].item.bytes();
        for length in self.some((1..only.len()).collect(), 10) {
            for log in [&log[..], &[]] {
                let name = format!("one item cut after {length} bytes, a log of {}", log.len());
                self.call(&name, (&roster, log, &only[..length]), 100, Expect::Refused(19));
            }
        }
        self.other_signature_sizes();
    }

    /// Items whose signatures have another tree type's length: what follows is no item.
    fn other_signature_sizes(&mut self) {
        for tree in 5..=9 {
            let signer = self.signer_of(3, tree);
            let base = Scene::of(&signer, &whole(&signer));
            let size = signer.signature_size();
            for height in [5, 10, 15, 20, 25] {
                let other = signature_size(height);
                if other == size {
                    continue;
                }
                let mut scene = base.clone();
                let last = scene.bag.last_mut().expect("an item");
                last.item.signature.resize(other, 0);
                // What is left over has fewer bytes than an item, or a kind of 0.
                self.refuses(&format!("{other} bytes of signature for {size}"), &scene, 19);
            }
        }
    }

    /// Kinds other than 1, 2 and 3, in the first, a middle and the last item, whoever it is of.
    pub fn kinds(&mut self) {
        let signer = self.signer(3);
        let draft = whole(&signer);
        let base = Scene::of(&signer, &draft);
        let mut ways = Vec::new();
        for kind in [0].into_iter().chain(4..=u8::MAX) {
            for at in [0, base.bag.len() / 2, base.bag.len() - 1] {
                ways.push((kind, at));
            }
        }
        for (kind, at) in self.some(ways, 30) {
            let mut scene = base.clone();
            let Made { item, .. } = &mut scene.bag[at];
            item.statement[0] = kind;
            match self.random.below(4) {
                0 => item.statement[1] ^= 1,
                1 => item.replica = 0,
                2 => item.replica = 256,
                _ => (),
            }
            if self.random.below(4) == 0 {
                scene.records.clear();
            }
            self.refuses(&format!("kind {kind} of item {at}"), &scene, 19);
        }
    }
}
