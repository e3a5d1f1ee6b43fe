//! Number 21: outputs of every length around the one that is enough.

use super::scene::Scene;
use super::{Cases, Expect};
use crate::build::Draft;
use crate::cases::{empty, led, whole};
use crate::signer::Signer;

impl Cases<'_> {
    pub fn outputs(&mut self) {
        let signer = self.signer(3);
        let none = empty(&signer);
        let outputs: Vec<usize> = (0..=130).chain([255, 256, 300, 4096, 65_536, 65_580]).collect();
        for output in self.some(outputs, 20) {
            self.output("an empty log", &signer, &none, output);
        }
        for n in [3, 4, 9] {
            let signer = self.signer(n);
            let q = signer.first_quorum();
            for (name, draft) in [
                ("two terms and a commit", whole(&signer)),
                ("no commit", led(&signer, "abc", q, 0)),
                ("one record, all sign", led(&signer, "a", signer.all(), 1)),
            ] {
                let enough = draft.bytes().len();
                let [one, two, three, four] = draft.part_sizes();
                let mut outputs = vec![0, 1, 43, 44, enough - 44, enough + 1, enough + 64];
                outputs.extend([one, one + two, one + two + three, one + two + three + four]);
                outputs.extend([enough - 1, enough, enough + 4096, 1 << 16]);
                outputs.extend((0..10).map(|_| self.random.below(enough)));
                for output in self.some(outputs, 6) {
                    self.output(&format!("{name}, {n} replicas"), &signer, &draft, output);
                }
            }
        }
    }

    /// The draft's items with an output of so many bytes, which is refused if they are too few.
    fn output(&mut self, name: &str, signer: &Signer, draft: &Draft, output: usize) {
        let right = draft.bytes();
        let short = output < right.len();
        let name = format!("{name}, {} bytes in {output}", right.len());
        let expect = if short { Expect::Refused(21) } else { Expect::Written(right) };
        self.case(&name, &Scene::of(signer, draft), output, expect);
    }
}
