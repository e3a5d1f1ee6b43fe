//! Replicas that break several rules, in a list: the run names whoever breaks any of them,
//! whichever a row of the audit would have (document 02, W6).

use super::refused::refused;
use super::{found, Cases};
use crate::cases::precedence::PAIRS;

impl Cases<'_> {
    /// The pairs of the audit's cases, with a refused submission between the two.
    pub fn precedence(&mut self) {
        for pair in self.some(PAIRS.iter().collect(), 8) {
            let signer = self.signer(pair.n);
            let [first, second] = pair.drafts(&signer);
            let list = [first.bytes(), refused(&signer, &second, 15), second.bytes()];
            let fork = if pair.fork == 0 { (0, 0) } else { (1, 3) };
            let right = found(&[0, 15, 0], pair.named(), fork);
            self.run(&pair.title(), &signer.roster(), &list, right);
        }
    }
}
