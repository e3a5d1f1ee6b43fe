//! Number 10.

use super::change::{set_signers, slots};
use super::{whole, Cases};

impl Cases<'_> {
    /// Number 10.
    pub fn signers(&mut self) {
        for n in [3, 4, 6, 9] {
            let signer = self.signer(n, 5);
            let draft = whole(&signer);
            let q = signer.quorum() as u32;
            let mut masks = vec![0, 1, 1 << 15, signer.all() << 1, u16::MAX, !signer.all()];
            masks.push(signer.first_quorum() >> 1);
            masks.push(signer.first_quorum() & !1);
            masks.push((signer.first_quorum() >> 1) | 1 << 15);
            masks.push((signer.first_quorum() >> 1) | 1 << n);
            masks.extend((0..10).map(|_| self.random.word() as u16));
            masks.retain(|mask| mask.count_ones() < q || mask & !signer.all() != 0);
            for mask in self.some(masks, 2) {
                for slot in 0..slots(&draft) {
                    let mut other = draft.clone();
                    set_signers(&signer, &mut other, slot, mask);
                    let name = format!("n = {n}, certificate {slot}, signers {mask:016b}");
                    self.refuse_once(&name, &signer, &other.bytes(), 10);
                }
            }
        }
    }
}
