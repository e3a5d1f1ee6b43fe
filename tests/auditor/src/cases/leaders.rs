//! Number 13.

use super::{whole, Cases};
use crate::build::Draft;
use crate::signer::Signer;

impl Cases<'_> {
    /// Number 13: each field of each leader certificate, signed as it stands.
    pub fn leaders(&mut self) {
        for n in [3, 9] {
            let signer = self.signer(n, 5);
            let draft = whole(&signer);
            for slot in 0..draft.leaders.len() {
                self.leader_fields(&signer, &draft, slot);
            }
        }
        // The fields that a log with another beginning would ask for.
        let signer = self.signer(3, 5);
        let draft = whole(&signer);
        let mut other = draft.clone();
        other.leaders.swap(0, 1);
        signer.clone().sign_all(&mut other);
        self.refuse("certificates exchanged", &signer, &other.bytes(), 13);
        let mut other = draft.clone();
        other.leaders[1] = draft.leaders[0].clone();
        signer.clone().sign_all(&mut other);
        self.refuse("one certificate twice", &signer, &other.bytes(), 13);
        let mut other = draft.clone();
        other.records[0].payload[31] ^= 1;
        signer.clone().sign_all(&mut other);
        self.refuse("another record before", &signer, &other.bytes(), 13);
    }

    fn leader_fields(&mut self, signer: &Signer, draft: &Draft, slot: usize) {
        let right = draft.leaders[slot].clone();
        let outside = (1..=signer.n() as u16).filter(|k| right.signers >> (k - 1) & 1 == 0);
        let mut candidates: Vec<u16> = vec![0, signer.n() as u16 + 1, 15, 16, 17, 18, 32, 33];
        candidates.extend([right.vote.candidate + 16, right.vote.candidate + 32, 256, 257]);
        candidates.extend([right.vote.candidate | 0x100, 32767, 32768, 65534, 65535]);
        candidates.extend(outside);
        for candidate in self.some(candidates, 2) {
            let name = format!("leader {slot}, candidate {candidate}");
            let mut other = draft.clone();
            other.leaders[slot].vote.candidate = candidate;
            signer.clone().sign_all(&mut other);
            self.refuse_once(&name, signer, &other.bytes(), 13);
        }
        let numbers = |right: u32| {
            let edges =
                [0, 1, right.wrapping_sub(1), right + 1, right | 1 << 16, 1 << 31, u32::MAX];
            edges.into_iter().filter(move |value| *value != right).collect::<Vec<u32>>()
        };
        for value in self.some(numbers(right.vote.term), 2) {
            let mut other = draft.clone();
            other.leaders[slot].vote.term = value;
            signer.clone().sign_all(&mut other);
            self.refuse_once(&format!("leader {slot}, term {value}"), signer, &other.bytes(), 13);
        }
        for value in self.some(numbers(right.vote.last_term), 2) {
            let mut other = draft.clone();
            other.leaders[slot].vote.last_term = value;
            signer.clone().sign_all(&mut other);
            self.refuse_once(
                &format!("leader {slot}, last term {value}"),
                signer,
                &other.bytes(),
                13,
            );
        }
        for value in self.some(numbers(right.vote.last_index), 2) {
            let mut other = draft.clone();
            other.leaders[slot].vote.last_index = value;
            signer.clone().sign_all(&mut other);
            self.refuse_once(
                &format!("leader {slot}, last index {value}"),
                signer,
                &other.bytes(),
                13,
            );
        }
        for at in self.some((0..32).collect(), 2) {
            let mut other = draft.clone();
            other.leaders[slot].vote.last_pointer[at] ^= 1 << self.random.below(8);
            let name = format!("leader {slot}, last pointer byte {at}");
            self.refuse_once(&name, signer, &other.bytes(), 13);
        }
    }
}
