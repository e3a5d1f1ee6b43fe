//! Number 9, and the numbers next to it.

use super::change::{bases, laid_out, set_signers, signers, slots};
use super::{empty, small, Cases};
use crate::build::Draft;
use crate::cluster::Cluster;

impl Cases<'_> {
    /// Number 9, and what is next to it.
    pub fn layouts(&mut self) {
        let signer = self.signer(3, 5);
        for (base, draft) in laid_out(&signer) {
            self.gaps(&format!("{base}, byte"), &signer, &draft);
            self.stray_signers(&base, &signer, &draft);
        }
        // A fourth distance that leaves no room for a certificate, and one without signers.
        for (base, mut draft) in bases(&signer) {
            draft.commit = None;
            draft.lay_out();
            for d4 in 0..=7u32 {
                let number = match d4 {
                    0 => 0,
                    6 => 10,
                    _ => 9,
                };
                let mut other = draft.clone();
                other.trailer.distances = draft.trailer.distances.map(|d| d + d4);
                let mut body = other.bytes();
                let end = body.len() - 44;
                body.splice(end..end, vec![0; d4 as usize]);
                let name = format!("{base}, fourth distance {d4} over zero bytes");
                self.refuse(&name, &signer, &body, number);
            }
        }
        // The distances of empty parts.
        for part in 0..4 {
            for distance in [1, 36, 44, 1 << 31, u32::MAX] {
                let mut draft = empty(&signer);
                draft.trailer.distances[part] = distance;
                let name = format!("empty, distance {} is {distance}", part + 1);
                self.refuse_once(&name, &signer, &draft.bytes(), 9);
            }
        }
        // A tree type's signatures under another type's roster.
        for tree in 6..=9 {
            let tall = self.signer(3, tree);
            let mut draft = small(&tall);
            draft.trailer.name = signer.name;
            self.refuse_once("signatures of a taller tree", &signer, &draft.bytes(), 9);
            let mut draft = small(&signer);
            draft.trailer.name = tall.name;
            self.refuse_once("signatures of a lower tree", &tall, &draft.bytes(), 9);
        }
    }

    /// A byte put in or left out at each part's beginning, the trailer as it was and moved.
    fn gaps(&mut self, name: &str, cluster: &Cluster, draft: &Draft) {
        let bytes = draft.bytes();
        let mut starts = vec![0];
        for size in draft.part_sizes() {
            starts.push(starts[starts.len() - 1] + size);
        }
        for start in starts {
            let mut more = bytes.clone();
            more.insert(start, 0);
            self.refuse_once(&format!("{name} more at {start}"), cluster, &more, 9);
            if start > 0 {
                let mut less = bytes.clone();
                less.remove(start - 1);
                self.refuse_once(&format!("{name} less at {start}"), cluster, &less, 9);
            }
        }
        for part in 0..4 {
            for change in [1, u32::MAX, 36, 36u32.wrapping_neg()] {
                let mut other = draft.clone();
                let distance = &mut other.trailer.distances[part];
                *distance = distance.wrapping_add(change);
                let name = format!("{name}: distance {} is {distance}", part + 1);
                self.refuse_once(&name, cluster, &other.bytes(), 9);
            }
        }
    }

    /// Signers' bits above n: with their signatures' bytes 10, without them 9.
    fn stray_signers(&mut self, base: &str, cluster: &Cluster, draft: &Draft) {
        for bit in self.some((cluster.n()..16).collect(), 2) {
            for slot in 0..slots(draft) {
                let mut other = draft.clone();
                *signers(&mut other, slot) |= 1 << bit;
                let name = format!("{base}, certificate {slot} with bit {bit}");
                self.refuse_once(&format!("{name} alone"), cluster, &other.bytes(), 9);
                let mut other = draft.clone();
                let mask = *signers(&mut other, slot) | 1 << bit;
                set_signers(cluster, &mut other, slot, mask);
                self.refuse_once(&format!("{name} and bytes"), cluster, &other.bytes(), 10);
            }
        }
    }
}
