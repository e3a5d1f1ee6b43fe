//! Numbers 5 to 8: the size, and the trailer's version, name and counts.

use super::change::laid_out;
use super::{empty, Cases};
use crate::submission::MOST_BYTES;

impl Cases<'_> {
    /// Number 5.
    pub fn sizes(&mut self) {
        let signer = self.signer(3, 5);
        let right = empty(&signer).bytes();
        for length in self.some((0..44).collect(), 5) {
            self.refuse_once(&format!("{length} bytes"), &signer, &right[44 - length..], 5);
        }
        // Filled up to the most bytes and beyond, with a trailer that is right by itself.
        for (length, number) in [(MOST_BYTES - 1, 9), (MOST_BYTES, 9), (MOST_BYTES + 1, 5)] {
            let mut long = vec![0; length - 44];
            long.extend(&right);
            self.refuse_once(&format!("{length} bytes"), &signer, &long, number);
        }
        let mut long = vec![0; MOST_BYTES + 65536 - 44];
        long.extend(&right);
        self.refuse_once("far above the most bytes", &signer, &long, 5);
    }

    /// Numbers 6, 7 and 8.
    pub fn trailers(&mut self) {
        let signer = self.signer(3, 5);
        for (base, draft) in laid_out(&signer) {
            let versions = vec![0, 2, 3, 0x100, 0x101, 0x0100_0000, 0x8000_0001, u32::MAX];
            for version in self.some(versions, 3) {
                let mut other = draft.clone();
                other.trailer.version = version;
                self.refuse_once(&format!("{base}, version {version}"), &signer, &other.bytes(), 6);
            }
            for at in self.some((0..16).collect(), 3) {
                let mut other = draft.clone();
                other.trailer.name[at] ^= 1 << self.random.below(8);
                self.refuse_once(&format!("{base}, name byte {at}"), &signer, &other.bytes(), 7);
            }
            let counts = vec![
                (4097, 0),
                (0, 65),
                (4097, 65),
                (u32::MAX, 0),
                (0, u32::MAX),
                (u32::MAX, u32::MAX),
                (1 << 16, 1),
                (1, 1 << 16),
                (1 << 31, 1 << 31),
                (0x1001_0000, 0),
                (4096, 65),
                (4097, 64),
            ];
            for (h, l) in self.some(counts, 3) {
                let mut other = draft.clone();
                (other.trailer.records, other.trailer.leaders) = (h, l);
                self.refuse_once(&format!("{base}, H {h}, L {l}"), &signer, &other.bytes(), 8);
            }
        }
    }
}
