//! A small submission with every byte changed, and of every length.

use super::{empty, small, whole, Cases, Expect, Size};

impl Cases<'_> {
    /// Each byte in turn takes another value: that is never accepted.
    pub fn every_byte(&mut self) {
        let signer = self.signer(3, 5);
        let bytes = empty(&signer).bytes();
        for at in self.some((0..bytes.len()).collect(), 4) {
            for bit in 0..8 {
                let mut other = bytes.clone();
                other[at] ^= 1 << bit;
                let place = 1 + self.random.below(2) as u8;
                let name = format!("44 bytes, bit {bit} of byte {at}");
                self.once(&name, &signer, &other, place, Expect::Refused);
            }
        }
        let bytes = small(&signer).bytes();
        for at in self.some((0..bytes.len()).collect(), 60) {
            let mut other = bytes.clone();
            other[at] ^= 1 + self.random.below(255) as u8;
            let place = 1 + self.random.below(2) as u8;
            let name = format!("one record, byte {at} is {}", other[at]);
            self.once(&name, &signer, &other, place, Expect::Refused);
        }
        // Of a larger one, every byte but those inside signatures, and some of these.
        let draft = whole(&self.signer(3, 5));
        let bytes = draft.bytes();
        let step = if self.size == Size::Full { 41 } else { 397 };
        let mut at = 0;
        while at < bytes.len() {
            let mut other = bytes.clone();
            other[at] ^= 1 + self.random.below(255) as u8;
            let place = 1 + self.random.below(2) as u8;
            let name = format!("two terms and a commit, byte {at} is {}", other[at]);
            self.once(&name, &signer, &other, place, Expect::Refused);
            at += 1 + self.random.below(step);
        }
    }

    /// Cut at the end, where the trailer then begins earlier; cut at the front; and gone on with.
    pub fn every_length(&mut self) {
        let signer = self.signer(3, 5);
        let bytes = small(&signer).bytes();
        for length in self.some((0..bytes.len()).collect(), 15) {
            let place = 1 + self.random.below(2) as u8;
            let name = format!("one record, the first {length} bytes");
            self.once(&name, &signer, &bytes[..length], place, Expect::Refused);
            if length >= 44 {
                let name = format!("one record, the last {length} bytes");
                self.refuse_once(&name, &signer, &bytes[bytes.len() - length..], 9);
            }
        }
        for more in [1, 2, 35, 36, 43, 44, 45, 48, 1292] {
            let place = 1 + self.random.below(2) as u8;
            let mut longer = bytes.clone();
            longer.extend(self.random.bytes(more));
            let name = format!("one record, {more} bytes more");
            self.once(&name, &signer, &longer, place, Expect::Refused);
            let mut longer = self.random.bytes(more);
            longer.extend(&bytes);
            self.refuse_once(&format!("one record, {more} bytes before"), &signer, &longer, 9);
        }
        let mut twice = bytes.clone();
        twice.extend(&bytes);
        self.refuse("one record, twice", &signer, &twice, 9);
    }
}
