//! What the lengths add up to.

use super::{empties, found, Cases, Expect};
use crate::cases::Size;
use crate::depot::{FEWEST, MOST};

/// One above the largest length.
const PAST: u64 = 1 << 32;

impl Cases<'_> {
    /// Number 18: one length, or the buffer, is not as long as it was.
    pub fn sums(&mut self) {
        let signer = self.signer(3);
        let (roster, none) = (signer.roster(), empties(&signer, 1).concat());
        for count in FEWEST..=MOST {
            let (buffer, right) = (none.repeat(count), vec![44; count]);
            let mut changes = Vec::new();
            for at in 0..count {
                for length in [0, 43, 45, 88, 44 + (1 << 8), 44 + (1 << 16), 1 << 31, u32::MAX] {
                    changes.push((at, length));
                }
            }
            for (at, length) in self.some(changes, 6) {
                let mut lengths = right.clone();
                lengths[at] = length;
                let name = format!("{count} lengths of 44, the one at {at} is {length}");
                self.cut(&name, &roster, &buffer, &lengths, Expect::Refused(18));
            }
            let longer = [&buffer[..], &[0]].concat();
            let name = format!("{count} lengths of 44");
            let refused = Expect::Refused(18);
            let shorter = &buffer[..buffer.len() - 1];
            self.cut(&format!("{name}, a byte more"), &roster, &longer, &right, refused.clone());
            self.cut(&format!("{name}, a byte less"), &roster, shorter, &right, refused.clone());
            self.cut(&format!("{name}, no bytes"), &roster, &[], &right, refused.clone());
            // One submission more, and one fewer, than there are lengths.
            let more = none.repeat(count + 1);
            self.cut(&format!("{name}, one more"), &roster, &more, &right, refused.clone());
            let fewer = none.repeat(count - 1);
            self.cut(&format!("{name}, one fewer"), &roster, &fewer, &right, refused);
            // Every bit of every length.
            for bit in self.some((0..32 * count).collect(), 4) {
                let mut lengths = right.clone();
                lengths[bit / 32] ^= 1 << (bit % 32);
                let name = format!("{count} lengths of 44, bit {bit} another");
                self.cut(&name, &roster, &buffer, &lengths, Expect::Refused(18));
            }
        }
    }

    /// Number 18: sums that are the buffer's length only modulo 2^32.
    pub fn sums_modulo(&mut self) {
        let signer = self.signer(3);
        let (roster, none) = (signer.roster(), empties(&signer, 1).concat());
        for count in FEWEST..=MOST {
            let mut cases = Vec::new();
            for times in 1..count as u64 {
                for bytes in [0, 1, 44, 88, 44 * count as u64] {
                    cases.push((spread(bytes + times * PAST, count), bytes));
                }
            }
            for (mut lengths, bytes) in self.some(cases, 6) {
                let by = self.random.below(count);
                lengths.rotate_left(by);
                let buffer: Vec<u8> = none.iter().copied().cycle().take(bytes as usize).collect();
                let name = format!("{bytes} bytes, and lengths {lengths:?}");
                self.cut(&name, &roster, &buffer, &lengths, Expect::Refused(18));
            }
        }
        let most = u32::MAX;
        for (lengths, count) in [
            (vec![44, most, 1], 1),
            (vec![most, 1, 44], 1),
            (vec![most, 45], 1),
            (vec![1, most], 0),
            (vec![1 << 31, 1 << 31], 0),
            (vec![1 << 31, 1 << 31, 44], 1),
            (vec![44, 44, most, 1], 2),
            (vec![44, 44, 1 << 31, 1 << 31], 2),
            (vec![44, 44, 44, 44, 44, 44, 44, most, 1], 7),
            (vec![1 << 31, 44, 44, 44, 1 << 31, 44, 44], 5),
        ] {
            let name = format!("{count} submissions, and lengths {lengths:?}");
            self.cut(&name, &roster, &none.repeat(count), &lengths, Expect::Refused(18));
        }
    }

    /// Buffers of more than 2^32 bytes: their length is not cut to 32 bits, and a sum above 2^32
    /// may be right. The memory is zero and all but never touched.
    pub fn past_32_bits(&mut self) {
        if self.size == Size::Small || usize::BITS < 64 {
            return;
        }
        let roster = self.signer(3).roster();
        let buffer = vec![0; PAST as usize + 88];
        self.cut("2^32 bytes too many", &roster, &buffer, &[44, 44], Expect::Refused(18));
        let lengths = [u32::MAX, 45, 44];
        let buffer = &buffer[..];
        self.cut("a sum above 2^32", &roster, buffer, &lengths, found(&[5, 6, 6], 0, (0, 0)));
    }
}

/// So many lengths with this sum, the largest first.
fn spread(sum: u64, count: usize) -> Vec<u32> {
    let mut rest = sum;
    let lengths = (0..count)
        .map(|_| {
            let length = rest.min(u32::MAX.into());
            rest -= length;
            length as u32
        })
        .collect();
    assert_eq!(rest, 0, "{count} lengths can have the sum {sum}");
    lengths
}
