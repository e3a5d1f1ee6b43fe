//! Any byte of the submissions or of the roster changed.

use super::{Cases, Expect};
use crate::build::log;
use crate::cases::led;
use crate::roster::{HEAD_SIZE, KEY_SIZE};

impl Cases<'_> {
    /// A byte of one submission takes another value: that one is refused, and no other.
    pub fn damaged(&mut self) {
        let signer = self.signer(3);
        let roster = signer.roster();
        let second = signer.submission(&log(&[(2, "b")]), &[(3, 0b110)], Some((1, 0b110)));
        let submissions = [
            led(&signer, "a", 0b011, 1).bytes(),
            second.bytes(),
            led(&signer, "ab", 0b101, 0).bytes(),
        ];
        let lengths = submissions.each_ref().map(|one| one.len() as u32);
        let buffer = submissions.concat();
        for at in self.bytes_of(&submissions) {
            let mut other = buffer.clone();
            other[at] ^= 1 + self.random.below(255) as u8;
            let mut end = 0;
            let accepted = submissions.each_ref().map(|one| {
                end += one.len();
                !(end - one.len()..end).contains(&at)
            });
            let name = format!("three submissions, byte {at} is {}", other[at]);
            self.cut(&name, &roster, &other, &lengths, Expect::Accepted(accepted.to_vec()));
        }
        // Of the roster: the name, n, and of each key its types, its identifier and its root.
        let mut places = vec![0, 15, 16, 17];
        for k in 0..3 {
            places.extend([0, 3, 4, 7, 8, 23, 24, 55].map(|at| HEAD_SIZE + KEY_SIZE * k + at));
        }
        for at in self.some(places, 4) {
            let mut other = roster.clone();
            other[at] ^= 1 << self.random.below(8);
            let expect = match at {
                at if at < 16 => Expect::Accepted(vec![false; 3]),
                16 | 17 => Expect::Refused(2),
                at if (at - HEAD_SIZE) % KEY_SIZE < 8 => Expect::Refused(3),
                _ => Expect::Any,
            };
            self.cut(&format!("byte {at} of the roster"), &other, &buffer, &lengths, expect);
        }
    }

    /// Each byte at the ends of the submissions, and some of the others.
    fn bytes_of(&mut self, submissions: &[Vec<u8>]) -> Vec<usize> {
        let (mut places, mut begin) = (Vec::new(), 0);
        for one in submissions {
            places.extend((0..4).chain(one.len() - 44..one.len()).map(|at| begin + at));
            for _ in 0..20 {
                places.push(begin + self.random.below(one.len()));
            }
            begin += one.len();
        }
        self.some(places, 20)
    }
}
