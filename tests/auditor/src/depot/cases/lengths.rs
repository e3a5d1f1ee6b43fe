//! How many lengths there are; lengths of 0, and lengths that end a submission in another place.

use super::{empties, found, Cases, Expect};
use crate::cases::led;
use crate::depot::{FEWEST, MOST};

impl Cases<'_> {
    /// Number 17: each count of submissions, all accepted, and of lengths of 0.
    pub fn counts(&mut self) {
        let signer = self.signer(3);
        let (roster, none) = (signer.roster(), empties(&signer, 1).concat());
        let mut counts: Vec<usize> = (0..=20).collect();
        counts.extend([31, 32, 33, 64, 100, 255, 256, 257, 258, 265, 266, 65536, 65538]);
        for count in self.some(counts, 8) {
            let expect = |number| match (FEWEST..=MOST).contains(&count) {
                true => found(&vec![number; count], 0, (0, 0)),
                false => Expect::Refused(17),
            };
            let (buffer, lengths) = (none.repeat(count), vec![44; count]);
            self.cut(&format!("{count} lengths"), &roster, &buffer, &lengths, expect(0));
            let name = format!("{count} lengths of 0");
            self.cut(&name, &roster, &[], &vec![0; count], expect(5));
        }
    }

    /// Submissions of no bytes get number 5, in every place.
    pub fn no_bytes(&mut self) {
        let signer = self.signer(3);
        let roster = signer.roster();
        for count in FEWEST..=MOST {
            for at in self.some((0..count).collect(), 2) {
                let mut submissions = empties(&signer, count);
                let mut numbers = vec![0; count];
                submissions[at].clear();
                numbers[at] = 5;
                let name = format!("{count} submissions, no bytes at {at}");
                self.run(&name, &roster, &submissions, found(&numbers, 0, (0, 0)));
                let other = self.random.below(count);
                submissions[other].clear();
                numbers[other] = 5;
                let name = format!("{count} submissions, no bytes at {at} and {other}");
                self.run(&name, &roster, &submissions, found(&numbers, 0, (0, 0)));
                // All of the bytes are one submission's.
                let (buffer, mut lengths) = (empties(&signer, count).concat(), vec![0; count]);
                lengths[at] = buffer.len() as u32;
                let mut numbers = vec![5; count];
                numbers[at] = 9;
                let name = format!("{count} submissions, all bytes at {at}");
                self.cut(&name, &roster, &buffer, &lengths, found(&numbers, 0, (0, 0)));
            }
        }
    }

    /// Lengths moved between neighbours: the sum is right, and the submissions are not.
    pub fn moved(&mut self) {
        let signer = self.signer(3);
        let roster = signer.roster();
        let drafts = ["a", "ab", "abc"].map(|letters| led(&signer, letters, 0b011, 1).bytes());
        let [one, two, three] = drafts;
        let none = empties(&signer, 1).concat();
        for submissions in [
            vec![none.clone(), none.clone()],
            vec![one.clone(), two.clone()],
            vec![one.clone(), none.clone(), two.clone()],
            vec![one, two, three, none.clone(), none],
        ] {
            let buffer = submissions.concat();
            let right: Vec<u32> = submissions.iter().map(|one| one.len() as u32).collect();
            for at in 0..right.len() - 1 {
                // A byte more at the end makes another version, and one fewer as well; a byte more
                // or fewer at the beginning another layout.
                for (first, second) in
                    [(right[at] + 1, right[at + 1] - 1), (right[at] - 1, right[at + 1] + 1)]
                {
                    let mut lengths = right.clone();
                    (lengths[at], lengths[at + 1]) = (first, second);
                    let mut numbers = vec![0; right.len()];
                    numbers[at] = if first < 44 { 5 } else { 6 };
                    numbers[at + 1] = if second < 44 { 5 } else { 9 };
                    let name = format!("lengths {lengths:?} for {right:?}");
                    self.cut(&name, &roster, &buffer, &lengths, found(&numbers, 0, (0, 0)));
                }
                for by in [2, 4, 36, 44] {
                    let mut lengths = right.clone();
                    let by = by.min(lengths[at]);
                    lengths[at] -= by;
                    lengths[at + 1] += by;
                    let name = format!("lengths {lengths:?} for {right:?}");
                    self.cut(&name, &roster, &buffer, &lengths, Expect::Any);
                }
                let mut lengths = right.clone();
                lengths.swap(at, at + 1);
                let name = format!("lengths {lengths:?} for {right:?}");
                self.cut(&name, &roster, &buffer, &lengths, Expect::Any);
            }
            // Any places to cut, in any number.
            for _ in 0..self.count(40) {
                let count = FEWEST + self.random.below(MOST - FEWEST + 1);
                let mut ends: Vec<usize> =
                    (1..count).map(|_| self.random.below(buffer.len() + 1)).collect();
                ends.extend([0, buffer.len()]);
                ends.sort();
                let lengths: Vec<u32> =
                    ends.windows(2).map(|two| (two[1] - two[0]) as u32).collect();
                let name = format!("lengths {lengths:?} for {right:?}");
                self.cut(&name, &roster, &buffer, &lengths, Expect::Any);
            }
        }
    }
}
