//! As many signatures of one replica as two submissions can have: 64 votes, 64 stamps and a receipt
//! in each, 258 in all.

use super::places::{places, sign, Place};
use super::{FIRST, SECOND};
use crate::build::{log, Draft};
use crate::cases::{Cases, Size};
use crate::signer::Signer;
use crate::submission::MOST_TERMS;

/// The signatures of replica 1 in one of the two.
const IN_ONE: usize = 2 * MOST_TERMS as usize + 1;

/// Where two of the 258 have one leaf, counted from 0: the first and the last, the first and the
/// last of each submission, its last stamp and its receipt, and the neighbours where they meet.
const TWO: [[usize; 2]; 8] = [
    [0, 2 * IN_ONE - 1],
    [0, IN_ONE - 1],
    [IN_ONE, 2 * IN_ONE - 1],
    [IN_ONE - 2, IN_ONE - 1],
    [2 * IN_ONE - 2, 2 * IN_ONE - 1],
    [IN_ONE - 1, IN_ONE],
    [IN_ONE - 1, 2 * IN_ONE - 1],
    [1, 2 * IN_ONE - 2],
];

impl Cases<'_> {
    /// One log of 64 terms in both, all led by replica 1, with receipts for its last record in the
    /// first and for the one before in the second. Every signature of replica 1 has a leaf of its
    /// own, 0 to 257, also where the message is the same, but for two of them.
    pub fn most_signatures(&mut self) {
        if self.size == Size::Small {
            return;
        }
        let few = MOST_TERMS + 2;
        let leaves = |k| 0..if k == 1 { 2 * IN_ONE as u32 } else { few };
        let signer = Signer::new(&self.keys.cluster_each(3, 6, leaves));
        let terms: Vec<(u32, &str)> = (1..=MOST_TERMS).map(|term| (term, "a")).collect();
        let (records, leaders) = (log(&terms), [(1, 0b011); MOST_TERMS as usize]);
        let made = |index| signer.submission(&records, &leaders, Some((index, 0b011)));
        let mut two = [made(MOST_TERMS), made(MOST_TERMS - 1)];
        let mut all: Vec<(usize, Place)> = Vec::new();
        for which in [FIRST, SECOND] {
            let own = places(&two[which], 1);
            assert_eq!(own.len(), IN_ONE);
            all.extend(own.into_iter().map(|place| (which, place)));
        }
        for (i, (which, place)) in all.iter().enumerate() {
            sign(&signer, &mut two[*which], 1, *place, i as u32);
        }
        self.leaves_of("258 signatures by as many", &signer, &two, "");
        for [one, other] in TWO {
            let two = shared(&signer, two.clone(), all[other], one as u32);
            let name = format!("258 signatures, the same for {one} and {other}");
            self.leaves_of(&name, &signer, &two, &format!("board 1 rule 5 term {one}\n"));
        }
    }
}

/// The two with a signature of replica 1 by a leaf that has signed another one.
fn shared(signer: &Signer, mut two: [Draft; 2], at: (usize, Place), leaf: u32) -> [Draft; 2] {
    let (which, place) = at;
    sign(signer, &mut two[which], 1, place, leaf);
    two
}
