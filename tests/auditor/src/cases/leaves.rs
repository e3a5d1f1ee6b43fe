//! Rule 5 (document 02, W5): one leaf of a replica's key, and two messages. The pairs here break no
//! other rule, but for those of `beside`; what is expected of each was found by hand.

mod beside;
mod drawn;
mod fixed;
mod most;
pub mod places;

use super::{empty, Cases};
use crate::build::{log, Draft};
use crate::signer::Signer;
use fixed::{CHARGED, NOT_CHARGED};
use places::Place::{self, Receipt, Stamp, Vote};

/// The first submission of a pair, and the second.
pub const FIRST: usize = 0;
pub const SECOND: usize = 1;

/// A signature by a chosen leaf: in which submission, whose, where, and the leaf's number.
pub type By = (usize, u16, Place, u32);

/// Two submissions that break no rule, and each message has a leaf of its own; everybody signs.
///
/// First: (1, a), (2, b), led by 1 and 2; the receipts are for (2, 2).
/// Second: (1, a), (2, b), (2, c), (3, d), led by 1, 2 and 3; the receipts are for (2, 3).
///
/// A replica signs the votes of terms 1 and 2, which stand in both, with leaves 0 and 1, counted
/// from its first one. No replica has more than eight messages.
pub fn kept(signer: &Signer) -> [Draft; 2] {
    let all = signer.all();
    let leaders = [(1, all), (2, all), (3, all)];
    let second = log(&[(1, "a"), (2, "b"), (2, "c"), (3, "d")]);
    [
        signer.submission(&second[..2], &leaders[..2], Some((2, all))),
        signer.submission(&second, &leaders, Some((3, all))),
    ]
}

/// The same two, with these signatures by chosen leaves.
pub fn signed_by(signer: &Signer, uses: &[By]) -> [Draft; 2] {
    let mut two = kept(signer);
    sign_by(signer, &mut two, uses);
    two
}

/// Puts signatures by chosen leaves into two submissions.
pub fn sign_by(signer: &Signer, two: &mut [Draft; 2], uses: &[By]) {
    for (which, replica, place, leaf) in uses {
        places::sign(signer, &mut two[*which], *replica, *place, *leaf);
    }
}

impl Cases<'_> {
    pub fn leaves(&mut self) {
        for (name, uses, rest) in CHARGED {
            let signer = self.signer(3, 5);
            let two = signed_by(&signer, uses);
            self.leaves_of(name, &signer, &two, rest);
        }
        for (name, uses) in NOT_CHARGED {
            let signer = self.signer(3, 5);
            let two = signed_by(&signer, uses);
            self.leaves_of(name, &signer, &two, "");
        }
        self.beside_itself();
        self.other_bytes();
        self.highest_leaves();
        self.several_replicas();
        self.leaves_beside_rules();
        self.most_signatures();
        self.drawn_leaves();
    }

    /// In both orders; there is no fork.
    fn leaves_of(&mut self, name: &str, signer: &Signer, [a, b]: &[Draft; 2], rest: &str) {
        let (name, rest) = (format!("leaves: {name}"), format!("fork 0\n{rest}"));
        self.lines(&name, signer, a, b, &rest);
        self.lines(&format!("{name}, exchanged"), signer, b, a, &rest);
    }

    /// Two messages in one submission, beside an empty one and beside itself.
    fn beside_itself(&mut self) {
        for (name, uses, rest) in CHARGED {
            let which = uses[0].0;
            if uses.len() != 2 || uses[1].0 != which {
                continue;
            }
            let signer = self.signer(3, 5);
            let one = &signed_by(&signer, uses)[which];
            let two = [one.clone(), empty(&signer)];
            self.leaves_of(&format!("{name}, and an empty one"), &signer, &two, rest);
            let twice = [one.clone(), one.clone()];
            self.leaves_of(&format!("{name}, twice"), &signer, &twice, rest);
        }
        // A stamp in one and a receipt in the other, for one record: the kinds alone differ.
        let signer = self.signer(3, 5);
        let [first, _] = kept(&signer);
        let mut two = [first.clone(), first];
        places::sign(&signer, &mut two[FIRST], 2, Stamp(1), 14);
        places::sign(&signer, &mut two[SECOND], 2, Receipt, 14);
        let name = "a stamp and a receipt of one log's submissions, for one record";
        self.leaves_of(name, &signer, &two, "board 2 rule 5 term 14\n");
    }

    /// One message signed twice by one leaf, with another C: no charge by itself; and a third
    /// signature by that leaf, of another message, which stands before the two, between or after
    /// them.
    fn other_bytes(&mut self) {
        for (name, third, rest) in [
            ("one message twice", None, ""),
            ("a vote, then a vote twice", Some((FIRST, Vote(0))), "board 2 rule 5 term 16\n"),
            ("a receipt between a vote twice", Some((FIRST, Receipt)), "board 2 rule 5 term 16\n"),
            ("a vote twice, then a receipt", Some((SECOND, Receipt)), "board 2 rule 5 term 16\n"),
        ] {
            let signer = self.signer(3, 5);
            let mut two = signed_by(&signer, &[(FIRST, 2, Vote(1), 16)]);
            places::sign_anew(&signer, &mut two[SECOND], 2, Vote(1), 16);
            if let Some((which, place)) = third {
                places::sign(&signer, &mut two[which], 2, place, 16);
            }
            self.leaves_of(&format!("{name}, with other bytes"), &signer, &two, rest);
        }
        // Every signature of the one again in the other, each by its own leaf with another C.
        let signer = self.signer(3, 5);
        let [first, _] = kept(&signer);
        let mut two = [first.clone(), first];
        for replica in 1..=3 {
            for place in places::places(&two[FIRST], replica) {
                let leaf = places::leaf(&mut two[FIRST], replica, place);
                places::sign_anew(&signer, &mut two[SECOND], replica, place, leaf);
            }
        }
        assert!(two[FIRST].stamps.iter().zip(&two[SECOND].stamps).all(|(a, b)| a != b));
        self.leaves_of("all messages twice, with other bytes", &signer, &two, "");
    }

    /// The last leaf of the tree, and the last but one, for every height: 31 to 33,554,431.
    fn highest_leaves(&mut self) {
        const LAST: [(u32, u32); 5] =
            [(5, 31), (6, 1023), (7, 32_767), (8, 1_048_575), (9, 33_554_431)];
        for (tree, last) in self.some(LAST.to_vec(), 2) {
            let cluster = self.keys.cluster_each(3, tree, |_| last - 15..last + 1);
            let signer = Signer::new(&cluster);
            for leaf in [last, last - 1] {
                let uses = [(FIRST, 3, Receipt, leaf), (SECOND, 3, Vote(2), leaf)];
                let two = signed_by(&signer.clone(), &uses);
                let name = format!("leaf {leaf} of a tree of type {tree}");
                self.leaves_of(&name, &signer, &two, &format!("board 3 rule 5 term {leaf}\n"));
            }
            let uses = [(FIRST, 3, Receipt, last), (SECOND, 3, Vote(2), last - 1)];
            let two = signed_by(&signer, &uses);
            self.leaves_of(&format!("the last two leaves, type {tree}"), &signer, &two, "");
        }
    }

    /// Of three, four and nine replicas every one, and every other one, with leaves that fall.
    fn several_replicas(&mut self) {
        for n in [3, 4, 9u16] {
            for step in [1, 2] {
                let signer = self.signer(n.into(), 5);
                let (mut uses, mut rest) = (Vec::new(), String::new());
                for replica in (1..=n).step_by(step) {
                    let leaf = 19 - u32::from(replica);
                    let [one, other] = match replica % 3 {
                        0 => [(FIRST, Vote(0)), (FIRST, Receipt)],
                        1 => [(FIRST, Vote(1)), (SECOND, Vote(2))],
                        _ => [(SECOND, Vote(0)), (SECOND, Receipt)],
                    };
                    uses.extend([one, other].map(|(which, at)| (which, replica, at, leaf)));
                    rest += &format!("board {replica} rule 5 term {leaf}\n");
                }
                let two = signed_by(&signer, &uses);
                let name = format!("replicas of {n}, each after {step}");
                self.leaves_of(&name, &signer, &two, &rest);
            }
        }
    }
}
