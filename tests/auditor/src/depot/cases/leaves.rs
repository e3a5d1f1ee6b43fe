//! One leaf and two messages (document 02, W5), in a list: whoever has them in two accepted
//! submissions, or in one of at least two, is named, and nobody else.

use super::refused::{number_in_turn, refused};
use super::{found, Cases};
use crate::build::Draft;
use crate::cases::leaves::places::Place::{Receipt, Vote};
use crate::cases::leaves::{kept, signed_by, FIRST, SECOND};
use crate::cases::{empty, led};
use crate::depot::MOST;
use crate::roster::mask_of;
use crate::signer::Signer;

/// What stands in a list. Of the submissions with a leaf that is used twice the refused ones have
/// good signatures by it too.
#[derive(Clone, Copy, Debug, PartialEq)]
enum Place {
    /// One of the two messages, and the other.
    One,
    Other,
    /// Both.
    Both,
    /// Neither: an empty log, and a log whose every message has a leaf of its own.
    Empty,
    Kept,
    /// Refused, with one of the two messages, with the other, and with both.
    NoOne,
    NoOther,
    NoBoth,
}

use Place::{Both, Empty, Kept, NoBoth, NoOne, NoOther, One, Other};

/// Lists, and whether the replica is named.
const LISTS: [(&[Place], bool); 23] = [
    // In two accepted submissions.
    (&[One, Other], true),
    (&[Other, One], true),
    (&[One, NoOne, Other], true),
    (&[Other, NoBoth, NoOther, One], true),
    (&[Empty, One, Kept, Other], true),
    (&[NoOther, One, Empty, NoOne, Other], true),
    (&[One, NoBoth, NoBoth, NoBoth, NoBoth, NoBoth, NoBoth, NoBoth, Other], true),
    (&[Empty, NoOne, Other, NoOne, Kept, NoOther, NoBoth, One, NoOne], true),
    // In one of two or more that are accepted.
    (&[Both, Empty], true),
    (&[Empty, Both], true),
    (&[Both, Both], true),
    (&[NoBoth, Kept, NoOne, Both], true),
    (&[Empty, Empty, Empty, Empty, Empty, Empty, Empty, Empty, Both], true),
    (&[NoOne, Both, NoBoth, NoBoth, NoBoth, NoBoth, NoBoth, NoBoth, Empty], true),
    // In the only one that is accepted: no pair is audited.
    (&[Both, NoBoth], false),
    (&[NoOne, Both], false),
    (&[NoOther, Both, NoOne], false),
    (&[NoBoth, NoBoth, NoBoth, NoBoth, Both, NoBoth, NoBoth, NoBoth, NoBoth], false),
    // One of the two messages, or both, in refused ones alone.
    (&[NoOne, Kept, Other], false),
    (&[One, NoBoth, One, NoOther], false),
    (&[NoBoth, Kept, Empty, NoBoth], false),
    (&[NoOne, Other, NoOne, Other, NoOne, Kept, NoOne, Empty, NoOne], false),
    // No leaf has two.
    (&[Kept, Empty, Kept], false),
];

/// The leaf that is used twice.
const LEAF: u32 = 20;

/// The submissions that have one message, the other, and both, by the leaf of a replica.
struct Reused {
    one: Draft,
    other: Draft,
    both: Draft,
}

impl Reused {
    fn new(signer: &Signer, replica: u16) -> Reused {
        let across = [(FIRST, replica, Receipt, LEAF), (SECOND, replica, Receipt, LEAF)];
        let [one, other] = signed_by(signer, &across);
        let inside = [(SECOND, replica, Vote(2), LEAF), (SECOND, replica, Receipt, LEAF)];
        let [_, both] = signed_by(signer, &inside);
        Reused { one, other, both }
    }
}

impl Cases<'_> {
    pub fn leaves(&mut self) {
        for (n, replica) in [(3, 2), (4, 4), (9, 1), (9, 9)] {
            for (list, named) in self.some(LISTS.to_vec(), 8) {
                self.leaf_in(list, n, replica, named);
            }
        }
        self.leaf_in_refused();
        self.leaf_among_nine();
        self.leaves_of_two();
        self.leaf_beside_fork();
    }

    /// The replica's leaf in a list in which nobody else is charged, and no pair forks.
    fn leaf_in(&mut self, list: &[Place], n: usize, replica: u16, named: bool) {
        let signer = self.signer(n);
        let Reused { one, other, both } = Reused::new(&signer, replica);
        let from = self.random.below(11);
        let bad = |draft: &Draft, i: usize| {
            let number = number_in_turn(from + i);
            (refused(&signer, draft, number), number)
        };
        let at = |(i, place): (usize, &Place)| match place {
            One => (one.bytes(), 0),
            Other => (other.bytes(), 0),
            Both => (both.bytes(), 0),
            Empty => (empty(&signer).bytes(), 0),
            Kept => (kept(&signer)[SECOND].bytes(), 0),
            NoOne => bad(&one, i),
            NoOther => bad(&other, i),
            NoBoth => bad(&both, i),
        };
        let (submissions, numbers): (Vec<Vec<u8>>, Vec<u8>) =
            list.iter().enumerate().map(at).unzip();
        let named = if named { mask_of(&[replica]) } else { 0 };
        let name = format!("leaves: replica {replica} of {n} in {list:?}");
        self.run(&name, &signer.roster(), &submissions, found(&numbers, named, (0, 0)));
    }

    /// One of the two messages in a submission that is refused by a number that leaves its parts as
    /// they are: all its signatures, or all but one, are good. Alone, and beside an empty log.
    fn leaf_in_refused(&mut self) {
        for number in [6, 7, 13, 15] {
            let signer = self.signer(3);
            let Reused { one, other, .. } = Reused::new(&signer, 2);
            let mut list = vec![one.bytes(), refused(&signer, &other, number)];
            let name = format!("leaves: the other message refused by {number}");
            self.run(&name, &signer.roster(), &list, found(&[0, number], 0, (0, 0)));
            list.push(empty(&signer).bytes());
            let name = format!("{name}, and an empty one");
            self.run(&name, &signer.roster(), &list, found(&[0, number, 0], 0, (0, 0)));
        }
    }

    /// The two messages at every two of nine places, among accepted submissions that do no wrong.
    fn leaf_among_nine(&mut self) {
        let places: Vec<(usize, usize)> =
            (0..MOST).flat_map(|i| (i + 1..MOST).map(move |j| (i, j))).collect();
        for (lower, higher) in self.some(places, 4) {
            let signer = self.signer(3);
            let Reused { one, other, .. } = Reused::new(&signer, 3);
            let others = [kept(&signer)[FIRST].bytes(), empty(&signer).bytes()];
            let mut list: Vec<Vec<u8>> = (0..MOST).map(|i| others[i % 2].clone()).collect();
            list[lower] = one.bytes();
            list[higher] = other.bytes();
            let name = format!("leaves: among nine, at {} and {}", lower + 1, higher + 1);
            self.run(&name, &signer.roster(), &list, found(&[0; MOST], 0b100, (0, 0)));
        }
    }

    /// Replica 1's leaf in the first and the second submission, replica 3's in the second and the
    /// third: the named of all pairs; and without the second nobody.
    fn leaves_of_two(&mut self) {
        let signer = self.signer(3);
        let [first, second] = signed_by(
            &signer,
            &[
                (FIRST, 1, Receipt, LEAF),
                (SECOND, 1, Receipt, LEAF),
                (SECOND, 3, Vote(2), LEAF + 1),
            ],
        );
        let [third, _] = signed_by(&signer, &[(FIRST, 3, Receipt, LEAF + 1)]);
        let (roster, list) = (signer.roster(), [first, second, third]);
        let bytes = list.each_ref().map(|draft| draft.bytes());
        self.run("leaves: of two replicas", &roster, &bytes, found(&[0; 3], 0b101, (0, 0)));
        let bad = [bytes[0].clone(), refused(&signer, &list[1], 15), bytes[2].clone()];
        let name = "leaves: of two replicas, the second refused";
        self.run(name, &roster, &bad, found(&[0, 15, 0], 0, (0, 0)));
        let two = &bytes[1..];
        self.run("leaves: of one of the two", &roster, two, found(&[0; 2], 0b100, (0, 0)));
    }

    /// Replica 1 stamps two logs in term 1, (1, a) and (1, b), and both are committed; replica 3 has
    /// both messages in a third submission, which goes on from (1, a).
    fn leaf_beside_fork(&mut self) {
        let signer = self.signer(3);
        let two = ["a", "b"].map(|letter| led(&signer, letter, 0b011, 1).bytes());
        let both = Reused::new(&signer, 3).both;
        let [a, b] = two;
        let bad = refused(&signer, &both, 13);
        let (roster, both) = (signer.roster(), both.bytes());
        let right = found(&[0; 3], 0b101, (1, 2));
        self.run("leaves: beside a fork", &roster, &[a.clone(), b.clone(), both], right);
        let right = found(&[0, 0, 13], 0b001, (1, 2));
        self.run("leaves: refused beside a fork", &roster, &[a, b, bad], right);
    }
}
