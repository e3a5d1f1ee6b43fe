//! Two submissions that fork, or in which a replica is named, in every two places of the list;
//! nothing can be charged in any other pair.

use super::refused::{number_in_turn, refused};
use super::requests::VOTER_OF_3;
use super::{found, Cases};
use crate::build::{log, Draft};
use crate::cases::empty;
use crate::cases::requests::{two_requests, FIELDS};
use crate::cases::worked_examples::{one_leader, stale_leader};
use crate::depot::{FEWEST, MOST};
use crate::roster::mask_of;
use crate::signer::Signer;

/// Two submissions, who is named in the pair, and whether it forks.
type Two = (Draft, Draft, u16, bool);

/// What stands in the other places.
#[derive(Clone, Copy, Debug, PartialEq)]
enum Others {
    Accepted,
    Refused,
    Either,
}

/// Replica 1 stamps two logs; replica 2 votes for a staler log, in one order of the pair or in the
/// other; replica 3 votes for two candidates, and nothing is committed; replica 2 votes for two
/// requests of replica 1, and replica 3, who led the term before, stamps two logs.
fn pairs(signer: &Signer) -> [(&'static str, Two); 5] {
    let (a, b) = one_leader(&signer.clone());
    let (first, second) = stale_leader(&signer.clone());
    let elected = signer.clone();
    let elect =
        |candidate, signers| elected.submission(&log(&[(4, "a")]), &[(candidate, signers)], None);
    let signers = VOTER_OF_3.quorums.map(mask_of);
    let [one, other] = two_requests(&signer.clone(), &FIELDS[3], &VOTER_OF_3, signers, None);
    [
        ("two stamps", (a, b, 0b001, true)),
        ("a stale vote", (first.clone(), second.clone(), 0b010, true)),
        ("a stale vote, exchanged", (second, first, 0b010, true)),
        ("two votes", (elect(1, 0b101), elect(3, 0b110), 0b100, false)),
        ("two requests", (one, other, 0b111, false)),
    ]
}

impl Cases<'_> {
    pub fn places(&mut self) {
        let signer = self.signer(3);
        let pairs = pairs(&signer);
        let mut places = Vec::new();
        for count in FEWEST..=MOST {
            for lower in 0..count {
                for higher in lower + 1..count {
                    for others in [Others::Accepted, Others::Refused, Others::Either] {
                        if others == Others::Accepted || count > 2 {
                            places.push((count, lower, higher, others));
                        }
                    }
                }
            }
        }
        let turn = self.random.below(pairs.len());
        for (i, place) in self.some(places, 24).into_iter().enumerate() {
            let (what, two) = &pairs[(i / 3 + i % 3 + turn) % pairs.len()];
            self.place(&signer, what, two, place);
        }
    }

    /// The two at these places, counted from 0.
    fn place(
        &mut self,
        signer: &Signer,
        what: &str,
        (first, second, named, forks): &Two,
        (count, lower, higher, others): (usize, usize, usize, Others),
    ) {
        let (mut submissions, mut numbers) = (Vec::new(), Vec::new());
        let from = self.random.below(11);
        for at in 0..count {
            let accepted = match others {
                Others::Accepted => true,
                Others::Refused => false,
                Others::Either => self.random.below(2) == 0,
            };
            let number = if accepted { 0 } else { number_in_turn(from + at) };
            let (number, submission) = match at {
                at if at == lower => (0, first.bytes()),
                at if at == higher => (0, second.bytes()),
                _ if accepted => (number, empty(signer).bytes()),
                _ => (number, refused(signer, second, number)),
            };
            submissions.push(submission);
            numbers.push(number);
        }
        let fork = if *forks { (lower as u8 + 1, higher as u8 + 1) } else { (0, 0) };
        let name = format!("{what} at {lower} and {higher} of {count}, others {others:?}");
        self.run(&name, &signer.roster(), &submissions, found(&numbers, *named, fork));
    }
}
