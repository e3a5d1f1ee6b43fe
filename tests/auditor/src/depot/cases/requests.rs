//! Votes of one term for two requests (document 02, W4), in a list: whoever signed both is named,
//! though no other pair charges it.

use super::refused::{number_in_turn, refused};
use super::{found, Cases};
use crate::build::{log, Draft};
use crate::cases::empty;
use crate::cases::requests::{two_requests, Field, Roles, FIELDS, OF_3, OF_4, OF_9};
use crate::roster::mask_of;
use crate::signer::Signer;

/// Replica 2 votes for both requests, and neither is its own where they have one candidate; nor
/// does it lead term 1.
pub const VOTER_OF_3: Roles =
    Roles { quorums: [&[1, 2], &[1, 2]], candidates: [1, 2], both: &[1, 2], ..OF_3 };
const VOTER_OF_9: Roles =
    Roles { quorums: [&[1, 2, 3, 4, 5], &[1, 2, 7, 8, 9]], both: &[1, 2], ..OF_9 };

/// What stands in a list.
#[derive(Clone, Copy, Debug, PartialEq)]
enum Place {
    /// The first of the two submissions, and the second.
    First,
    Second,
    /// An empty log.
    Empty,
    /// One that is refused.
    Refused,
}

use Place::{Empty, First, Refused, Second};

const LISTS: [&[Place]; 8] = [
    &[First, Second],
    &[Second, First],
    &[First, Refused, Second],
    &[Second, Refused, Refused, First],
    &[Refused, First, Second, Refused],
    &[Refused, First, Empty, Refused, Second],
    &[First, Refused, Refused, Refused, Refused, Refused, Refused, Refused, Second],
    &[Empty, Refused, Second, Refused, Empty, Refused, Refused, First, Refused],
];

impl Cases<'_> {
    pub fn requests(&mut self) {
        for (n, roles) in [(3, VOTER_OF_3), (4, OF_4), (9, VOTER_OF_9), (3, OF_3), (9, OF_9)] {
            for field in &FIELDS {
                for list in self.some(LISTS.to_vec(), 3) {
                    self.two_in(list, n, &roles, field);
                }
                self.beside_stamps(n, &roles, field);
            }
        }
        self.one_request();
    }

    /// The two in a list in which no other pair charges anybody: named is who signed both requests,
    /// and whoever led term 1 if that stamped two logs.
    fn two_in(&mut self, list: &[Place], n: usize, roles: &Roles, field: &Field) {
        let signer = self.signer(n);
        let two = two_requests(&signer, field, roles, roles.quorums.map(mask_of), None);
        let (submissions, numbers) = self.filled(&signer, list, &two);
        let stamped = if field.stamps { mask_of(&[roles.leader]) } else { 0 };
        let named = mask_of(roles.both) | stamped;
        let name = format!(
            "two requests of {n}, another {}, signed by {:?}, in {list:?}",
            field.name, roles.both
        );
        self.run(&name, &signer.roster(), &submissions, found(&numbers, named, (0, 0)));
    }

    /// The list's submissions and their numbers; the refused ones would be charged with the first.
    fn filled(
        &mut self,
        signer: &Signer,
        list: &[Place],
        two: &[Draft; 2],
    ) -> (Vec<Vec<u8>>, Vec<u8>) {
        let from = self.random.below(11);
        let at = |(i, place): (usize, &Place)| match place {
            First => (two[0].bytes(), 0),
            Second => (two[1].bytes(), 0),
            Empty => (empty(signer).bytes(), 0),
            Refused => {
                let number = number_in_turn(from + i);
                (refused(signer, &two[1], number), number)
            }
        };
        list.iter().enumerate().map(at).unzip()
    }

    /// Between the two a log of term 1 that forks with both, by its leader's stamps: these name the
    /// leader, and the two alone name who signed both requests.
    fn beside_stamps(&mut self, n: usize, roles: &Roles, field: &Field) {
        let signer = self.signer(n);
        let signers = roles.quorums.map(mask_of);
        let [first, second] = two_requests(&signer, field, roles, signers, Some([1, 1]));
        let electors = mask_of(roles.electors);
        let leader = [(roles.leader, electors)];
        let other = signer.submission(&log(&[(1, "x")]), &leader, Some((1, electors)));
        let bad = refused(&signer, &second, 15);
        let list = [first.bytes(), bad, other.bytes(), second.bytes()];
        // The second log begins with a record of term 2, whose voters gave receipts (1, 1) to the
        // other log; in term 4 it is elected on (2, 1).
        let stale = if field.name == "last term" { electors } else { 0 };
        let named = mask_of(roles.both) | mask_of(&[roles.leader]) | stale;
        let name = format!(
            "two requests of {n}, another {}, signed by {:?}, beside two stamps",
            field.name, roles.both
        );
        self.run(&name, &signer.roster(), &list, found(&[0, 15, 0, 0], named, (1, 3)));
    }

    /// One request, and two logs that its candidate stamps: its voters are not named.
    fn one_request(&mut self) {
        for n in [3, 4, 9] {
            let signer = self.signer(n);
            let all = signer.all();
            let made = |end| {
                let records = log(&[(1, "a"), (4, end)]);
                signer.submission(&records, &[(2, all), (1, all)], None)
            };
            let two = [made("y"), made("z")];
            for list in [LISTS[0], LISTS[3], LISTS[6]] {
                let (submissions, numbers) = self.filled(&signer, list, &two);
                let name = format!("one request of {n}, two stamps, in {list:?}");
                self.run(&name, &signer.roster(), &submissions, found(&numbers, 0b1, (0, 0)));
            }
            let list = [made("z").bytes(), empty(&signer).bytes(), made("z").bytes()];
            let name = format!("one request of {n}, one log twice");
            self.run(&name, &signer.roster(), &list, found(&[0; 3], 0, (0, 0)));
        }
    }
}
