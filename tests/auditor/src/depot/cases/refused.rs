//! Submissions that are refused, with every number and in every place.

use super::{empties, found, Cases};
use crate::build::Draft;
use crate::cases::change::{set_leaders, set_signers};
use crate::cases::led;
use crate::cluster::Cluster;
use crate::depot::{FEWEST, MOST};
use crate::submission::CommitCertificate;

/// The numbers of a submission.
pub const NUMBERS: [u8; 11] = [5, 6, 7, 8, 9, 10, 11, 12, 13, 14, 15];

/// An accepted submission of one record or more, made to get this number.
pub fn refused(cluster: &Cluster, accepted: &Draft, number: u8) -> Vec<u8> {
    let mut draft = accepted.clone();
    match number {
        5 => {
            let bytes = draft.bytes();
            return bytes[bytes.len() - 43..].to_vec();
        }
        6 => draft.trailer.version = 2,
        7 => draft.trailer.name[0] ^= 1,
        8 => draft.trailer.leaders = 65,
        9 => draft.trailer.distances[2] += 1,
        10 => {
            let signers = draft.leaders[0].signers | 1 << 15;
            set_signers(cluster, &mut draft, 0, signers);
        }
        11 => draft.records[0].term = 0,
        12 => {
            let count = draft.leaders.len() + 1;
            set_leaders(&mut draft, count);
        }
        13 => draft.leaders[0].vote.candidate = 0,
        14 => {
            let signers = cluster.first_quorum();
            let signatures = cluster.no_signatures(signers);
            draft.commit = Some(CommitCertificate { index: 0, signers, signatures });
            draft.lay_out();
        }
        15 => draft.stamps[0][100] ^= 1,
        _ => panic!("no submission gets number {number}: ask for 5 to 15"),
    }
    draft.bytes()
}

/// The number of the i-th refused submission of a case: each in turn.
pub fn number_in_turn(i: usize) -> u8 {
    NUMBERS[i % NUMBERS.len()]
}

impl Cases<'_> {
    pub fn refused(&mut self) {
        self.one_refused();
        self.all_refused();
        self.all_but_one();
        self.refused_forks();
    }

    /// Each number in each place.
    fn one_refused(&mut self) {
        let signer = self.signer(3);
        let (roster, draft) = (signer.roster(), led(&signer, "a", 0b011, 1));
        for count in FEWEST..=MOST {
            let mut places = Vec::new();
            for at in 0..count {
                places.extend(NUMBERS.map(|number| (at, number)));
            }
            for (at, number) in self.some(places, 3) {
                let (mut submissions, mut numbers) = (empties(&signer, count), vec![0; count]);
                submissions[at] = refused(&signer, &draft, number);
                numbers[at] = number;
                let name = format!("{count} submissions, {number} at {at}");
                self.run(&name, &roster, &submissions, found(&numbers, 0, (0, 0)));
            }
        }
    }

    /// Numbers in turn, from each on.
    fn all_refused(&mut self) {
        let signer = self.signer(3);
        let (roster, draft) = (signer.roster(), led(&signer, "a", 0b011, 1));
        for count in FEWEST..=MOST {
            for from in self.some((0..NUMBERS.len()).collect(), 2) {
                let numbers: Vec<u8> = (from..from + count).map(number_in_turn).collect();
                let submissions: Vec<Vec<u8>> =
                    numbers.iter().map(|number| refused(&signer, &draft, *number)).collect();
                let name = format!("{count} submissions, all refused: {numbers:?}");
                self.run(&name, &roster, &submissions, found(&numbers, 0, (0, 0)));
            }
        }
    }

    /// One accepted submission, in each place: there is no pair.
    fn all_but_one(&mut self) {
        let signer = self.signer(3);
        let (roster, draft) = (signer.roster(), led(&signer, "a", 0b011, 1));
        let other = led(&signer, "b", 0b101, 1);
        for count in FEWEST..=MOST {
            for at in self.some((0..count).collect(), 1) {
                let mut numbers: Vec<u8> = (at..at + count).map(number_in_turn).collect();
                let mut submissions: Vec<Vec<u8>> =
                    numbers.iter().map(|number| refused(&signer, &other, *number)).collect();
                numbers[at] = 0;
                submissions[at] = draft.bytes();
                let name = format!("{count} submissions, all refused but {at}");
                self.run(&name, &roster, &submissions, found(&numbers, 0, (0, 0)));
            }
        }
    }

    /// A submission that would fork with another, and names nobody, for it is refused; and the same
    /// accepted after it.
    fn refused_forks(&mut self) {
        let signer = self.signer(3);
        let roster = signer.roster();
        let (a, b) = (led(&signer, "a", 0b011, 1), led(&signer, "b", 0b101, 1));
        for number in self.some(NUMBERS.to_vec(), 3) {
            let bad = refused(&signer, &b, number);
            for (name, submissions, numbers, named, fork) in [
                ("after", vec![a.bytes(), bad.clone()], vec![0, number], 0, (0, 0)),
                ("before", vec![bad.clone(), a.bytes()], vec![number, 0], 0, (0, 0)),
                (
                    "twice",
                    vec![bad.clone(), a.bytes(), bad.clone()],
                    vec![number, 0, number],
                    0,
                    (0, 0),
                ),
                ("between", vec![a.bytes(), bad.clone(), b.bytes()], vec![0, number, 0], 1, (1, 3)),
                ("first", vec![bad, b.bytes(), a.bytes()], vec![number, 0, 0], 1, (2, 3)),
            ] {
                let name = format!("a fork with a submission that gets {number}, {name}");
                self.run(&name, &roster, &submissions, found(&numbers, named, fork));
            }
        }
    }
}
