//! Drawn pairs in which a replica stamps two logs in one term, and votes for two requests first in
//! a lower term, in the same one or in a higher one: each in turn. Nothing is committed, so that
//! rules 3 and 4 say nothing. What is right is counted from what was drawn.

use crate::build::Draft;
use crate::cases::Cases;
use crate::district::shuffle;
use crate::roster::mask_of;
use crate::signer::Signer;
use crate::statement::Record;

/// Where the lowest term of the two votes is, seen from that of the two stamps.
#[derive(Clone, Copy, Debug)]
enum Votes {
    Below,
    There,
    Above,
}

/// Two logs with a record in each of the same terms.
struct Drawn {
    terms: Vec<u32>,
    /// The term, counted from 0, whose records differ, and no others.
    parted: usize,
    /// Each term's candidate and signers, in the first and in the second.
    leaders: Vec<[(u16, u16); 2]>,
}

impl Drawn {
    /// A replica's row: the lowest term from that of the other record on in which it is the leader
    /// of both; without one the lowest in which it signed both requests, which differ by their
    /// candidates, or after that term by the ends.
    fn row(&self, replica: u16) -> String {
        let signed_both = |both: &[(u16, u16); 2]| {
            both.iter().all(|(_, signers)| signers & mask_of(&[replica]) != 0)
        };
        let stamps = |(i, both): &(usize, &[(u16, u16); 2])| {
            *i >= self.parted && both.iter().all(|(leader, _)| *leader == replica)
        };
        let votes = |(i, both): &(usize, &[(u16, u16); 2])| {
            signed_both(both) && (both[0].0 != both[1].0 || *i > self.parted)
        };
        let terms = || self.leaders.iter().enumerate();
        let row = |rule, i: usize| format!("board {replica} rule {rule} term {}\n", self.terms[i]);
        match (terms().find(stamps), terms().find(votes)) {
            (Some((i, _)), _) => row(2, i),
            (None, Some((i, _))) => row(1, i),
            (None, None) => String::new(),
        }
    }
}

impl Cases<'_> {
    pub fn drawn_precedence(&mut self) {
        for round in 0..self.count(60) {
            let n = [3, 3, 4, 5, 9][self.random.below(5)];
            let votes = [Votes::Below, Votes::There, Votes::Above][round % 3];
            let signer = self.signer(n, 5);
            let drawn = self.drawn_rules(n, votes, &signer);
            let [a, b] = &self.drawn_logs(&drawn, &signer);
            let rows: String = (1..=n as u16).map(|k| drawn.row(k)).collect();
            let name = format!("drawn row order {round} of {n}, two votes {votes:?}");
            self.lines(&name, &signer, a, b, &format!("fork 0\n{rows}"));
            let name = format!("{name}, exchanged");
            self.lines(&name, &signer, b, a, &format!("fork 0\n{rows}"));
        }
    }

    /// Up to the stamps' term there is one request in each term, but for that of the votes.
    fn drawn_rules(&mut self, n: usize, votes: Votes, signer: &Signer) -> Drawn {
        let count = 3 + self.random.below(2);
        let (stamped, voted) = match votes {
            Votes::Below => {
                let stamped = 1 + self.random.below(count - 1);
                (stamped, self.random.below(stamped))
            }
            Votes::There => {
                let stamped = 1 + self.random.below(count - 1);
                (stamped, stamped)
            }
            Votes::Above => {
                let stamped = self.random.below(count - 1);
                (stamped, stamped + 1 + self.random.below(count - 1 - stamped))
            }
        };
        // A leader elected after the logs part has asked twice.
        let parted = stamped - usize::from(stamped == voted);
        let mut replicas: Vec<u16> = (1..=n as u16).collect();
        shuffle(&mut replicas, &mut self.random);
        let (mut term, mut terms, mut leaders) = (0, Vec::new(), Vec::new());
        for i in 0..count {
            term += 1 + self.random.below(2) as u32;
            terms.push(term);
            let candidates = match i {
                _ if i == stamped => [replicas[0]; 2],
                _ if i == voted => [replicas[1], replicas[2]],
                _ if i < stamped => [replicas[1 + self.random.below(n - 1)]; 2],
                _ => [0, 1].map(|_| replicas[self.random.below(n)]),
            };
            let voter = if i == voted { mask_of(&[replicas[0]]) } else { 0 };
            leaders.push(candidates.map(|candidate| {
                (candidate, self.some_quorum(signer) | mask_of(&[candidate]) | voter)
            }));
        }
        Drawn { terms, parted, leaders }
    }

    fn drawn_logs(&mut self, drawn: &Drawn, signer: &Signer) -> [Draft; 2] {
        let record = |term: &u32| Record { term: *term, payload: self.random.array() };
        let first: Vec<Record> = drawn.terms.iter().map(record).collect();
        let mut second = first.clone();
        second[drawn.parted].payload = self.random.array();
        [(first, 0), (second, 1)].map(|(records, which)| {
            let leaders: Vec<(u16, u16)> = drawn.leaders.iter().map(|both| both[which]).collect();
            signer.submission(&records, &leaders, None)
        })
    }
}
