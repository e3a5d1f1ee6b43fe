//! Rule 1 as document 02, W4, has it: votes of one term for two requests, be they of one candidate.
//! Where the ends of the logs differ in term or index, so do their pointers. One candidate of two
//! requests has stamped two logs in that term, and its row has rule 2, which comes before rule 1
//! (W6).

use super::{Cases, Expect};
use crate::build::{log, Draft};
use crate::district::shuffle;
use crate::roster::{mask_of, replicas_of};
use crate::signer::Signer;
use crate::statement::{pointers, Record};

/// Records, each by its term and its payload.
type Log = &'static [(u32, &'static str)];

/// A field of a request, in which two of them differ.
pub struct Field {
    pub name: &'static str,
    /// The records before term 4, of the first log and of the second.
    pub before: [Log; 2],
    /// Whether term 4 has two candidates, and not one.
    pub candidates: bool,
    /// Whether the leader of term 1 has stamped two logs.
    pub stamps: bool,
}

impl Field {
    /// The row of a replica that signed both requests. It has rule 2 for replica 1 if that is the
    /// candidate of both, and for the leader of term 1 if that stamped two logs.
    fn row(&self, replica: u16, roles: &Roles) -> String {
        match replica {
            1 if !self.candidates => "board 1 rule 2 term 4\n".into(),
            k if k == roles.leader && self.stamps => format!("board {k} rule 2 term 1\n"),
            k => format!("board {k} rule 1 term 4\n"),
        }
    }
}

/// Each of the four. The ends of the logs are (1, 1) in both; (1, 1) and (2, 1); (1, 1) and (1, 2);
/// and twice (1, 2), with the same last record behind another one.
pub const FIELDS: [Field; 4] = [
    Field {
        name: "candidate",
        before: [&[(1, "a")], &[(1, "a")]],
        candidates: true,
        stamps: false,
    },
    Field {
        name: "last term",
        before: [&[(1, "a")], &[(2, "a")]],
        candidates: false,
        stamps: false,
    },
    Field {
        name: "last index",
        before: [&[(1, "a")], &[(1, "a"), (1, "b")]],
        candidates: false,
        stamps: false,
    },
    Field {
        name: "last pointer",
        before: [&[(1, "a"), (1, "m")], &[(1, "b"), (1, "m")]],
        candidates: false,
        stamps: true,
    },
];

/// Numbers for the payload of a first record of term 1: the pointers of two such records have the
/// same i-th word of four bytes.
const ALIKE: [(u32, u32); 8] = [
    (19121, 39811),
    (30673, 125821),
    (20976, 124455),
    (64560, 147871),
    (51199, 79626),
    (10876, 84858),
    (99825, 111540),
    (29694, 109741),
];

/// A cluster's replicas in these cases: who leads term 1, who elects it, the two quorums of term 4,
/// and whom of them candidates are taken from where there are two.
pub struct Roles {
    pub leader: u16,
    pub electors: &'static [u16],
    pub quorums: [&'static [u16]; 2],
    pub candidates: [u16; 2],
    /// Who is in both quorums; replica 1 always is, and is the candidate where there is one.
    pub both: &'static [u16],
}

pub const OF_3: Roles = Roles {
    leader: 3,
    electors: &[2, 3],
    quorums: [&[1, 2], &[1, 3]],
    candidates: [2, 3],
    both: &[1],
};
pub const OF_4: Roles = Roles {
    leader: 4,
    electors: &[2, 3, 4],
    quorums: [&[1, 2, 3], &[1, 2, 4]],
    candidates: [3, 4],
    both: &[1, 2],
};
pub const OF_9: Roles = Roles {
    leader: 9,
    electors: &[5, 6, 7, 8, 9],
    quorums: [&[1, 2, 3, 4, 5], &[1, 6, 7, 8, 9]],
    candidates: [5, 9],
    both: &[1],
};

/// Two logs of which term 4 is elected on requests that differ in a field; nothing is committed
/// unless an index is given for each, by those who elected term 4.
pub fn two_requests(
    signer: &Signer,
    field: &Field,
    roles: &Roles,
    signers: [u16; 2],
    commits: Option<[u32; 2]>,
) -> [Draft; 2] {
    [0, 1].map(|i| {
        let records = log(&[field.before[i], &[(4, "z")]].concat());
        let candidate = if field.candidates { roles.candidates[i] } else { 1 };
        let leaders = [(roles.leader, mask_of(roles.electors)), (candidate, signers[i])];
        signer.submission(&records, &leaders, commits.map(|commits| (commits[i], signers[i])))
    })
}

impl Cases<'_> {
    pub fn requests(&mut self) {
        for (n, roles) in [(3, OF_3), (4, OF_4), (9, OF_9)] {
            for field in &FIELDS {
                self.field_alone(n, &roles, field);
            }
        }
        self.one_request();
        self.terms_and_rules();
        self.pointers_alike();
        self.drawn_requests();
    }

    /// In both orders: no vote is stale, so that rules 3 and 4 say nothing.
    fn both_orders(&mut self, name: &str, signer: &Signer, [a, b]: &[Draft; 2], rest: &str) {
        self.lines(name, signer, a, b, rest);
        self.lines(&format!("{name}, exchanged"), signer, b, a, rest);
    }

    /// One field of the two requests alone: charged is who signed both, and nobody else.
    fn field_alone(&mut self, n: usize, roles: &Roles, field: &Field) {
        let signer = self.signer(n, 5);
        let Field { name, stamps, .. } = field;
        // Who signed one of the two only is not charged by rule 1.
        let some = roles.quorums.map(mask_of);
        let mut rest = "fork 0\n".to_string();
        for k in roles.both {
            rest += &field.row(*k, roles);
        }
        if *stamps {
            rest += &format!("board {} rule 2 term 1\n", roles.leader);
        }
        let two = two_requests(&signer.clone(), field, roles, some, None);
        let name = format!("two requests of {n}, another {name}");
        self.both_orders(&name, &signer, &two, &rest);
        // All break rule 1; for one candidate of both, and for a leader of term 1 that stamped two
        // logs, rule 2 comes before it.
        let all = (1..=n).map(|k| field.row(k as u16, roles)).collect::<String>();
        let everybody = [signer.all(); 2];
        let two = two_requests(&signer.clone(), field, roles, everybody, None);
        self.both_orders(&format!("{name}, all sign"), &signer, &two, &format!("fork 0\n{all}"));
        // The same with a fork: no vote is above the term of either commit.
        let (commits, fork) = match field.name {
            "candidate" => ([2, 2], 0),
            "last term" => ([2, 2], 1),
            "last index" => ([2, 3], 2),
            _ => ([3, 3], 1),
        };
        let two = two_requests(&signer.clone(), field, roles, everybody, Some(commits));
        let rest = format!("fork {fork}\n{all}");
        self.both_orders(&format!("{name}, all sign, committed"), &signer, &two, &rest);
    }

    /// The same vote in both, and votes of two terms: no rule 1.
    fn one_request(&mut self) {
        for (n, roles) in [(3, OF_3), (4, OF_4), (9, OF_9)] {
            let signer = self.signer(n, 5);
            let leader = (roles.leader, mask_of(roles.electors));
            let made = |signer: &Signer, end: (u32, &'static str), before: Log, signers| {
                let records = log(&[before, &[end]].concat());
                signer.submission(&records, &[leader, (1, signers)], None)
            };
            let [a, b] = roles.quorums.map(mask_of);
            for (name, signers) in [("the same", [a, a]), ("others", [a, b])] {
                let one = signer.clone();
                let same = signers.map(|mask| made(&one, (4, "z"), &[(1, "a")], mask));
                let name = format!("one request of {n}, signed by {name}");
                self.both_orders(&name, &signer, &same, "fork 0\n");
            }
            // One request, after which the candidate stamps two logs: its voters did no wrong.
            let two = signer.clone();
            let stamped = ["y", "z"].map(|end| made(&two, (4, end), &[(1, "a")], signer.all()));
            let name = format!("one request of {n}, two stamps");
            self.both_orders(&name, &signer, &stamped, "fork 0\nboard 1 rule 2 term 4\n");
            // One candidate in two terms, on one end and on two.
            let later = signer.clone();
            let ends: [Log; 2] = [&[(1, "a")], &[(1, "a"), (1, "b")]];
            for (end, what) in ends.into_iter().zip(["one end", "two ends"]) {
                let first = made(&later, (4, "z"), &[(1, "a")], signer.all());
                let second = made(&later, (5, "z"), end, signer.all());
                let name = format!("one candidate of {n} in two terms on {what}");
                self.both_orders(&name, &signer, &[first, second], "fork 0\n");
            }
        }
    }

    /// Rule 1 in two terms, beside other rules, and with a candidate more.
    fn terms_and_rules(&mut self) {
        let three = self.signer(3, 5);
        let made = |signer: &Signer, records: &[(u32, &str)], leaders: &[(u16, u16)], commit| {
            signer.submission(&log(records), leaders, commit)
        };
        // The logs part at index 1, and so do the ends that terms 4 and 6 are elected on. Replica 1
        // stamped both logs in both of these terms. Replica 3 signed both requests of term 6 only;
        // as leader of term 1 it broke rule 2, which is what its row has.
        let one = three.clone();
        let leaders = [(3, 0b110), (1, 0b011), (1, 0b101)];
        let two = ["a", "b"]
            .map(|payload| made(&one, &[(1, payload), (4, "y"), (6, "z")], &leaders, None));
        let rest = "fork 0\nboard 1 rule 2 term 4\nboard 2 rule 1 term 4\nboard 3 rule 2 term 1\n";
        self.both_orders("one candidate's requests in two terms", &three, &two, rest);
        // One candidate's two requests in one of the terms, two candidates in the other: it stamped
        // both logs in the one, even where it voted twice in a lower term.
        for (name, [in_4, in_6], stamped) in [
            ("requests, then candidates", [[1, 1], [1, 2]], 4),
            ("candidates, then requests", [[1, 2], [1, 1]], 6),
        ] {
            let one = three.clone();
            let two = [0, 1].map(|i| {
                let records = [(1, ["a", "b"][i]), (4, "y"), (6, "z")];
                made(&one, &records, &[(3, 0b110), (in_4[i], 0b011), (in_6[i], 0b011)], None)
            });
            let others = "board 2 rule 1 term 4\nboard 3 rule 2 term 1\n";
            let rest = format!("fork 0\nboard 1 rule 2 term {stamped}\n{others}");
            self.both_orders(name, &three, &two, &rest);
        }
        // Replica 2's receipt (1, 1), and its vote in term 2 on (0, 0), break rule 3, or 4 if the
        // submissions are exchanged; rule 1 in term 5 comes before it, if it signed both. Replica 1
        // signed both and stamped both.
        for (signers, rule_of_2) in [(0b011, None), (0b101, Some([3, 4]))] {
            let one = three.clone();
            let records = [(1, "a"), (5, "z")];
            let first = made(&one, &records, &[(1, 0b011), (1, 0b011)], Some((1, 0b011)));
            let records = [(2, "x"), (5, "z")];
            let second = made(&one, &records, &[(3, 0b110), (1, signers)], None);
            let rest = |order: usize| match rule_of_2 {
                None => "fork 0\nboard 1 rule 2 term 5\nboard 2 rule 1 term 5\n".to_string(),
                Some(rules) => {
                    let rule = rules[order];
                    format!("fork 0\nboard 1 rule 2 term 5\nboard 2 rule {rule} term 2\n")
                }
            };
            let name = format!("two requests after a stale vote, signers {signers:03b}");
            self.lines(&name, &three, &first, &second, &rest(0));
            self.lines(&format!("{name}, exchanged"), &three, &second, &first, &rest(1));
        }
        // On an empty log and on one record, in the highest term; replica 2 is the candidate.
        let one = three.clone();
        let most = u32::MAX;
        let first = made(&one, &[(most, "z")], &[(2, 0b111)], None);
        let second = made(&one, &[(most - 1, "a"), (most, "z")], &[(2, 0b110), (2, 0b011)], None);
        let rest = format!("fork 0\nboard 1 rule 1 term {most}\nboard 2 rule 2 term {most}\n");
        self.both_orders("two requests, the highest term", &three, &[first, second], &rest);
    }

    /// Last pointers that have one of their eight words of four bytes in common.
    fn pointers_alike(&mut self) {
        let three = self.signer(3, 5);
        for (word, (a, b)) in ALIKE.into_iter().enumerate() {
            let records = [a, b].map(|number| {
                let mut payload = [0; 32];
                payload[28..].copy_from_slice(&number.to_be_bytes());
                [Record { term: 1, payload }, Record { term: 4, payload }]
            });
            let words = records.map(|log| {
                let pointer = pointers(&log)[1];
                pointer[4 * word..][..4].to_vec()
            });
            assert_eq!(words[0], words[1], "the pointers have this word in common");
            let signer = three.clone();
            let two = records.map(|log| signer.submission(&log, &[(3, 0b110), (1, 0b011)], None));
            let rest =
                "fork 0\nboard 1 rule 2 term 4\nboard 2 rule 1 term 4\nboard 3 rule 2 term 1\n";
            let name = format!("two requests, the same word {word} of the pointers");
            self.both_orders(&name, &three, &two, rest);
        }
    }

    /// Drawn pairs whose logs are the same up to a term that one candidate, or two, led in both,
    /// but for one field of the request, or for all that it says of the end: each in turn.
    fn drawn_requests(&mut self) {
        let mut others: Vec<&str> = FIELDS.iter().map(|field| field.name).collect();
        others.push("end");
        for round in 0..self.count(200) {
            let n = [3, 3, 4, 5, 9][self.random.below(5)];
            let (signer, other) = (self.signer(n, 5), others[round % others.len()]);
            let (first, second) = self.drawn_two(&signer, other);
            let name = format!("drawn requests {round} of {n}, another {other}");
            let (roster, first, second) = (signer.roster(), first.bytes(), second.bytes());
            self.case(&name, &roster, &first, &second, Expect::Honest(0));
        }
    }

    /// Two submissions with two requests in one term, which differ in this.
    fn drawn_two(&mut self, signer: &Signer, other: &str) -> (Draft, Draft) {
        let mut term = 1 + self.random.below(2) as u32;
        let mut first = Vec::new();
        for _ in 0..1 + self.random.below(3) {
            first.push(Record { term, payload: self.random.array() });
            term += [0, 0, 1][self.random.below(3)];
        }
        let mut second = first.clone();
        let last = first.len() - 1;
        let last_term = first[last].term;
        match other {
            "last term" => second[last].term += 1,
            "last index" | "end" => {
                let term = last_term + u32::from(other == "end");
                second.push(Record { term, payload: self.random.array() });
            }
            "last pointer" => {
                let at = self.random.below(first.len());
                second[at].payload = self.random.array();
            }
            _ => (),
        }
        let voted = last_term + 2 + self.random.below(2) as u32;
        let payload = self.random.array();
        let candidates = match other {
            "candidate" => {
                let mut replicas: Vec<u16> = (1..=signer.n() as u16).collect();
                shuffle(&mut replicas, &mut self.random);
                [replicas[0], replicas[1]]
            }
            _ => [1 + self.random.below(signer.n()) as u16; 2],
        };
        let mut draft = |mut records: Vec<Record>, candidate: u16| {
            records.push(Record { term: voted, payload });
            let mut terms: Vec<u32> = records.iter().map(|record| record.term).collect();
            terms.dedup();
            let mut leaders = Vec::new();
            for term in terms {
                let mut signers = self.some_quorum(signer);
                let replicas = replicas_of(signers);
                let mut leader = replicas[self.random.below(replicas.len())];
                if term == voted {
                    signers |= mask_of(&[candidate]);
                    leader = candidate;
                }
                leaders.push((leader, signers));
            }
            let commit = match self.random.below(3) {
                0 => None,
                _ => {
                    let index = 1 + self.random.below(records.len()) as u32;
                    Some((index, self.some_quorum(signer)))
                }
            };
            signer.submission(&records, &leaders, commit)
        };
        (draft(first, candidates[0]), draft(second, candidates[1]))
    }
}
