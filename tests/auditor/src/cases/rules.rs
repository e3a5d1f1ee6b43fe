//! Several rules, terms and replicas at once: the first rule in the order 2, 1, 3, 4, 5 of document
//! 02, W6, and for it the lowest term.

use super::Cases;
use crate::build::{log, Draft};
use crate::roster::mask_of;
use crate::signer::Signer;

/// Two submissions and the lines after `refusal 0 in 0`.
type Made = (Draft, Draft, &'static str);

impl Cases<'_> {
    pub fn rules(&mut self) {
        let three = self.signer(3, 5);
        for (name, (first, second, rest)) in [
            ("rule 1 in two terms", rule_1_twice(&three.clone())),
            ("rule 1 in a later term than rule 2", rule_1_later(&three.clone())),
            ("rule 2 in two terms, rule 1 in the later", rule_2_twice(&three.clone())),
            ("rules 1 and 2 by a term alone", rules_1_and_2_by_term(&three.clone())),
            ("rules 1 and 2, elected on two ends", rules_1_and_2_on_two_ends(&three.clone())),
            ("rule 3 by one vote of three", rule_3_by_the_first(&three.clone())),
            ("rules 3 and 4", rules_3_and_4(&three.clone())),
            ("rule 4 in a lower term than rule 3", rule_4_lower(&three.clone())),
            ("a commit before the log's last term", early_commit(&three.clone())),
        ] {
            self.lines(name, &three, &first, &second, rest);
        }
        self.commits(&three);
        let nine = self.signer(9, 5);
        let (first, second, rest) = many(&nine);
        self.lines("many replicas, three rules", &nine, &first, &second, rest);
    }

    /// Logs that part at index 3, with every commit in each: a fork from 3 on only.
    fn commits(&mut self, signer: &Signer) {
        let (a, b) = (["a", "b", "c", "d"], ["a", "b", "x", "y"]);
        let made = |payloads: [&str; 4], signers, commit: u32| {
            let records = log(&payloads.map(|payload| (1, payload)));
            let commit = (commit > 0).then_some((commit, signers));
            signer.submission(&records, &[(1, signers)], commit)
        };
        for first in 0..=4 {
            for second in 0..=4 {
                let (one, other) = (made(a, 0b011, first), made(b, 0b101, second));
                let fork = if first.min(second) >= 3 { 3 } else { 0 };
                let rest = format!("fork {fork}\nboard 1 rule 2 term 1\n");
                self.lines(&format!("commits {first} and {second}"), signer, &one, &other, &rest);
            }
        }
    }
}

/// The same two replicas elect other candidates in terms 3 and 4, and the same in term 2.
fn rule_1_twice(signer: &Signer) -> Made {
    let terms = log(&[(2, "a"), (3, "b"), (4, "c")]);
    let first = signer.submission(&terms, &[(1, 0b011); 3], None);
    let second = signer.submission(&terms, &[(1, 0b011), (2, 0b011), (2, 0b110)], None);
    (first, second, "fork 0\nboard 1 rule 1 term 3\nboard 2 rule 1 term 3\n")
}

/// Replica 1 stamps two logs in term 5 and votes twice in term 9. Stamps come before votes, and
/// here their term is the lower one too.
fn rule_1_later(signer: &Signer) -> Made {
    let first = log(&[(5, "a"), (9, "b")]);
    let second = log(&[(5, "x"), (9, "b")]);
    let first = signer.submission(&first, &[(1, 0b011), (2, 0b011)], None);
    let second = signer.submission(&second, &[(1, 0b101), (3, 0b101)], None);
    (first, second, "fork 0\nboard 1 rule 2 term 5\n")
}

/// The logs part at index 2, so term 1's stamps are right and those of terms 2 and 3 are not. Term
/// 2 has one request, elected on (1, 1) of both; term 3 has two, on the (2, 2) of the one and of
/// the other, and replica 1 signed both. Rule 2 comes before rule 1, and of its terms the lower one
/// is given; whoever breaks rule 2 in two terms has voted for two requests in the later one.
fn rule_2_twice(signer: &Signer) -> Made {
    let first = log(&[(1, "a"), (2, "b"), (3, "c")]);
    let second = log(&[(1, "a"), (2, "x"), (3, "c")]);
    let first = signer.submission(&first, &[(1, 0b011); 3], None);
    let second = signer.submission(&second, &[(1, 0b101); 3], None);
    (first, second, "fork 0\nboard 1 rule 2 term 2\n")
}

/// The same payloads, but record 1 has another term: replica 1, elected in term 4 on (1, 1) and on
/// (2, 1), voted for two requests of its own and stamped two logs, which comes first.
fn rules_1_and_2_by_term(signer: &Signer) -> Made {
    let (first, second) = (log(&[(1, "a"), (4, "b")]), log(&[(2, "a"), (4, "b")]));
    let first = signer.submission(&first, &[(2, 0b110), (1, 0b011)], Some((1, 0b110)));
    let second = signer.submission(&second, &[(3, 0b101), (1, 0b101)], Some((1, 0b101)));
    // Replica 3's receipt (1, 1) and its vote in term 2 on (0, 0) break rule 3; replica 1's receipt
    // (2, 1) and its vote in term 4 on (1, 1) break rule 4, but rules 2 and 1 come before it.
    (first, second, "fork 1\nboard 1 rule 2 term 4\nboard 3 rule 3 term 2\n")
}

/// One candidate of one term, elected by the same two on (1, 1) and on an empty log: two requests,
/// and both who signed them broke rule 1. The candidate's stamps break rule 2 too, and that is what
/// its row has.
fn rules_1_and_2_on_two_ends(signer: &Signer) -> Made {
    let (first, second) = (log(&[(1, "a"), (3, "b")]), log(&[(3, "b")]));
    let first = signer.submission(&first, &[(2, 0b110), (1, 0b011)], None);
    let second = signer.submission(&second, &[(1, 0b011)], None);
    (first, second, "fork 0\nboard 1 rule 2 term 3\nboard 2 rule 1 term 3\n")
}

/// After a receipt (2, 3), the vote in term 3 on (1, 1) breaks the rule; those in terms 4 and 5 on
/// (3, 2) and (4, 3) do not.
fn rule_3_by_the_first(signer: &Signer) -> Made {
    let first = log(&[(2, "a"), (2, "b"), (2, "c")]);
    let first = signer.submission(&first, &[(1, 0b011)], Some((3, 0b011)));
    let second = log(&[(1, "x"), (3, "y"), (4, "z"), (5, "z")]);
    let leaders = [(3, 0b101), (3, 0b101), (3, 0b110), (3, 0b110)];
    let second = signer.submission(&second, &leaders, Some((1, 0b110)));
    // Replica 2's receipt (1, 1), and its vote in term 2 on (0, 0), break rule 4.
    (first, second, "fork 1\nboard 1 rule 3 term 3\nboard 2 rule 4 term 2\n")
}

/// Both rules, each by another vote; rule 3's term is given.
fn rules_3_and_4(signer: &Signer) -> Made {
    let first = log(&[(1, "a"), (3, "b")]);
    let second = log(&[(2, "x")]);
    let first = signer.submission(&first, &[(1, 0b011), (1, 0b011)], Some((1, 0b011)));
    let second = signer.submission(&second, &[(3, 0b110)], Some((1, 0b110)));
    (first, second, "fork 1\nboard 2 rule 3 term 2\n")
}

/// Rule 3 in term 7 and rule 4 in term 3.
fn rule_4_lower(signer: &Signer) -> Made {
    let first = log(&[(3, "a"), (5, "b")]);
    let second = log(&[(1, "x"), (7, "y")]);
    let first = signer.submission(&first, &[(1, 0b011); 2], Some((2, 0b011)));
    let second = signer.submission(&second, &[(1, 0b011); 2], Some((1, 0b011)));
    (first, second, "fork 1\nboard 1 rule 3 term 7\nboard 2 rule 3 term 7\n")
}

/// The commit is on (1, 1) while the log goes on to term 6: t is 1, so the vote in term 2 on (0, 0)
/// breaks rule 3, and that in term 4 on (2, 1) does not.
fn early_commit(signer: &Signer) -> Made {
    let first = log(&[(1, "a"), (6, "b")]);
    let first = signer.submission(&first, &[(1, 0b011), (1, 0b011)], Some((1, 0b011)));
    let second = log(&[(2, "x"), (4, "y")]);
    let second = signer.submission(&second, &[(3, 0b101), (3, 0b110)], None);
    (first, second, "fork 0\nboard 1 rule 3 term 2\n")
}

/// Replica 1 stamps two logs, 3 and 4 vote twice, 5 to 9 vote for a staler log; 2 does no wrong.
/// Nobody breaks both rule 1 and rule 2.
fn many(signer: &Signer) -> Made {
    let first = log(&[(1, "a"), (2, "b"), (2, "c")]);
    let second = log(&[(1, "x"), (2, "y"), (4, "z")]);
    let high = mask_of(&[5, 6, 7, 8, 9]);
    let leaders = [(1, mask_of(&[1, 2, 3, 4, 5])), (2, mask_of(&[2, 3, 4, 5, 6]))];
    let first = signer.submission(&first, &leaders, Some((3, high)));
    let leaders = [(1, mask_of(&[1, 6, 7, 8, 9])), (3, mask_of(&[3, 4, 7, 8, 9])), (9, high)];
    let second = signer.submission(&second, &leaders, Some((3, mask_of(&[1, 2, 3, 4, 5]))));
    let rest = "fork 1\nboard 1 rule 2 term 1\nboard 3 rule 1 term 2\nboard 4 rule 1 term 2\n\
        board 5 rule 3 term 4\nboard 6 rule 3 term 4\nboard 7 rule 3 term 4\n\
        board 8 rule 3 term 4\nboard 9 rule 3 term 4\n";
    (first, second, rest)
}
