//! Document 01's worked examples (Bench figures), and Faults a bench would miss.

use super::{empty, Cases, Expect};
use crate::build::{log, Draft};
use crate::cases::Case;
use crate::signer::Signer;

/// n = 3, one leader, two logs (document 01's one-leader fork).
pub fn one_leader(signer: &Signer) -> (Draft, Draft) {
    let leaders = [(1, 0b011)];
    let first = signer.submission(&log(&[(1, "a")]), &leaders, Some((1, 0b011)));
    let second = signer.submission(&log(&[(1, "b")]), &leaders, Some((1, 0b101)));
    (first, second)
}

/// n = 3, a leader elected on an empty log after a commit (document 01's stale-leader fork).
pub fn stale_leader(signer: &Signer) -> (Draft, Draft) {
    let first = signer.submission(&log(&[(1, "a")]), &[(1, 0b011)], Some((1, 0b011)));
    let second = signer.submission(&log(&[(2, "b")]), &[(3, 0b110)], Some((1, 0b110)));
    (first, second)
}

impl Cases<'_> {
    pub fn worked_examples(&mut self) {
        for (n, tree) in [(3, 5), (4, 5), (9, 5), (3, 9)] {
            let cluster = self.cluster(n, tree);
            let submission = empty(&cluster);
            assert_eq!(submission.bytes().len(), 44);
            self.lines("empty twice", &cluster, &submission, &submission, "fork 0\n");
            self.refuse("43 bytes", &cluster, &submission.bytes()[..43], 5);
            self.refuse("43 bytes", &cluster, &submission.bytes()[1..], 5);
            for (h, number) in [(4096, 9), (4097, 8)] {
                let mut draft = submission.clone();
                draft.trailer.records = h;
                self.refuse(&format!("H = {h} in 44 bytes"), &cluster, &draft.bytes(), number);
            }
            for (report, expect) in [(52, Expect::Short), (53, Expect::Number(0, 0))] {
                let (roster, bytes) = (cluster.roster(), submission.bytes());
                (self.take)(&Case {
                    name: format!("report of {report} bytes"),
                    roster: &roster,
                    first: &bytes,
                    second: &bytes,
                    report,
                    expect,
                });
            }
        }
        let signer = self.signer(3, 5);
        let (first, second) = one_leader(&signer);
        let rest = "fork 1\nboard 1 rule 2 term 1\n";
        self.lines("one leader", &signer, &first, &second, rest);
        self.lines("one leader, exchanged", &signer, &second, &first, rest);
        let (first, second) = stale_leader(&self.signer(3, 5));
        let rest = "fork 1\nboard 2 rule 3 term 2\n";
        self.lines("stale leader", &signer, &first, &second, rest);
        let rest = "fork 1\nboard 2 rule 4 term 2\n";
        self.lines("stale leader, exchanged", &signer, &second, &first, rest);
        self.receipt_then_votes();
    }

    /// After a receipt (3, 7), a vote in term 5 on (3, 6), (3, 7) and (4, 1).
    fn receipt_then_votes(&mut self) {
        let signer = self.signer(3, 5);
        let seven: Vec<(u32, &str)> = ["a", "b", "c", "d", "e", "f", "g"].map(|p| (3, p)).to_vec();
        let with = |start: &[(u32, &'static str)], end| log(&[start, &[(5, end)]].concat());
        let first = signer.submission(&log(&seven), &[(1, 0b011)], Some((7, 0b011)));
        let leaders = [(1, 0b011), (3, 0b110)];
        let second = signer.submission(&with(&seven[..6], "x"), &leaders, None);
        let rest = "fork 0\nboard 2 rule 3 term 5\n";
        self.lines("vote on (3, 6)", &signer, &first, &second, rest);
        let second = signer.submission(&with(&seven, "x"), &leaders, Some((8, 0b110)));
        self.lines("vote on (3, 7)", &signer, &first, &second, "fork 0\n");
        // Replica 2 is charged for the vote in term 4, replica 1 not for that in term 5.
        let leaders = [(3, 0b110), (3, 0b101)];
        let second = signer.submission(&with(&[(4, "x")], "y"), &leaders, Some((2, 0b101)));
        let rest = "fork 1\nboard 2 rule 3 term 4\n";
        self.lines("vote on (4, 1)", &signer, &first, &second, rest);
        let rest = "fork 1\nboard 2 rule 4 term 4\n";
        self.lines("vote on (4, 1), exchanged", &signer, &second, &first, rest);
    }

    /// The faults that document 01 names, and what is like them.
    pub fn missed_faults(&mut self) {
        let signer = self.signer(3, 5);
        let leaders = [(1, 0b011)];
        let one = signer.submission(&log(&[(1, "a")]), &leaders, Some((1, 0b011)));
        let two = signer.submission(&log(&[(1, "a"), (1, "b")]), &leaders, Some((2, 0b101)));
        let none = empty(&signer);
        for (name, a, b) in [
            ("a log that begins the other", &one, &two),
            ("the same, exchanged", &two, &one),
            ("the same log twice", &two, &two),
            ("an empty log and another", &none, &two),
            ("another and an empty log", &two, &none),
        ] {
            self.lines(name, &signer, a, b, "fork 0\n");
        }
        // Stamps in two different terms.
        let later = signer.submission(&log(&[(2, "b")]), &[(1, 0b101)], None);
        self.lines("stamps in two terms", &signer, &one, &later, "fork 0\nboard 1 rule 3 term 2\n");
        let first = signer.submission(&log(&[(1, "a")]), &leaders, None);
        self.lines("stamps in two terms, no commit", &signer, &first, &later, "fork 0\n");
        // The logs part only after the lower stamp; before it; and in a term's number alone.
        let long = log(&[(1, "a"), (1, "b"), (2, "c")]);
        let other = log(&[(1, "a"), (2, "b"), (2, "c")]);
        // Replicas 1 and 2 elect the leader of term 2 on (1, 2) and on (1, 1); replica 1, which is
        // that leader, stamps both logs in term 2 besides, and stamps come before votes (document
        // 02, W6).
        let elected = signer.clone();
        let leaders = [(1, 0b011), (1, 0b011)];
        let a = elected.submission(&long, &leaders, None);
        let b = elected.submission(&other, &leaders, None);
        let rest = "fork 0\nboard 1 rule 2 term 2\nboard 2 rule 1 term 2\n";
        self.lines("parted after the lower stamp of term 1", &signer, &a, &b, rest);
        // Others lead term 2, and of its voters only replica 3 is in both: nothing is left for
        // which replica 1, who stamped in term 1, could be charged.
        let a = signer.submission(&long, &[(1, 0b011), (2, 0b110)], None);
        let b = signer.submission(&other, &[(1, 0b011), (3, 0b101)], None);
        let rest = "fork 0\nboard 3 rule 1 term 2\n";
        self.lines("the same, led by others after term 1", &signer, &a, &b, rest);
        // One replica of two quorums voted twice; the rest of both did nothing wrong.
        for n in 3..=9u16 {
            let signer = self.signer(n as usize, 5);
            let q = signer.first_quorum();
            let last = signer.all() & !(signer.all() >> signer.quorum());
            let a = signer.submission(&log(&[(7, "a")]), &[(1, q)], None);
            let b = signer.submission(&log(&[(7, "b")]), &[(n, last)], None);
            let mut rest = "fork 0\n".to_string();
            for k in 1..=n {
                if (q & last) >> (k - 1) & 1 == 1 {
                    rest += &format!("board {k} rule 1 term 7\n");
                }
            }
            self.lines(&format!("two quorums of {n}"), &signer, &a, &b, &rest);
        }
    }
}
