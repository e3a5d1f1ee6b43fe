//! Which pair is the first that forks, and who is named in all of them.

use super::{found, Cases};
use crate::build::{log, Draft};
use crate::cases::led;
use crate::cases::worked_examples::stale_leader;
use crate::roster::mask_of;

/// What the list of submissions is, each by the letters of its log and the index it commits; the
/// first pair that forks; and whether replica 1, which stamps them all, is named.
type Worked = (&'static str, &'static [(&'static str, u32)], (u8, u8), bool);

const WORKED: [Worked; 26] = [
    ("the same twice", &[("a", 1), ("a", 1)], (0, 0), false),
    ("the same nine times", &[("ab", 2); 9], (0, 0), false),
    ("logs that grow", &[("a", 1), ("ab", 2), ("abc", 3), ("abcd", 4)], (0, 0), false),
    ("logs that shrink", &[("abcd", 4), ("abc", 3), ("ab", 2), ("a", 1)], (0, 0), false),
    ("nothing committed", &[("a", 0), ("b", 0), ("c", 0)], (0, 0), true),
    ("one committed", &[("a", 0), ("b", 1), ("c", 0)], (0, 0), true),
    ("parted after the commits", &[("ab", 1), ("ac", 2), ("ad", 1)], (0, 0), true),
    ("parted, and some committed", &[("ab", 1), ("ac", 1), ("ad", 2), ("ae", 2)], (3, 4), true),
    ("no commit between", &[("ab", 2), ("ac", 0), ("ad", 2)], (1, 3), true),
    ("no commit first", &[("ab", 0), ("ac", 2), ("ad", 2)], (2, 3), true),
    ("no commit last", &[("ab", 2), ("ac", 2), ("ad", 0)], (1, 2), true),
    // Two forks or more; the first pair's logs part later than those of another.
    ("the first pair parts last", &[("abc", 3), ("abx", 3), ("y", 1)], (1, 2), true),
    ("the same, other order", &[("abx", 3), ("abc", 3), ("y", 1)], (1, 2), true),
    ("the last pair parts last", &[("y", 1), ("abc", 3), ("abx", 3)], (1, 2), true),
    ("the outer pair parts last", &[("abc", 3), ("y", 1), ("abx", 3)], (1, 2), true),
    ("parted later and later", &[("abcd", 4), ("abcx", 4), ("aby", 3), ("az", 2)], (1, 2), true),
    ("later, not from the start", &[("a", 1), ("abc", 3), ("aby", 3), ("az", 2)], (2, 3), true),
    // By the lower position, not by the higher.
    ("lower before higher", &[("a", 1), ("ab", 2), ("ac", 2), ("x", 1)], (1, 4), true),
    (
        "lower before higher, apart",
        &[("a", 1), ("ab", 2), ("a", 1), ("ac", 2), ("x", 1)],
        (1, 5),
        true,
    ),
    ("the last two only", &[("a", 1), ("a", 1), ("ab", 2), ("ac", 2)], (3, 4), true),
    ("the first and the last only", &[("ab", 2), ("a", 1), ("a", 1), ("ac", 2)], (1, 4), true),
    ("the first two only", &[("ab", 2), ("ac", 2), ("a", 1), ("a", 1)], (1, 2), true),
    ("the second and the fourth", &[("a", 1), ("ab", 2), ("a", 1), ("ac", 2)], (2, 4), true),
    ("in turns", &[("a", 1), ("x", 1), ("a", 1), ("x", 1), ("a", 1)], (1, 2), true),
    ("twice, then another", &[("a", 1), ("a", 1), ("x", 1), ("x", 1)], (1, 3), true),
    (
        "all with the last",
        &[
            ("a", 1),
            ("a", 1),
            ("ab", 2),
            ("ab", 1),
            ("a", 1),
            ("abc", 3),
            ("abc", 2),
            ("a", 1),
            ("x", 1),
        ],
        (1, 9),
        true,
    ),
];

impl Cases<'_> {
    /// Logs that replica 1 leads in one term, and stamps.
    pub fn forks(&mut self) {
        for (name, list, fork, named) in self.some(WORKED.to_vec(), 8) {
            let signer = self.signer(3);
            let submissions: Vec<Vec<u8>> = list
                .iter()
                .enumerate()
                .map(|(i, (letters, commit))| {
                    led(&signer, letters, [0b011, 0b101, 0b111][i % 3], *commit).bytes()
                })
                .collect();
            let right = found(&vec![0; list.len()], named.into(), fork);
            self.run(name, &signer.roster(), &submissions, right);
        }
    }

    /// A union in which each pair has another replica; and a replica that is named by the order
    /// within a pair alone as one of rule 3 or 4.
    pub fn named(&mut self) {
        let signer = self.signer(3);
        let roster = signer.roster();
        for commit in [None, Some(1)] {
            // Replica 1 elects both of the first two, 2 the first and the third, 3 the others.
            let elect = |candidate, signers, payload| {
                let commit = commit.map(|index| (index, signers));
                signer.submission(&log(&[(1, payload)]), &[(candidate, signers)], commit).bytes()
            };
            let three = [elect(2, 0b011, "a"), elect(1, 0b101, "b"), elect(3, 0b110, "c")];
            let fork = if commit.is_some() { (1, 2) } else { (0, 0) };
            for order in [[0, 1, 2], [0, 2, 1], [1, 0, 2], [1, 2, 0], [2, 0, 1], [2, 1, 0]] {
                let list = order.map(|i| three[i].clone());
                let name = format!("each pair names another, {order:?}, commit {commit:?}");
                self.run(&name, &roster, &list, found(&[0; 3], 0b111, fork));
            }
            for (i, j, named) in [(0, 1, 0b001), (0, 2, 0b010), (1, 2, 0b100)] {
                let two = [three[i].clone(), three[j].clone()];
                let name = format!("one pair of them, {i} and {j}, commit {commit:?}");
                self.run(&name, &roster, &two, found(&[0; 2], named, fork));
            }
        }
        let signer = self.signer(3);
        let (first, second) = stale_leader(&signer);
        let (first, second) = (first.bytes(), second.bytes());
        for (name, list) in
            [("rule 3", [first.clone(), second.clone()]), ("rule 4", [second, first])]
        {
            self.run(name, &roster, &list, found(&[0; 2], 0b010, (1, 2)));
        }
        // A stale vote in each pair, of another replica each, by rule 3 or 4 as the order has it.
        let a = signer.submission(&log(&[(1, "a")]), &[(1, 0b011)], Some((1, 0b011)));
        let b = signer.submission(&log(&[(2, "b")]), &[(3, 0b110)], Some((1, 0b110)));
        let c = signer.submission(&log(&[(5, "c")]), &[(3, 0b101)], None);
        let list = |order: [&Draft; 3]| order.map(|draft| draft.bytes());
        for (name, order) in [
            ("3 and 3", [&a, &b, &c]),
            ("3 and 4", [&a, &c, &b]),
            ("4 and 3", [&c, &a, &b]),
            ("4 and 4", [&c, &b, &a]),
        ] {
            // Replica 2 gave a receipt in a and voted in b, 1 in a and in c, 3 in b and in c.
            let fork = match name {
                "3 and 3" => (1, 2),
                "3 and 4" => (1, 3),
                _ => (2, 3),
            };
            let name = format!("stale votes in all pairs, {name}");
            self.run(&name, &roster, &list(order), found(&[0; 3], 0b111, fork));
        }
    }

    /// Nine submissions of nine replicas.
    pub fn nine_of_nine(&mut self) {
        let signer = self.signer(9);
        let roster = signer.roster();
        let from = |k: u16| mask_of(&(0..5).map(|i| (k + i) % 9 + 1).collect::<Vec<_>>());
        // Each replica leads one of nine logs of one term, elected by five.
        for commit in [None, Some(1)] {
            let leads = |k: u16| {
                let payload = k.to_string();
                let commit = commit.map(|index| (index, from(k + 2)));
                let leaders = [(k + 1, from(k))];
                signer.submission(&log(&[(7, &payload)]), &leaders, commit).bytes()
            };
            let submissions: Vec<Vec<u8>> = (0..9).map(leads).collect();
            let fork = if commit.is_some() { (1, 2) } else { (0, 0) };
            let name = format!("nine leaders, commit {commit:?}");
            self.run(&name, &roster, &submissions, found(&[0; 9], 0x1ff, fork));
        }
        let signer = self.signer(9);
        // One log that grows, the index of its end committed by other five each time.
        let begins = "abcdefghi";
        let grown = |letters: &str, k: u16| {
            let payloads: Vec<String> = letters.chars().map(String::from).collect();
            let records: Vec<(u32, &str)> =
                payloads.iter().map(|payload| (3, &payload[..])).collect();
            let commit = Some((records.len() as u32, from(k)));
            signer.submission(&log(&records), &[(5, mask_of(&[2, 4, 5, 6, 8]))], commit).bytes()
        };
        let mut submissions: Vec<Vec<u8>> =
            (1..=9).map(|k| grown(&begins[..k], k as u16)).collect();
        self.run("one log that grows", &roster, &submissions, found(&[0; 9], 0, (0, 0)));
        submissions[6] = grown("abcdefx", 7);
        let parted = |fork| found(&[0; 9], 1 << 4, fork);
        self.run("one log that parts", &roster, &submissions, parted((7, 8)));
        submissions.reverse();
        self.run("the longest first", &roster, &submissions, parted((1, 3)));
        submissions.rotate_left(3);
        self.run("the longest after the others", &roster, &submissions, parted((7, 9)));
    }
}
