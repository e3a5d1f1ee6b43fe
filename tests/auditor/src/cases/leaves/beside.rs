//! Rule 5 beside the other rules: of one replica the other rule is shown, whatever the numbers; of
//! two replicas each has its own. And receipts for one place of two logs, which no other rule
//! charges.

use super::places::{sign, Place};
use super::{sign_by, By, Receipt, Stamp, Vote, FIRST, SECOND};
use crate::build::{log, Draft};
use crate::cases::worked_examples::{one_leader, stale_leader};
use crate::cases::Cases;
use crate::signer::Signer;

/// A pair, the signatures by chosen leaves, and the lines after `refusal 0 in 0` in both orders.
struct Beside {
    name: &'static str,
    pair: fn(&Signer) -> (Draft, Draft),
    uses: &'static [By],
    rest: [&'static str; 2],
}

/// n = 3. Each of the worked pairs with a leaf used twice by the replica that it charges, and by
/// one that it does not. Leaf 0 is lower than any term.
const BESIDE: [Beside; 9] = [
    Beside {
        name: "rule 1 by the same",
        pair: two_candidates,
        uses: &[(FIRST, 2, Vote(0), 0), (SECOND, 2, Vote(0), 0)],
        rest: ["fork 0\nboard 2 rule 1 term 7\n"; 2],
    },
    Beside {
        name: "rule 1 by another",
        pair: two_candidates,
        uses: &[(FIRST, 1, Vote(0), 4), (FIRST, 1, Stamp(0), 4)],
        rest: ["fork 0\nboard 1 rule 5 term 4\nboard 2 rule 1 term 7\n"; 2],
    },
    Beside {
        name: "rule 2 by the same",
        pair: one_leader,
        uses: &[(FIRST, 1, Stamp(0), 0), (SECOND, 1, Stamp(0), 0)],
        rest: ["fork 1\nboard 1 rule 2 term 1\n"; 2],
    },
    Beside {
        name: "rule 2 by another",
        pair: one_leader,
        uses: &[(FIRST, 2, Vote(0), 9), (FIRST, 2, Receipt, 9)],
        rest: ["fork 1\nboard 1 rule 2 term 1\nboard 2 rule 5 term 9\n"; 2],
    },
    Beside {
        name: "rules 3 and 4 by the same",
        pair: stale_leader,
        uses: &[(FIRST, 2, Receipt, 0), (SECOND, 2, Vote(0), 0)],
        rest: ["fork 1\nboard 2 rule 3 term 2\n", "fork 1\nboard 2 rule 4 term 2\n"],
    },
    Beside {
        name: "rules 3 and 4 by another",
        pair: stale_leader,
        uses: &[(SECOND, 3, Vote(0), 11), (SECOND, 3, Stamp(0), 11)],
        rest: [
            "fork 1\nboard 2 rule 3 term 2\nboard 3 rule 5 term 11\n",
            "fork 1\nboard 2 rule 4 term 2\nboard 3 rule 5 term 11\n",
        ],
    },
    Beside {
        name: "rules 3 and 4 by the same and two others",
        pair: stale_leader,
        uses: &[
            (FIRST, 1, Stamp(0), 0),
            (FIRST, 1, Receipt, 0),
            (FIRST, 2, Vote(0), 1),
            (SECOND, 2, Receipt, 1),
            (SECOND, 3, Stamp(0), 1),
            (SECOND, 3, Receipt, 1),
        ],
        rest: [
            "fork 1\nboard 1 rule 5 term 0\nboard 2 rule 3 term 2\nboard 3 rule 5 term 1\n",
            "fork 1\nboard 1 rule 5 term 0\nboard 2 rule 4 term 2\nboard 3 rule 5 term 1\n",
        ],
    },
    // The logs part at index 1, and have the same record at index 2. Replica 1 gives both receipts,
    // which differ in the pointer alone, and breaks no other rule; 2 stamps both logs.
    Beside {
        name: "receipts for one place of two logs",
        pair: two_logs,
        uses: &[(FIRST, 1, Receipt, 13), (SECOND, 1, Receipt, 13)],
        rest: ["fork 1\nboard 1 rule 5 term 13\nboard 2 rule 2 term 1\n"; 2],
    },
    Beside {
        name: "receipts for one place of two logs, by two leaves",
        pair: two_logs,
        uses: &[(FIRST, 1, Receipt, 13), (SECOND, 1, Receipt, 14)],
        rest: ["fork 1\nboard 2 rule 2 term 1\n"; 2],
    },
];

/// Replicas 1 and 2 elect 1, and 2 and 3 elect 3, in term 7.
fn two_candidates(signer: &Signer) -> (Draft, Draft) {
    let records = log(&[(7, "a")]);
    let first = signer.submission(&records, &[(1, 0b011)], None);
    let second = signer.submission(&records, &[(3, 0b110)], None);
    (first, second)
}

/// Replicas 2 and 3 elect 2 in term 1; it stamps two logs, of which 1 and 3 give receipts.
fn two_logs(signer: &Signer) -> (Draft, Draft) {
    let made = |payload| {
        let records = log(&[(1, payload), (1, "m")]);
        signer.submission(&records, &[(2, 0b110)], Some((2, 0b101)))
    };
    (made("a"), made("b"))
}

impl Cases<'_> {
    pub fn leaves_beside_rules(&mut self) {
        for Beside { name, pair, uses, rest } in BESIDE {
            let signer = self.signer(3, 5);
            let (first, second) = pair(&signer);
            let mut two = [first, second];
            sign_by(&signer, &mut two, uses);
            let name = format!("leaves: {name}");
            let [a, b] = &two;
            self.lines(&name, &signer, a, b, rest[0]);
            self.lines(&format!("{name}, exchanged"), &signer, b, a, rest[1]);
        }
        self.several_forks();
    }

    /// Of four and of nine, all give receipts for one place of two logs by one leaf each, and the
    /// one that leads stamps both.
    fn several_forks(&mut self) {
        for n in [4, 9u16] {
            let signer = self.signer(n.into(), 5);
            let all = signer.all();
            let mut two = ["a", "b"].map(|payload| {
                let records = log(&[(1, payload), (1, "m")]);
                signer.submission(&records, &[(2, all)], Some((2, all)))
            });
            let mut rest = "fork 1\n".to_string();
            for replica in 1..=n {
                let leaf = 4 + u32::from(replica);
                for draft in &mut two {
                    sign(&signer, draft, replica, Place::Receipt, leaf);
                }
                rest += &match replica {
                    2 => "board 2 rule 2 term 1\n".to_string(),
                    _ => format!("board {replica} rule 5 term {leaf}\n"),
                };
            }
            let name = format!("leaves: all receipts of {n} for two logs");
            let [a, b] = &two;
            self.lines(&name, &signer, a, b, &rest);
            self.lines(&format!("{name}, exchanged"), &signer, b, a, &rest);
        }
    }
}
