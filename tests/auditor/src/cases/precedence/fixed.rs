//! Pairs in which a replica breaks two rules or more, by hand. Where there are three replicas, 1
//! and 2 sign the first submission, 1 and 3 the second, so that replica 1 alone can be charged.

use super::{Pair, Side};
use crate::cases::leaves::places::Place::{Receipt, Stamp, Vote};
use crate::cases::leaves::{FIRST, SECOND};

const HIGHEST: u32 = u32::MAX;

/// Rules 1 and 2 first, alone and with others, then every two of the five. Stamps in one term break
/// rule 2 without rule 1 only if both logs are the same before that term, for their leader voted in
/// both. Then no vote of that term, or of a lower one, is staler than a receipt: beside rule 2
/// alone, rules 3 and 4 are broken in a higher term only.
pub const PAIRS: &[Pair] = &[
    // Elected in term 3 on an empty log and on (1, 1).
    Pair {
        name: "rules 1 and 2 in one term",
        n: 3,
        first: Side(&[(3, "a")], &[(1, 0b011)], None),
        second: Side(&[(1, "x"), (3, "a")], &[(3, 0b101), (1, 0b101)], None),
        uses: &[],
        charges: &[(1, 1, 3), (1, 2, 3)],
        fork: 0,
        rows: ["board 1 rule 2 term 3\n"; 2],
    },
    // Two leaders of term 1 have the same record; that of term 2 is elected on it in both.
    Pair {
        name: "rule 1 in a lower term than rule 2",
        n: 3,
        first: Side(&[(1, "a"), (2, "b")], &[(2, 0b011), (1, 0b011)], Some((2, 0b011))),
        second: Side(&[(1, "a"), (2, "c")], &[(3, 0b101), (1, 0b101)], Some((2, 0b101))),
        uses: &[],
        charges: &[(1, 1, 1), (1, 2, 2)],
        fork: 2,
        rows: ["board 1 rule 2 term 2\n"; 2],
    },
    Pair {
        name: "rule 2 in a lower term than rule 1",
        n: 3,
        first: Side(&[(1, "a"), (2, "z")], &[(1, 0b011), (2, 0b011)], Some((1, 0b011))),
        second: Side(&[(1, "b"), (2, "z")], &[(1, 0b101), (3, 0b101)], Some((1, 0b101))),
        uses: &[],
        charges: &[(1, 1, 2), (1, 2, 1)],
        fork: 1,
        rows: ["board 1 rule 2 term 1\n"; 2],
    },
    Pair {
        name: "rule 1 in the lowest term, rule 2 in the highest",
        n: 3,
        first: Side(&[(1, "a"), (HIGHEST, "b")], &[(2, 0b011), (1, 0b011)], None),
        second: Side(&[(1, "a"), (HIGHEST, "c")], &[(3, 0b101), (1, 0b101)], None),
        uses: &[],
        charges: &[(1, 1, 1), (1, 2, HIGHEST)],
        fork: 0,
        rows: ["board 1 rule 2 term 4294967295\n"; 2],
    },
    Pair {
        name: "rule 2 in the lowest term, rule 1 in the highest",
        n: 3,
        first: Side(&[(1, "a"), (HIGHEST, "z")], &[(1, 0b011), (2, 0b011)], None),
        second: Side(&[(1, "b"), (HIGHEST, "z")], &[(1, 0b101), (3, 0b101)], None),
        uses: &[],
        charges: &[(1, 1, HIGHEST), (1, 2, 1)],
        fork: 0,
        rows: ["board 1 rule 2 term 1\n"; 2],
    },
    // The logs part in term 2, whose election is the same in both; replica 1 leads terms 2 and 4.
    Pair {
        name: "rule 1 below, between, in and above two terms of rule 2",
        n: 3,
        first: Side(
            &[(1, "a"), (2, "b"), (3, "c"), (4, "d"), (5, "e")],
            &[(2, 0b011), (1, 0b011), (2, 0b011), (1, 0b011), (2, 0b011)],
            None,
        ),
        second: Side(
            &[(1, "a"), (2, "x"), (3, "c"), (4, "d"), (5, "e")],
            &[(3, 0b101), (1, 0b101), (3, 0b101), (1, 0b101), (3, 0b101)],
            None,
        ),
        uses: &[],
        charges: &[(1, 1, 1), (1, 1, 3), (1, 1, 4), (1, 1, 5), (1, 2, 2), (1, 2, 4)],
        fork: 0,
        rows: ["board 1 rule 2 term 2\n"; 2],
    },
    // The leaf of both votes of term 1 is lower than any term.
    Pair {
        name: "rules 1, 2 and 5, the leaf the lowest",
        n: 3,
        first: Side(&[(1, "a"), (2, "b")], &[(2, 0b011), (1, 0b011)], None),
        second: Side(&[(1, "a"), (2, "c")], &[(3, 0b101), (1, 0b101)], None),
        uses: &[(FIRST, 1, Vote(0), 0), (SECOND, 1, Vote(0), 0)],
        charges: &[(1, 1, 1), (1, 2, 2), (1, 5, 0)],
        fork: 0,
        rows: ["board 1 rule 2 term 2\n"; 2],
    },
    Pair {
        name: "rules 1, 2 and 5, the leaf the highest",
        n: 3,
        first: Side(&[(1, "a"), (2, "z")], &[(1, 0b011), (2, 0b011)], None),
        second: Side(&[(1, "b"), (2, "z")], &[(1, 0b101), (3, 0b101)], None),
        uses: &[(FIRST, 1, Stamp(0), 19), (SECOND, 1, Vote(1), 19)],
        charges: &[(1, 1, 2), (1, 2, 1), (1, 5, 19)],
        fork: 0,
        rows: ["board 1 rule 2 term 1\n"; 2],
    },
    // After the receipt (1, 1) a vote in term 2 on an empty log.
    Pair {
        name: "rules 1, 2 and 3, the third in the lowest term",
        n: 3,
        first: Side(&[(1, "a"), (4, "z")], &[(2, 0b011), (1, 0b011)], Some((1, 0b011))),
        second: Side(&[(2, "x"), (4, "z")], &[(3, 0b101), (1, 0b101)], None),
        uses: &[],
        charges: &[(1, 1, 4), (1, 2, 4), (1, 3, 2)],
        fork: 0,
        rows: ["board 1 rule 2 term 4\n"; 2],
    },
    // Besides, after the receipt (2, 1) the vote in term 4 on (1, 1).
    Pair {
        name: "all rules",
        n: 3,
        first: Side(&[(1, "a"), (4, "z")], &[(2, 0b011), (1, 0b011)], Some((1, 0b011))),
        second: Side(&[(2, "x"), (4, "z")], &[(3, 0b101), (1, 0b101)], Some((1, 0b101))),
        uses: &[(FIRST, 1, Receipt, 0), (SECOND, 1, Vote(0), 0)],
        charges: &[(1, 1, 4), (1, 2, 4), (1, 3, 2), (1, 4, 4), (1, 5, 0)],
        fork: 1,
        rows: ["board 1 rule 2 term 4\n"; 2],
    },
    // The same with other leaders in term 4.
    Pair {
        name: "all rules but 2",
        n: 3,
        first: Side(&[(1, "a"), (4, "z")], &[(2, 0b011), (2, 0b011)], Some((1, 0b011))),
        second: Side(&[(2, "x"), (4, "z")], &[(3, 0b101), (3, 0b101)], Some((1, 0b101))),
        uses: &[(FIRST, 1, Receipt, 0), (SECOND, 1, Vote(0), 0)],
        charges: &[(1, 1, 4), (1, 3, 2), (1, 4, 4), (1, 5, 0)],
        fork: 1,
        rows: ["board 1 rule 1 term 4\n"; 2],
    },
    // After the receipt (1, 2) the vote in term 3 on (1, 1); after (3, 2) that in term 5 on (1, 2).
    Pair {
        name: "all rules but 1",
        n: 3,
        first: Side(&[(1, "a"), (1, "b"), (5, "z")], &[(1, 0b011), (2, 0b011)], Some((2, 0b011))),
        second: Side(&[(1, "x"), (3, "y")], &[(1, 0b101), (3, 0b101)], Some((2, 0b101))),
        uses: &[(FIRST, 1, Receipt, 0), (SECOND, 1, Vote(1), 0)],
        charges: &[(1, 2, 1), (1, 3, 3), (1, 4, 5), (1, 5, 0)],
        fork: 1,
        rows: ["board 1 rule 2 term 1\n"; 2],
    },
    // Of four replicas 1 leads term 2, for which 1 and 2 vote in both, and 3 leads term 1.
    Pair {
        name: "both rules, rule 1 alone, rule 2 alone, and none",
        n: 4,
        first: Side(&[(1, "a"), (2, "z")], &[(3, 0b1110), (1, 0b0111)], Some((2, 0b0111))),
        second: Side(&[(1, "b"), (2, "z")], &[(3, 0b1110), (1, 0b1011)], Some((2, 0b1011))),
        uses: &[],
        charges: &[(1, 1, 2), (1, 2, 2), (2, 1, 2), (3, 2, 1)],
        fork: 1,
        rows: ["board 1 rule 2 term 2\nboard 2 rule 1 term 2\nboard 3 rule 2 term 1\n"; 2],
    },
    // After the receipt (1, 2) the vote in term 2 on (1, 1).
    Pair {
        name: "rule 1 in a lower term than rule 3",
        n: 3,
        first: Side(&[(1, "a"), (1, "b")], &[(2, 0b011)], Some((2, 0b011))),
        second: Side(&[(1, "x"), (2, "y")], &[(3, 0b101), (3, 0b101)], None),
        uses: &[],
        charges: &[(1, 1, 1), (1, 3, 2)],
        fork: 0,
        rows: ["board 1 rule 1 term 1\n"; 2],
    },
    Pair {
        name: "rule 3 in a lower term than rule 1",
        n: 3,
        first: Side(&[(1, "a"), (4, "z")], &[(2, 0b011), (2, 0b011)], Some((1, 0b011))),
        second: Side(&[(2, "x"), (4, "z")], &[(3, 0b101), (3, 0b101)], None),
        uses: &[],
        charges: &[(1, 1, 4), (1, 3, 2)],
        fork: 0,
        rows: ["board 1 rule 1 term 4\n"; 2],
    },
    Pair {
        name: "rules 1 and 3 by one vote",
        n: 3,
        first: Side(&[(1, "a"), (3, "z")], &[(2, 0b011), (2, 0b011)], Some((1, 0b011))),
        second: Side(&[(3, "y")], &[(3, 0b101)], None),
        uses: &[],
        charges: &[(1, 1, 3), (1, 3, 3)],
        fork: 0,
        rows: ["board 1 rule 1 term 3\n"; 2],
    },
    // After the receipt (1, 2) the vote in term 2 on (1, 1).
    Pair {
        name: "rule 2 in a lower term than rule 3",
        n: 3,
        first: Side(&[(1, "a"), (1, "b")], &[(1, 0b011)], Some((2, 0b011))),
        second: Side(&[(1, "x"), (2, "y")], &[(1, 0b101), (3, 0b101)], None),
        uses: &[],
        charges: &[(1, 2, 1), (1, 3, 2)],
        fork: 0,
        rows: ["board 1 rule 2 term 1\n"; 2],
    },
    // After (1, 1) the vote in term 2 on an empty log; after (2, 1) that in term 3 on (1, 1).
    Pair {
        name: "rules 3 and 4",
        n: 3,
        first: Side(&[(1, "a"), (3, "b")], &[(2, 0b011), (2, 0b011)], Some((1, 0b011))),
        second: Side(&[(2, "x")], &[(3, 0b101)], Some((1, 0b101))),
        uses: &[],
        charges: &[(1, 3, 2), (1, 4, 3)],
        fork: 1,
        rows: ["board 1 rule 3 term 2\n", "board 1 rule 3 term 3\n"],
    },
    // One vote each in term 7, for two candidates; stamps of one leader in term 7; and after the
    // receipt (1, 1) a vote in term 7 on an empty log. Beside each a leaf below 7 and one above.
    Pair {
        name: "rule 1 and a leaf below its term",
        n: 3,
        first: Side(&[(7, "a")], &[(2, 0b011)], None),
        second: Side(&[(7, "a")], &[(3, 0b101)], None),
        uses: &[(FIRST, 1, Vote(0), 6), (SECOND, 1, Vote(0), 6)],
        charges: &[(1, 1, 7), (1, 5, 6)],
        fork: 0,
        rows: ["board 1 rule 1 term 7\n"; 2],
    },
    Pair {
        name: "rule 2 and a leaf below its term",
        n: 3,
        first: Side(&[(7, "a")], &[(1, 0b011)], None),
        second: Side(&[(7, "b")], &[(1, 0b101)], None),
        uses: &[(FIRST, 1, Stamp(0), 6), (SECOND, 1, Stamp(0), 6)],
        charges: &[(1, 2, 7), (1, 5, 6)],
        fork: 0,
        rows: ["board 1 rule 2 term 7\n"; 2],
    },
    Pair {
        name: "rule 3 and a leaf below its term",
        n: 3,
        first: Side(&[(1, "a")], &[(2, 0b011)], Some((1, 0b011))),
        second: Side(&[(7, "b")], &[(3, 0b101)], None),
        uses: &[(FIRST, 1, Receipt, 6), (SECOND, 1, Vote(0), 6)],
        charges: &[(1, 3, 7), (1, 5, 6)],
        fork: 0,
        rows: ["board 1 rule 3 term 7\n", "board 1 rule 4 term 7\n"],
    },
    Pair {
        name: "rule 1 and a leaf above its term",
        n: 3,
        first: Side(&[(7, "a")], &[(2, 0b011)], None),
        second: Side(&[(7, "a")], &[(3, 0b101)], None),
        uses: &[(FIRST, 1, Vote(0), 8), (SECOND, 1, Vote(0), 8)],
        charges: &[(1, 1, 7), (1, 5, 8)],
        fork: 0,
        rows: ["board 1 rule 1 term 7\n"; 2],
    },
    Pair {
        name: "rule 2 and a leaf above its term",
        n: 3,
        first: Side(&[(7, "a")], &[(1, 0b011)], None),
        second: Side(&[(7, "b")], &[(1, 0b101)], None),
        uses: &[(FIRST, 1, Stamp(0), 8), (SECOND, 1, Stamp(0), 8)],
        charges: &[(1, 2, 7), (1, 5, 8)],
        fork: 0,
        rows: ["board 1 rule 2 term 7\n"; 2],
    },
    Pair {
        name: "rule 3 and a leaf above its term",
        n: 3,
        first: Side(&[(1, "a")], &[(2, 0b011)], Some((1, 0b011))),
        second: Side(&[(7, "b")], &[(3, 0b101)], None),
        uses: &[(FIRST, 1, Receipt, 8), (SECOND, 1, Vote(0), 8)],
        charges: &[(1, 3, 7), (1, 5, 8)],
        fork: 0,
        rows: ["board 1 rule 3 term 7\n", "board 1 rule 4 term 7\n"],
    },
];
