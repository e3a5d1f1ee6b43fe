//! Chosen leaves in the two submissions of `kept`, and whom they charge, by hand.

use super::{By, Receipt, Stamp, Vote, FIRST, SECOND};

/// One leaf and two messages: what it is, where, and the lines after `fork 0`. Stamp 0 is replica
/// 1's, stamp 1 replica 2's, which is the first's last, and stamp 2 replica 3's, the second's last.
pub const CHARGED: [(&str, &[By], &str); 27] = [
    (
        "a vote and a receipt of the first",
        &[(FIRST, 1, Vote(0), 13), (FIRST, 1, Receipt, 13)],
        "board 1 rule 5 term 13\n",
    ),
    (
        "a vote and a receipt of the second",
        &[(SECOND, 1, Vote(2), 11), (SECOND, 1, Receipt, 11)],
        "board 1 rule 5 term 11\n",
    ),
    (
        "a vote of the first and a receipt of the second",
        &[(FIRST, 3, Vote(1), 11), (SECOND, 3, Receipt, 11)],
        "board 3 rule 5 term 11\n",
    ),
    (
        "a receipt of the first and a vote of the second",
        &[(FIRST, 3, Receipt, 18), (SECOND, 3, Vote(0), 18)],
        "board 3 rule 5 term 18\n",
    ),
    (
        "the receipts of both",
        &[(FIRST, 1, Receipt, 12), (SECOND, 1, Receipt, 12)],
        "board 1 rule 5 term 12\n",
    ),
    (
        "two votes of the first",
        &[(FIRST, 3, Vote(0), 9), (FIRST, 3, Vote(1), 9)],
        "board 3 rule 5 term 9\n",
    ),
    (
        "two votes of the second",
        &[(SECOND, 2, Vote(0), 10), (SECOND, 2, Vote(2), 10)],
        "board 2 rule 5 term 10\n",
    ),
    (
        "the last two votes of the second",
        &[(SECOND, 2, Vote(1), 10), (SECOND, 2, Vote(2), 10)],
        "board 2 rule 5 term 10\n",
    ),
    (
        "votes of both",
        &[(FIRST, 2, Vote(1), 10), (SECOND, 2, Vote(2), 10)],
        "board 2 rule 5 term 10\n",
    ),
    (
        "a vote and a stamp of the first",
        &[(FIRST, 1, Vote(0), 15), (FIRST, 1, Stamp(0), 15)],
        "board 1 rule 5 term 15\n",
    ),
    (
        "a vote of the first and a stamp of the second",
        &[(FIRST, 1, Vote(1), 15), (SECOND, 1, Stamp(0), 15)],
        "board 1 rule 5 term 15\n",
    ),
    (
        "a vote and the last stamp of the first",
        &[(FIRST, 2, Vote(0), 16), (FIRST, 2, Stamp(1), 16)],
        "board 2 rule 5 term 16\n",
    ),
    (
        "a vote and the last stamp of the second",
        &[(SECOND, 3, Vote(0), 16), (SECOND, 3, Stamp(2), 16)],
        "board 3 rule 5 term 16\n",
    ),
    (
        "a stamp and a receipt of the first",
        &[(FIRST, 1, Stamp(0), 17), (FIRST, 1, Receipt, 17)],
        "board 1 rule 5 term 17\n",
    ),
    (
        "a stamp of the first and a receipt of the second",
        &[(FIRST, 1, Stamp(0), 17), (SECOND, 1, Receipt, 17)],
        "board 1 rule 5 term 17\n",
    ),
    (
        "the last stamp and a receipt of the second",
        &[(SECOND, 3, Stamp(2), 19), (SECOND, 3, Receipt, 19)],
        "board 3 rule 5 term 19\n",
    ),
    (
        "a receipt of the first and the last stamp of the second",
        &[(FIRST, 3, Receipt, 19), (SECOND, 3, Stamp(2), 19)],
        "board 3 rule 5 term 19\n",
    ),
    (
        "the last stamp of the first and a stamp of the second",
        &[(FIRST, 2, Stamp(1), 14), (SECOND, 2, Stamp(1), 14)],
        "board 2 rule 5 term 14\n",
    ),
    // The kinds alone differ.
    (
        "the last stamp and a receipt of the first, for one record",
        &[(FIRST, 2, Stamp(1), 14), (FIRST, 2, Receipt, 14)],
        "board 2 rule 5 term 14\n",
    ),
    (
        "a stamp and a receipt of the second, for one record",
        &[(SECOND, 2, Stamp(1), 14), (SECOND, 2, Receipt, 14)],
        "board 2 rule 5 term 14\n",
    ),
    // Leaf 0 has signed the vote of term 1 already, in both.
    ("leaf 0, which votes have", &[(FIRST, 2, Receipt, 0)], "board 2 rule 5 term 0\n"),
    (
        "leaf 0 and another leaf",
        &[(SECOND, 1, Stamp(0), 0), (FIRST, 1, Receipt, 9), (SECOND, 1, Vote(2), 9)],
        "board 1 rule 5 term 0\n",
    ),
    // Two leaves of one replica.
    (
        "two leaves, the higher first",
        &[
            (FIRST, 1, Vote(0), 18),
            (FIRST, 1, Vote(1), 18),
            (SECOND, 1, Vote(2), 12),
            (SECOND, 1, Receipt, 12),
        ],
        "board 1 rule 5 term 12\n",
    ),
    (
        "two leaves, the lower first",
        &[
            (FIRST, 1, Vote(0), 12),
            (FIRST, 1, Vote(1), 12),
            (SECOND, 1, Vote(2), 18),
            (SECOND, 1, Receipt, 18),
        ],
        "board 1 rule 5 term 12\n",
    ),
    (
        "two leaves, each in both submissions",
        &[
            (FIRST, 2, Vote(0), 18),
            (FIRST, 2, Receipt, 12),
            (SECOND, 2, Vote(2), 12),
            (SECOND, 2, Receipt, 18),
        ],
        "board 2 rule 5 term 12\n",
    ),
    (
        "two leaves, the lower in both submissions and the higher in one",
        &[
            (SECOND, 3, Vote(0), 18),
            (SECOND, 3, Vote(1), 18),
            (FIRST, 3, Receipt, 17),
            (SECOND, 3, Stamp(2), 17),
        ],
        "board 3 rule 5 term 17\n",
    ),
    (
        "each replica with a leaf of its own",
        &[
            (FIRST, 1, Vote(0), 12),
            (FIRST, 1, Vote(1), 12),
            (FIRST, 2, Receipt, 9),
            (SECOND, 2, Receipt, 9),
            (SECOND, 3, Vote(2), 15),
            (SECOND, 3, Stamp(2), 15),
        ],
        "board 1 rule 5 term 12\nboard 2 rule 5 term 9\nboard 3 rule 5 term 15\n",
    ),
];

/// Chosen leaves by which no leaf signs two messages.
pub const NOT_CHARGED: [(&str, &[By]); 4] = [
    ("each message has its own", &[]),
    (
        "one number in the keys of three replicas",
        &[(FIRST, 1, Vote(0), 17), (FIRST, 2, Receipt, 17), (SECOND, 3, Stamp(2), 17)],
    ),
    (
        "neighbouring numbers",
        &[(FIRST, 1, Vote(0), 16), (FIRST, 1, Receipt, 17), (SECOND, 1, Receipt, 18)],
    ),
    ("one message by two leaves", &[(SECOND, 1, Vote(0), 16), (SECOND, 2, Vote(1), 17)]),
];
