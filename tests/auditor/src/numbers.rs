//! Document 01, What stops an audit, and The report: the numbers, as this auditor gives them, and
//! the rules; numbers 17 and 18 are of document 02, W1, and 19 to 21 of W3, rule 5 of W5. The program
//! numbers prints the two lists, which tests/scripts/numbers compares with docs/NUMBERS.md.

pub const ACCEPTED: u8 = 0;
pub const SHORT_REPORT: u8 = 1;
pub const ROSTER_SIZE: u8 = 2;
pub const KEY_TYPE: u8 = 3;
/// Document 01's twin key.
pub const DUPLICATE_KEY: u8 = 4;
pub const SIZE: u8 = 5;
pub const VERSION: u8 = 6;
pub const CLUSTER: u8 = 7;
pub const COUNTS: u8 = 8;
pub const LAYOUT: u8 = 9;
pub const SIGNERS: u8 = 10;
pub const TERM_ORDER: u8 = 11;
pub const TERM_COUNT: u8 = 12;
pub const LEADER: u8 = 13;
pub const COMMIT_INDEX: u8 = 14;
pub const SIGNATURE: u8 = 15;
pub const LONG_MESSAGE: u8 = 16;
pub const LENGTH_COUNT: u8 = 17;
pub const LENGTH_SUM: u8 = 18;
pub const ITEM: u8 = 19;
pub const NO_LEADER: u8 = 20;
pub const SHORT_OUTPUT: u8 = 21;

pub const TWO_VOTES: u8 = 1;
pub const TWO_STAMPS: u8 = 2;
pub const STALE_VOTE: u8 = 3;
pub const STALE_VOTE_EXCHANGED: u8 = 4;
pub const ONE_LEAF: u8 = 5;

/// A number or a rule, what it is about, and its word.
pub type Row = (u8, &'static str, &'static str);

/// Every number; the words are document 01's, and from 17 on ours, for document 02 has none.
pub const NUMBERS: &[Row] = &[
    (ACCEPTED, "all", "accepted"),
    (SHORT_REPORT, "report", "short report"),
    (ROSTER_SIZE, "roster", "roster size"),
    (KEY_TYPE, "roster", "key type"),
    (DUPLICATE_KEY, "roster", "twin key"),
    (SIZE, "submission", "size"),
    (VERSION, "submission", "version"),
    (CLUSTER, "submission", "cluster"),
    (COUNTS, "submission", "counts"),
    (LAYOUT, "submission", "layout"),
    (SIGNERS, "submission", "signers"),
    (TERM_ORDER, "submission", "term order"),
    (TERM_COUNT, "submission", "term count"),
    (LEADER, "submission", "leader"),
    (COMMIT_INDEX, "submission", "commit index"),
    (SIGNATURE, "submission", "signature"),
    (LONG_MESSAGE, "message", "long message"),
    (LENGTH_COUNT, "lengths", "length count"),
    (LENGTH_SUM, "lengths", "length sum"),
    (ITEM, "items", "item"),
    (NO_LEADER, "items", "no leader"),
    (SHORT_OUTPUT, "output", "short output"),
];

/// Every rule; the words are ours, for the documents have none.
pub const RULES: &[Row] = &[
    (TWO_VOTES, "votes", "two votes"),
    (TWO_STAMPS, "stamps", "two stamps"),
    (STALE_VOTE, "receipts", "stale vote"),
    (STALE_VOTE_EXCHANGED, "receipts", "stale vote, exchanged"),
    (ONE_LEAF, "leaves", "one leaf"),
];
