//! The samples that are pairs: folders of samples/ with a roster and two submissions.

pub const PAIRS: [&str; 7] = [
    "empty",
    "one_leader",
    "stale_leader",
    "two_requests",
    "votes_and_stamps",
    "one_leaf",
    "large",
];
