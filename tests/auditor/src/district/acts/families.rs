//! Hand-made examples. In each family an act breaks one clause of the board rules and no other,
//! and beside it stands what is just allowed.

use super::{Act, Group, State};
use crate::sha256::Digest;
use crate::statement::{Record, Vote};

/// The highest term that fits its field.
const TOP: u32 = u32::MAX;

pub fn groups() -> Vec<Group> {
    vec![raises(), votes(), runs(), adds(), stamps(), receipts(), others()]
}

fn raises() -> Group {
    let mut group = Group::new("raises", "raises: to a lower term, the same and higher ones");
    let mut on = |n, state: &State, terms: &[u32]| {
        group.on(n, state, terms.iter().map(|term| Act::Raise(*term)))
    };
    on(3, &State::default(), &[0, 1, 6, TOP]);
    on(4, &state(4, Some(ballot(2, 4, (3, 1))), Some(3), &[3, 4]), &[3, 4, 5, 0, TOP]);
    on(8, &state(6, Some(ballot(8, 5, (1, 2))), Some(6), &[1, 1, 6]), &[5, 6, 7]);
    on(9, &state(TOP - 1, None, None, &[2]), &[TOP - 2, TOP - 1, TOP]);
    on(6, &state(TOP, Some(ballot(1, TOP, (0, 0))), None, &[]), &[TOP - 1, TOP, 0]);
    // A log that ends above the replica's own term, and a vote of a later term.
    on(5, &state(2, None, None, &[1, 4]), &[1, 3]);
    on(7, &state(2, Some(ballot(3, 5, (0, 0))), Some(4), &[]), &[1, 4]);
    group
}

fn votes() -> Group {
    let mut group = Group::new("votes", "votes: terms, candidates, second votes, ends of logs");
    let start = State::default();
    let not_yet = state(4, None, None, &[1, 3, 3]);
    let in_this_term = state(6, Some(ballot(3, 6, (5, 3))), Some(5), &[2, 2, 5]);
    let earlier = state(TOP - 1, Some(ballot(4, 2, (1, 1))), None, &[1, TOP - 1]);
    for (n, state) in [(3, &start), (5, &not_yet), (8, &in_this_term), (4, &earlier)] {
        vote_terms(&mut group, n, state);
    }
    for (n, state) in [(3, &start), (9, &not_yet)] {
        vote_candidates(&mut group, n, state);
    }
    for (n, state) in [(3, &start), (6, &not_yet)] {
        second_votes(&mut group, n, state);
        first_votes(&mut group, n, state);
    }
    for (n, state) in [(7, &not_yet), (8, &in_this_term), (4, &earlier)] {
        vote_ends(&mut group, n, state);
    }
    odd_votes(&mut group);
    group
}

/// Below, in and above the replica's own term.
fn vote_terms(group: &mut Group, n: usize, state: &State) {
    let candidate = state.last_vote.map_or(1, |last| last.candidate);
    let terms = [state.term.checked_sub(1), Some(state.term), state.term.checked_add(1)];
    let vote = |term| by_own_leaf(ballot(candidate, term, end(state)));
    group.on(n, state, terms.into_iter().flatten().map(vote));
}

/// For the lowest and the highest candidate and those beyond.
fn vote_candidates(group: &mut Group, n: usize, state: &State) {
    let candidates = [0, 1, n as u16, n as u16 + 1];
    let vote = |candidate| by_own_leaf(ballot(candidate, state.term, end(state)));
    group.on(n, state, candidates.map(vote));
}

/// After a vote in this term: the very same again; votes that differ from it in one field, lower
/// and higher, for each of the four that a request has; and one that differs in all four. In the
/// next term the same request and that other one.
fn second_votes(group: &mut Group, n: usize, state: &State) {
    let (last_term, last_index) = end(state);
    let voted = Vote { last_pointer: digest(50), ..ballot(2, state.term, (last_term + 1, 9)) };
    assert!(last_index < 8, "a lower index than the vote's is no staler");
    let state = State { last_vote: Some(voted), ..state.clone() };
    for term in [state.term, state.term + 1] {
        let same = Vote { term, ..voted };
        let all = Vote { last_pointer: digest(52), ..ballot(3, term, (last_term + 2, 10)) };
        group.on(n, &state, [same, all].map(by_own_leaf));
    }
    group.on(n, &state, one_field_other(voted).map(by_own_leaf));
}

/// The vote with one field of its request lower by one, and higher, each of the four in turn.
fn one_field_other(vote: Vote) -> [Vote; 8] {
    let Vote { candidate, last_term, last_index, last_pointer, .. } = vote;
    let byte = last_pointer[0];
    [
        Vote { candidate: candidate - 1, ..vote },
        Vote { candidate: candidate + 1, ..vote },
        Vote { last_term: last_term - 1, ..vote },
        Vote { last_term: last_term + 1, ..vote },
        Vote { last_index: last_index - 1, ..vote },
        Vote { last_index: last_index + 1, ..vote },
        Vote { last_pointer: digest(byte - 1), ..vote },
        Vote { last_pointer: digest(byte + 1), ..vote },
    ]
}

/// In this term after a vote in the one before: for the same request, for another of the same
/// candidate, and for another candidate.
fn first_votes(group: &mut Group, n: usize, state: &State) {
    if state.term > 0 {
        let (term, (last_term, last_index)) = (state.term, end(state));
        let last = Some(ballot(2, term - 1, (last_term, last_index)));
        let state = State { last_vote: last, ..state.clone() };
        let vote = |candidate, end| by_own_leaf(ballot(candidate, term, end));
        let (same, longer) = ((last_term, last_index), (last_term, last_index + 1));
        group.on(n, &state, [vote(2, same), vote(2, longer), vote(3, same)]);
    }
}

/// Ends of a log that are staler and fresher, by index and by term, in a term without a vote so
/// far.
fn vote_ends(group: &mut Group, n: usize, state: &State) {
    let (term, index) = end(state);
    let candidate = state.last_vote.map_or(2, |last| last.candidate);
    let vote_term = state.last_vote.map_or(state.term, |last| state.term.max(last.term + 1));
    let ends = [
        (term, index - 1),
        (term, index + 1),
        (term - 1, index + 5),
        (term + 1, index - 1),
        // Above the vote's own term, which no rule forbids.
        (TOP, 1),
    ];
    let vote = |end| by_own_leaf(ballot(candidate, vote_term, end));
    group.on(n, state, ends.map(vote));
}

/// After a stamp, in the highest term, and on states that no acts lead to.
fn odd_votes(group: &mut Group) {
    let vote = |candidate, term, end| by_own_leaf(ballot(candidate, term, end));
    // After a stamp in this term. The candidate of the last vote may not ask again with the log
    // that it has now; and the last vote itself is for a log that is staler by now.
    let stamped = state(3, Some(ballot(1, 3, (1, 1))), Some(3), &[1, 3]);
    group.on(9, &stamped, [vote(9, 4, (3, 1)), vote(9, 4, (3, 2)), vote(1, 3, (3, 2))]);
    group.on(9, &stamped, [vote(1, 3, (1, 1))]);
    // In the highest term.
    let top = state(TOP, None, None, &[TOP]);
    group.on(6, &top, [vote(6, TOP, (TOP, 0)), vote(6, TOP, (TOP, 1)), vote(6, TOP, (TOP, TOP))]);
    // The last vote is of a later term than the replica's own.
    let later = state(2, Some(ballot(4, 5, (1, 1))), None, &[1]);
    group.on(4, &later, [vote(3, 5, (1, 1)), vote(4, 5, (1, 1)), vote(3, 4, (1, 1))]);
    // The log ends above the replica's own term.
    let ahead = state(2, None, None, &[1, 4]);
    group.on(7, &ahead, [vote(7, 3, (3, 2)), vote(7, 3, (4, 2))]);
}

fn runs() -> Group {
    let mut group = Group::new("runs", "runs: kept records, order of terms, ends, stamps");
    let own_end = state(3, None, None, &[1, 3]);
    let older_end = state(5, Some(ballot(6, 5, (4, 3))), Some(2), &[2, 2, 4]);
    let top = state(TOP, Some(ballot(9, TOP - 1, (4, 1))), None, &[4, TOP]);
    for (n, state) in [(3, &own_end), (7, &older_end), (9, &top)] {
        run_lengths(&mut group, n, state);
        run_terms(&mut group, n, state);
        run_stamps(&mut group, n, state);
    }
    runs_from_start(&mut group);
    odd_runs(&mut group);
    group
}

/// How many records are kept and taken, in the replica's own term.
fn run_lengths(group: &mut Group, n: usize, state: &State) {
    let all = state.log.len();
    let own = |count| vec![state.term; count];
    group.on(
        n,
        state,
        [
            // One record more; one more kept than there are; none taken.
            run(all, &own(1)),
            run(all + 1, &own(1)),
            run(all, &[]),
            // As many in place of the last, or of all; one fewer; the same ones.
            run(all - 1, &own(1)),
            run(0, &own(all)),
            run(0, &own(all - 1)),
            Act::Take(0, state.log.clone()),
        ],
    );
}

/// The order of terms in the run and where it joins the kept records, and the last one's term.
fn run_terms(group: &mut Group, n: usize, state: &State) {
    let (all, own, last) = (state.log.len(), state.term, end(state).0);
    let behind = |first| [&[first], &vec![own; all - 1][..]].concat();
    group.on(
        n,
        state,
        [
            run(0, &behind(0)),
            run(0, &behind(1)),
            run(all, &[own, own - 1, own]),
            run(all, &[own, own, own]),
            run(all, &[last - 1, own]),
            run(all, &[last, own]),
        ],
    );
    if last < own {
        group.on(n, state, [run(all, &[own - 1])]);
    }
    if own < TOP {
        group.on(n, state, [run(all, &[own + 1])]);
    }
}

/// After a stamp in this term, and after one in the term before.
fn run_stamps(group: &mut Group, n: usize, state: &State) {
    let all = state.log.len();
    for stamp in [state.term, state.term - 1] {
        let stamped = State { last_stamp: Some(stamp), ..state.clone() };
        group.on(n, &stamped, [run(all, &[state.term])]);
    }
}

/// The first records of all.
fn runs_from_start(group: &mut Group) {
    group.on(5, &State::default(), [run(0, &[0]), run(0, &[1])]);
    group.on(5, &state(1, None, None, &[]), [run(0, &[1]), run(1, &[1]), run(0, &[])]);
}

/// The same records after a stamp in this term, and runs on states that no acts lead to.
fn odd_runs(group: &mut Group) {
    let stamped = state(3, None, Some(3), &[1, 3]);
    group.on(3, &stamped, [Act::Take(0, stamped.log.clone())]);
    // The log ends above the replica's own term, so that a run's end is staler by term.
    for last in [4, 3] {
        group.on(4, &state(3, None, None, &[1, last]), [run(1, &[3, 3, 3])]);
    }
    // Kept records whose terms fall, and one of term 0.
    group.on(6, &state(4, None, Some(2), &[2, 1, 4]), [run(2, &[4, 4]), run(1, &[4, 4])]);
    group.on(8, &state(2, None, None, &[0, 2]), [run(1, &[2]), run(0, &[2, 2])]);
    // The last stamp is of a later term than the replica's own.
    group.on(5, &state(3, None, Some(5), &[1, 3]), [run(2, &[3])]);
}

fn adds() -> Group {
    let mut group = Group::new("adds", "adds: records of the replica's own term and of others");
    let mut on = |n, state: &State, terms: &[u32]| {
        group.on(n, state, terms.iter().map(|term| Act::Add(record(*term, 7))))
    };
    on(3, &State::default(), &[0, 1]);
    on(3, &state(1, None, None, &[]), &[1, 0]);
    // After a stamp in this term.
    on(6, &state(4, Some(ballot(5, 4, (1, 1))), Some(4), &[1, 4]), &[3, 4, 5]);
    on(9, &state(6, Some(ballot(2, 5, (2, 2))), Some(2), &[2, 2]), &[2, 6, 0]);
    on(5, &state(TOP, None, None, &[TOP]), &[TOP - 1, TOP]);
    on(4, &state(TOP - 1, None, Some(1), &[1]), &[TOP - 1, TOP]);
    // The log ends above the replica's own term.
    on(7, &state(2, None, None, &[3]), &[2, 3]);
    group
}

fn stamps() -> Group {
    let mut group = Group::new("stamps", "stamps: of no record, of an own one and of others");
    let voted = Some(ballot(2, 3, (1, 1)));
    let states = [
        (3, State::default()),
        (4, state(3, None, None, &[])),
        (9, state(TOP, None, None, &[])),
        // The last record has the replica's own term, an older one and a later one.
        (5, state(3, None, None, &[1, 3])),
        (5, state(4, None, None, &[1, 3])),
        (5, state(2, None, None, &[1, 3])),
        // After a stamp in this term, and after one in the term before.
        (6, state(3, voted, Some(3), &[1, 3])),
        (6, state(3, voted, Some(3), &[1, 3, 3])),
        (6, state(4, voted, Some(3), &[1, 3, 3])),
        (6, state(4, voted, Some(3), &[1, 3, 3, 4])),
        // A record of the replica's own term that is not the last, and one that is.
        (7, state(5, None, None, &[5, 4])),
        (7, state(5, None, None, &[4, 5])),
        // A record of term 0, as no acts lead to.
        (8, state(0, None, None, &[0])),
        (8, state(1, None, None, &[0])),
        (9, state(TOP, None, Some(1), &[1, TOP - 1])),
        (9, state(TOP, None, Some(1), &[1, TOP])),
        (9, state(TOP - 1, None, Some(1), &[1, TOP - 1])),
    ];
    for (n, state) in &states {
        group.on(*n, state, [Act::Stamp(*n as u32)]);
    }
    group
}

fn receipts() -> Group {
    let mut group = Group::new("receipts", "receipts: at each place of a log, in and out of term");
    let mut on = |n, state: &State, indexes: &[usize]| {
        group.on(n, state, indexes.iter().map(|index| Act::Receipt(9 - *index as u32, *index)))
    };
    on(3, &State::default(), &[0, 1]);
    on(4, &state(3, None, None, &[1, 3, 3]), &[0, 1, 2, 3, 4]);
    // After a stamp in this term.
    let stamped = state(2, Some(ballot(5, 2, (0, 0))), Some(2), &[2; 5]);
    on(5, &stamped, &[0, 1, 3, 5, 6]);
    on(9, &state(6, None, Some(5), &[1, 2, 4, 5, 5, 6]), &[1, 5, 6, 7]);
    // No record has the replica's own term, or the last one has a later one.
    on(7, &state(5, Some(ballot(1, 5, (4, 3))), None, &[1, 4, 4]), &[2, 3]);
    on(7, &state(4, None, None, &[1, 4, 5]), &[1, 2, 3]);
    on(8, &state(TOP, None, None, &[TOP - 1, TOP]), &[1, 2, 3]);
    on(8, &state(TOP - 1, None, None, &[TOP - 1, TOP]), &[1, 2]);
    // A record of term 0, as no acts lead to.
    on(6, &state(0, None, None, &[0]), &[0, 1]);
    group
}

fn others() -> Group {
    let mut group = Group::new("others", "declining and restarting, which change nothing");
    let states = [
        (3, State::default()),
        (5, state(4, Some(ballot(2, 4, (3, 1))), Some(3), &[3, 4])),
        (9, state(TOP, None, Some(TOP), &[1, TOP])),
        (4, state(1, Some(ballot(4, 6, (2, 2))), None, &[0, 2])),
    ];
    for (n, state) in &states {
        group.on(*n, state, [Act::Decline, Act::Restart]);
    }
    group
}

/// A run in place of the records that are not kept; no log here holds its records.
fn run(keep: usize, terms: &[u32]) -> Act {
    Act::Take(keep, records(200, terms))
}

pub fn state(term: u32, last_vote: Option<Vote>, last_stamp: Option<u32>, terms: &[u32]) -> State {
    State { term, last_vote, last_stamp, log: records(0, terms), used: Vec::new() }
}

/// A vote by a leaf that has signed nothing else.
pub fn by_own_leaf(vote: Vote) -> Act {
    Act::Vote(u32::from(vote.candidate), vote)
}

/// The term and the index of the last record.
pub fn end(state: &State) -> (u32, u32) {
    state.replica().end()
}

pub fn ballot(candidate: u16, term: u32, (last_term, last_index): (u32, u32)) -> Vote {
    Vote { candidate, term, last_term, last_index, last_pointer: digest(last_index as u8) }
}

/// Records of these terms; the first byte of the first one's digest is given, and it goes up.
fn records(first_byte: u8, terms: &[u32]) -> Vec<Record> {
    terms.iter().zip(first_byte..).map(|(term, byte)| record(*term, byte)).collect()
}

pub fn record(term: u32, byte: u8) -> Record {
    Record { term, payload: digest(byte) }
}

pub fn digest(byte: u8) -> Digest {
    let mut digest = [0; 32];
    digest[0] = byte;
    digest
}
