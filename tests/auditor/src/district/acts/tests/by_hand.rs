//! Examples spelled out from documents 01 and 02.

use super::*;

/// In term 4 of 3 replicas: a vote for 2 and no stamp in it, and a log that ends at (4, 2).
pub fn in_term_4() -> State {
    State {
        term: 4,
        last_vote: Some(vote(2, 4, 3, 1)),
        last_stamp: Some(3),
        log: vec![record(3, 0), record(4, 7)],
        used: Vec::new(),
    }
}

/// By hand from document 01: what is allowed in term 4, and what is not.
#[test]
fn by_hand() {
    let after = |act| Example::new(3, in_term_4(), act).after;
    let state = in_term_4;
    assert_eq!(after(Act::Raise(3)), None);
    assert_eq!(after(Act::Raise(5)), Some(State { term: 5, ..state() }));
    // Another candidate, the same one on the log's end of now, and the same on another pointer.
    assert_eq!(after(Act::Vote(0, vote(3, 4, 4, 2))), None);
    assert_eq!(after(Act::Vote(0, vote(2, 4, 4, 2))), None);
    let same = vote(2, 4, 4, 2);
    let used = vec![(0, Message::Vote(same))];
    let fresh = State { last_vote: Some(same), used, ..state() };
    let again = |vote| Example::new(3, fresh.clone(), Act::Vote(0, vote)).after;
    assert_eq!(again(same), Some(fresh.clone()));
    assert_eq!(again(Vote { last_pointer: [1; 32], ..vote(2, 4, 4, 2) }), None);
    // The last vote again, whose log is staler by now.
    assert_eq!(after(Act::Vote(0, vote(2, 4, 3, 1))), None);
    assert_eq!(after(Act::Vote(0, vote(3, 5, 4, 1))), None);
    let next = vote(3, 5, 4, 2);
    let used = vec![(6, Message::Vote(next))];
    let voted = State { term: 5, last_vote: Some(next), used, ..state() };
    assert_eq!(after(Act::Vote(6, next)), Some(voted));
    assert_eq!(after(Act::Take(0, vec![record(4, 9)])), None);
    let run = vec![record(4, 9), record(4, 8)];
    assert_eq!(after(Act::Take(0, run.clone())), Some(State { log: run, ..state() }));
    assert_eq!(after(Act::Add(record(3, 1))), None);
    let log = vec![record(3, 0), record(4, 7), record(4, 1)];
    assert_eq!(after(Act::Add(record(4, 1))), Some(State { log, ..state() }));
    let used = vec![(3, Message::Stamp(state().log))];
    assert_eq!(after(Act::Stamp(3)), Some(State { last_stamp: Some(4), used, ..state() }));
    assert_eq!(after(Act::Receipt(0, 1)), None);
    let used = vec![(0, Message::Receipt(state().log))];
    assert_eq!(after(Act::Receipt(0, 2)), Some(State { used, ..state() }));
    assert_eq!([Act::Decline, Act::Restart].map(after), [Some(state()), Some(state())]);
}

/// By hand from document 02, W5: leaf 5 has signed the stamp of the last record, (4, 2), and leaf 6
/// a vote in term 4.
#[test]
fn leaves_by_hand() {
    let (stamp, own) = (Message::Stamp(in_term_4().log), vote(2, 4, 4, 2));
    let used = vec![(5, stamp), (6, Message::Vote(own))];
    let state = State { last_vote: Some(own), last_stamp: Some(4), used, ..in_term_4() };
    let after = |act| Example::new(3, state.clone(), act).after;
    let with = |leaf, message| {
        let mut state = state.clone();
        state.used.insert(0, (leaf, message));
        Some(state)
    };
    // The same message by its own leaf changes nothing; by another it is kept once more.
    assert_eq!(after(Act::Stamp(5)), Some(state.clone()));
    assert_eq!(after(Act::Vote(6, own)), Some(state.clone()));
    assert_eq!(after(Act::Stamp(4)), with(4, Message::Stamp(state.log.clone())));
    assert_eq!(after(Act::Vote(0, own)), with(0, Message::Vote(own)));
    assert_eq!(after(Act::Receipt(7, 2)), with(7, Message::Receipt(state.log.clone())));
    // Another message: a receipt for the same record, a stamp, and a vote in the next term.
    assert_eq!([5, 6].map(|leaf| after(Act::Receipt(leaf, 2))), [None, None]);
    assert_eq!((after(Act::Stamp(6)), after(Act::Vote(5, own))), (None, None));
    let next = vote(2, 5, 4, 2);
    assert_eq!([5, 6].map(|leaf| after(Act::Vote(leaf, next))), [None, None]);
    let voted =
        with(1, Message::Vote(next)).map(|state| State { term: 5, last_vote: Some(next), ..state });
    assert_eq!(after(Act::Vote(1, next)), voted);
    // Nothing else changes the leaves.
    for act in [Act::Raise(9), Act::Add(record(4, 1)), Act::Decline, Act::Restart] {
        assert_eq!(after(act).map(|after| after.used), Some(state.used.clone()));
    }
}
