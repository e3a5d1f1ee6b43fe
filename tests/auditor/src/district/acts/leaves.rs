//! Hand-made examples of document 02's W5, one leaf, one message: the leaf of an act that signs has
//! signed the same, something else, or nothing yet; and acts that do not sign leave the leaves as
//! they are. Where another message is like the act's own, its kind, term or index differs, so that
//! no two pointers have to be told apart.

use super::families::{ballot, digest, record, state};
use super::Message::{self, Receipt, Stamp};
use super::{Act, Group, State};
use crate::statement::Vote;

/// The leaf that is used, and others: its neighbours, the lowest, and the highest of the tallest
/// tree.
const USED: u32 = 7;
const OTHERS: [u32; 4] = [6, 8, 0, (1 << 25) - 1];

/// Adds to the groups, in the order of the file.
pub fn add_to(groups: &mut [Group]) {
    let [raises, votes, runs, adds, stamps, receipts, others] = groups else {
        panic!("a group for each kind of act, and one for those that change nothing")
    };
    add_votes(votes);
    add_stamps(stamps);
    add_receipts(receipts);
    // What does not sign.
    let kept = by(voted_and_stamped(), &[(USED, Stamp(voted_and_stamped().log)), (0, vote(2, 4))]);
    raises.on(3, &kept, [Act::Raise(5)]);
    runs.on(3, &State { last_stamp: Some(3), ..kept.clone() }, [Act::Take(1, vec![record(4, 9)])]);
    adds.on(3, &kept, [Act::Add(record(4, 9))]);
    others.on(3, &kept, [Act::Decline, Act::Restart]);
}

/// A vote in this term, a later one, and leaves that have signed other votes, of which each differs
/// from the act's in one field.
fn add_votes(group: &mut Group) {
    let (own, later) = (ballot(2, 4, (3, 1)), ballot(2, 5, (3, 1)));
    let voted = by(state(4, Some(own), None, &[3]), &[(USED, Message::Vote(own))]);
    let [below, above, ..] = OTHERS;
    let acts = [(USED, own), (above, own), (USED, later), (above, later), (below, later)];
    group.on(3, &voted, acts.map(|(leaf, vote)| Act::Vote(leaf, vote)));
    // The last vote is not known, as no acts lead to.
    let unknown = State { last_vote: None, ..voted.clone() };
    for vote in [
        own,
        Vote { candidate: 3, ..own },
        Vote { last_term: 4, ..own },
        Vote { last_index: 2, ..own },
        Vote { last_pointer: digest(9), ..own },
    ] {
        group.on(3, &unknown, [Act::Vote(USED, vote)]);
    }
    // Of two leaves each has its own message.
    let two = by(state(4, Some(own), Some(3), &[3]), &[(USED, Message::Vote(own)), (0, stamp_3())]);
    group.on(5, &two, [0, USED].map(|leaf| Act::Vote(leaf, own)));
}

/// The same stamp again, and leaves that have signed a receipt for the same record, an earlier
/// stamp, and a vote.
fn add_stamps(group: &mut Group) {
    let log = voted_and_stamped().log;
    let messages = [Stamp(log.clone()), Receipt(log.clone()), stamp_3(), vote(2, 4)];
    for (message, other) in messages.into_iter().zip(OTHERS) {
        let used = by(voted_and_stamped(), &[(USED, message)]);
        group.on(3, &used, [USED, other].map(Act::Stamp));
    }
}

/// The same receipt again, and leaves that have signed a stamp of the same record, a receipt for
/// the record before, and a vote.
fn add_receipts(group: &mut Group) {
    let log = voted_and_stamped().log;
    let longer = State { log: [&log[..], &[record(4, 8)]].concat(), ..voted_and_stamped() };
    let messages = [Receipt(log.clone()), Stamp(log.clone()), vote(2, 4)];
    for (message, other) in messages.into_iter().zip(OTHERS) {
        let used = by(longer.clone(), &[(USED, message)]);
        group.on(3, &used, [(USED, 2), (other, 2), (USED, 3)].map(|(l, i)| Act::Receipt(l, i)));
    }
}

/// In term 4, with a vote and a stamp in it, and a log that ends at (4, 2).
fn voted_and_stamped() -> State {
    state(4, Some(ballot(2, 4, (3, 1))), Some(4), &[3, 4])
}

/// A stamp of the record (3, 1).
fn stamp_3() -> Message {
    Stamp(state(3, None, None, &[3]).log)
}

fn vote(candidate: u16, term: u32) -> Message {
    Message::Vote(ballot(candidate, term, (3, 1)))
}

/// The state with these leaves used.
fn by(state: State, used: &[(u32, Message)]) -> State {
    State { used: used.to_vec(), ..state }
}
