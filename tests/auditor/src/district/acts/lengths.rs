//! Acts of every kind on logs of every length up to 6, all of the replica's own term; and on logs
//! whose last record alone is, what looks at the log. The last vote and the last stamp change from
//! length to length.

use super::families::{ballot, by_own_leaf, end, record, state};
use super::{Act, Group, State};

const TERM: u32 = 5;

/// Adds to the groups, in the order of the file.
pub fn add_to(groups: &mut [Group]) {
    for length in 0..=6 {
        for (turn, older) in [0, length.max(1) - 1].into_iter().enumerate() {
            let state = state_of(length, older, turn);
            for (group, acts) in groups.iter_mut().zip(acts(&state, older, turn)) {
                group.on(3 + length, &state, acts);
            }
        }
    }
}

/// A log of so many records, the older ones of a term before its own.
fn state_of(length: usize, older: usize, turn: usize) -> State {
    let terms: Vec<u32> = (0..length).map(|i| if i < older { 2 } else { TERM }).collect();
    let vote = [None, Some(TERM), Some(TERM - 1)][(length + 2 * turn) % 3];
    let stamp = [None, Some(TERM), Some(TERM - 1)][(length + turn) % 3];
    let state = state(TERM, None, stamp, &terms);
    // A vote in this term is for the log's end, so that the same may be given again.
    let on = |term| if term == TERM { end(&state) } else { (2, 1) };
    State { last_vote: vote.map(|term| ballot(2, term, on(term))), ..state }
}

/// For each group, in the order of the file, what a replica may do on such a state, and receipts
/// for every record and past the last; on the second turn fewer.
fn acts(state: &State, older: usize, turn: usize) -> [Vec<Act>; 6] {
    let length = state.log.len();
    let keep = length.max(1) - 1;
    let first_receipt = if older == 0 { 1 } else { length };
    let again = by_own_leaf(ballot(2, TERM, end(state)));
    let replaced = Act::Take(keep, vec![record(TERM, 8), record(TERM, 9)]);
    let stamp = vec![Act::Stamp(length as u32)];
    let receipts =
        (first_receipt..=length + 1).map(|index| Act::Receipt(index as u32, index)).collect();
    if turn > 0 {
        return [vec![], vec![again], vec![replaced], vec![], stamp, receipts];
    }
    [
        vec![Act::Raise(TERM + 1 + length as u32)],
        vec![again, by_own_leaf(ballot(3, TERM + 1, end(state)))],
        vec![Act::Take(length, vec![record(TERM, 9)]), replaced],
        vec![Act::Add(record(TERM, 9))],
        stamp,
        receipts,
    ]
}
