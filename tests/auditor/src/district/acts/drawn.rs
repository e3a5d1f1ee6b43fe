//! Examples that are drawn: acts near what is allowed, on states that a replica came to.

use super::{Act, Example, Group, Message, State};
use crate::random::Random;
use crate::statement::{Record, Vote};

/// Draws an act of one kind, on a state of one of n replicas.
pub type Kind = fn(usize, &State, &mut Random) -> Act;

/// Adds to a group so many new examples that are refused, and as many that are allowed.
pub fn add_to(group: &mut Group, kind: Kind, count: usize, random: &mut Random) {
    let mut wanted = [count; 2];
    while wanted != [0, 0] {
        let n = 3 + random.below(7);
        let state = state(n, random);
        let act = kind(n, &state, random);
        let example = Example::new(n, state, act);
        let left = &mut wanted[usize::from(example.after.is_some())];
        if *left > 0 && group.put(example) {
            *left -= 1;
        }
    }
}

/// A state with some records that acts lead to; now and then with another term, as no acts may
/// lead to. Of the leaves used one that has signed a vote is kept, if there is one.
fn state(n: usize, random: &mut Random) -> State {
    let kinds: [Kind; 9] = [raise, vote, run, run, add, add, add, stamp, receipt];
    let length = 1 + random.below(3);
    let mut state = State::default();
    while state.log.len() < length {
        let act = kinds[random.below(kinds.len())](n, &state, random);
        let example = Example::new(n, state, act);
        state = example.after.unwrap_or(example.state);
    }
    state.used.retain(|(_, message)| matches!(message, Message::Vote(_)));
    state.used.truncate(1);
    if random.below(5) == 0 {
        state.term = near(state.term, random);
    }
    state
}

pub fn raise(_: usize, state: &State, random: &mut Random) -> Act {
    Act::Raise(near(state.term, random))
}

/// More often than not for the candidate of the last vote, if there was one; and now and then for
/// its very request, in this term or another.
pub fn vote(n: usize, state: &State, random: &mut Random) -> Act {
    let (last_term, last_index) = state.replica().end();
    let drawn = random.below(n + 2) as u16;
    let term = near(state.term, random);
    let leaf = leaf(state, random);
    let candidate = match state.last_vote {
        Some(last) if random.below(3) == 0 => return Act::Vote(leaf, Vote { term, ..last }),
        Some(last) if random.below(3) > 0 => last.candidate,
        _ => drawn,
    };
    let vote = Vote {
        candidate,
        term,
        last_term: near(last_term, random),
        last_index: near(last_index, random),
        last_pointer: digest(random),
    };
    Act::Vote(leaf, vote)
}

/// A run of up to three records; in most of them the terms rise to the replica's own.
pub fn run(_: usize, state: &State, random: &mut Random) -> Act {
    let keep = random.below(state.log.len() + 2);
    let mut terms: Vec<u32> =
        (0..random.below(4)).map(|_| near(state.term, random).min(state.term + 1)).collect();
    if random.below(4) > 0 {
        terms.sort();
        terms.iter_mut().for_each(|term| *term = (*term).min(state.term));
        terms.pop();
        terms.push(state.term);
    }
    Act::Take(keep, terms.into_iter().map(|term| record(term, random)).collect())
}

pub fn add(_: usize, state: &State, random: &mut Random) -> Act {
    Act::Add(record(near(state.term, random), random))
}

pub fn stamp(_: usize, state: &State, random: &mut Random) -> Act {
    Act::Stamp(leaf(state, random))
}

pub fn receipt(_: usize, state: &State, random: &mut Random) -> Act {
    Act::Receipt(leaf(state, random), random.below(state.log.len() + 2))
}

/// A leaf that is not used, or now and then one that is.
fn leaf(state: &State, random: &mut Random) -> u32 {
    let used = || state.used.iter().map(|(leaf, _)| *leaf);
    match used().next() {
        Some(last) if random.below(4) == 0 => last,
        _ => used().max().map_or(0, |leaf| leaf + 1 + random.below(3) as u32),
    }
}

/// A number from one below to two above.
fn near(number: u32, random: &mut Random) -> u32 {
    (number + random.below(4) as u32).saturating_sub(1)
}

fn record(term: u32, random: &mut Random) -> Record {
    Record { term, payload: digest(random) }
}

/// A digest of which only the first byte may differ from 0.
fn digest(random: &mut Random) -> [u8; 32] {
    let mut digest = [0; 32];
    digest[0] = random.word() as u8;
    digest
}
