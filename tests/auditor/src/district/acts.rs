//! Worked examples of document 01's board rules, with document 02's W4 and W5: acts on many states,
//! allowed or refused by a replica that does not cheat, and the file of the proof language that
//! lists them.

mod drawn;
mod families;
mod leaves;
mod lengths;
mod text;

use super::replica::{Act, Replica};
use crate::random::Random;
use crate::statement::{pointers, position, Record, Statement, Vote};
use std::collections::BTreeMap;

/// What a leaf has signed. A stamp and a receipt are given by the log up to their record, which
/// the pointer that they hold follows from.
#[derive(Clone, Debug, PartialEq)]
enum Message {
    Vote(Vote),
    Stamp(Vec<Record>),
    Receipt(Vec<Record>),
}

impl Message {
    fn statement(&self) -> Statement {
        let end = |log: &[Record]| position(log, &pointers(log), log.len());
        match self {
            Message::Vote(vote) => Statement::Vote(*vote),
            Message::Stamp(log) => Statement::Stamp(end(log)),
            Message::Receipt(log) => Statement::Receipt(end(log)),
        }
    }
}

/// What a replica's acts work on.
#[derive(Clone, Debug, Default, PartialEq)]
struct State {
    term: u32,
    last_vote: Option<Vote>,
    /// The last stamp's term.
    last_stamp: Option<u32>,
    log: Vec<Record>,
    /// The leaves used, the last one first, each with what it has signed.
    used: Vec<(u32, Message)>,
}

impl State {
    /// A replica in this state, without cheats.
    fn replica(&self) -> Replica {
        Replica {
            term: self.term,
            last_vote: self.last_vote,
            last_stamp: self.last_stamp,
            log: self.log.clone(),
            used: self.statements(),
            ..Replica::new(1)
        }
    }

    /// The leaves used, as a replica keeps them.
    fn statements(&self) -> BTreeMap<u32, Statement> {
        self.used.iter().map(|(leaf, message)| (*leaf, message.statement())).collect()
    }

    /// The state of a replica that has done the act on this one.
    fn after(&self, act: &Act, replica: &Replica) -> State {
        let mut used = self.used.clone();
        if let Some((leaf, message)) = self.signed_by(act) {
            if !used.iter().any(|(other, _)| *other == leaf) {
                used.insert(0, (leaf, message));
            }
        }
        let Replica { term, last_vote, last_stamp, ref log, .. } = *replica;
        let after = State { term, last_vote, last_stamp, log: log.clone(), used };
        assert_eq!(after.statements(), replica.used, "{act:?}");
        after
    }

    /// What an act signs on this state, with its leaf, if it is one that signs and has a record to
    /// sign for.
    fn signed_by(&self, act: &Act) -> Option<(u32, Message)> {
        match act {
            Act::Vote(leaf, vote) => Some((*leaf, Message::Vote(*vote))),
            Act::Stamp(leaf) => Some((*leaf, Message::Stamp(self.log.clone()))),
            Act::Receipt(leaf, index) => {
                Some((*leaf, Message::Receipt(self.log.get(..*index)?.to_vec())))
            }
            Act::Raise(_) | Act::Take(..) | Act::Add(_) | Act::Decline | Act::Restart => None,
        }
    }
}

/// An act of one of n replicas on a state, and the state after it, or nothing if it is not allowed.
#[derive(Clone, Debug, PartialEq)]
struct Example {
    n: usize,
    state: State,
    act: Act,
    after: Option<State>,
}

impl Example {
    /// What the replica's own rules make of the act.
    fn new(n: usize, state: State, act: Act) -> Example {
        let mut replica = state.replica();
        let after = replica.act(&act, n).then(|| state.after(&act, &replica));
        Example { n, state, act, after }
    }
}

/// The examples of one kind of act, none of them twice.
struct Group {
    name: &'static str,
    about: &'static str,
    examples: Vec<Example>,
}

impl Group {
    fn new(name: &'static str, about: &'static str) -> Group {
        Group { name, about, examples: Vec::new() }
    }

    /// Puts the example in if it is new, and says whether it was.
    fn put(&mut self, example: Example) -> bool {
        let new = !self.examples.contains(&example);
        if new {
            self.examples.push(example);
        }
        new
    }

    /// Puts in one example for each of the acts on a state.
    fn on(&mut self, n: usize, state: &State, acts: impl IntoIterator<Item = Act>) {
        for act in acts {
            self.put(Example::new(n, state.clone(), act));
        }
    }
}

/// All examples: the hand-made families and those on leaves, then for each but the last kind of act
/// some on logs of every length, and some that are drawn, as many refused as allowed.
fn groups() -> Vec<Group> {
    let drawn: [(drawn::Kind, usize); 6] = [
        (drawn::raise, 1),
        (drawn::vote, 4),
        (drawn::run, 4),
        (drawn::add, 1),
        (drawn::stamp, 3),
        (drawn::receipt, 2),
    ];
    let mut random = Random::new(23);
    let mut groups = families::groups();
    leaves::add_to(&mut groups);
    lengths::add_to(&mut groups);
    for (group, (kind, count)) in groups.iter_mut().zip(drawn) {
        drawn::add_to(group, kind, count, &mut random);
    }
    groups
}

/// The file of the proof language; always the same.
pub fn file() -> String {
    text::file(&groups())
}

#[cfg(test)]
mod tests;
