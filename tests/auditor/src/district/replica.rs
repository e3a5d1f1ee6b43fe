//! A replica (document 01's board): its state, and its acts by the board rules, of which that on
//! votes is document 02's, W4, and that on leaves W5. A cheat leaves out some of the rules.

use crate::audit::is_staler;
use crate::statement::{pointers, Position, Record, Statement, Vote};
use std::collections::BTreeMap;

/// The rules that a replica does not keep.
#[derive(Clone, Copy, Debug, Default, PartialEq)]
pub struct Cheats {
    /// It votes for a second request in one term, be it of the same candidate.
    pub votes_twice: bool,
    /// As a leader it stands again in its term, with less of its log.
    pub asks_twice: bool,
    /// It votes for a candidate whose log is staler than its own.
    pub votes_for_staler: bool,
    /// It takes a run although it has stamped in this term.
    pub rewrites: bool,
    /// It loses its log when it votes.
    pub forgets: bool,
    /// It signs with leaves that have signed another message.
    pub reuses_leaves: bool,
}

/// What a replica may do. An act that signs begins with the number of its leaf.
#[derive(Clone, Debug, PartialEq)]
pub enum Act {
    Raise(u32),
    Vote(u32, Vote),
    Take(usize, Vec<Record>),
    Add(Record),
    Stamp(u32),
    Receipt(u32, usize),
    Decline,
    Restart,
}

#[derive(Clone, Debug)]
pub struct Replica {
    pub number: u16,
    pub term: u32,
    /// The last vote, with all that its request says.
    pub last_vote: Option<Vote>,
    /// The last stamp's term.
    pub last_stamp: Option<u32>,
    pub log: Vec<Record>,
    /// The leaves used, each with what it has signed.
    pub used: BTreeMap<u32, Statement>,
    pub cheats: Cheats,
    /// What it has done so far, but for declining, which changes nothing.
    pub acts: Vec<Act>,
}

impl Replica {
    pub fn new(number: u16) -> Replica {
        Replica {
            number,
            term: 0,
            last_vote: None,
            last_stamp: None,
            log: Vec::new(),
            used: BTreeMap::new(),
            cheats: Cheats::default(),
            acts: Vec::new(),
        }
    }

    /// The term and the index of its last record; 0 and 0 for an empty log.
    pub fn end(&self) -> (u32, u32) {
        end_of(&self.log)
    }

    /// Does an act as one of n replicas, if it may.
    pub fn act(&mut self, act: &Act, n: usize) -> bool {
        match act {
            Act::Raise(term) => self.raise(*term),
            Act::Vote(leaf, vote) => self.vote(*leaf, vote, n),
            Act::Take(keep, run) => self.take(*keep, run),
            Act::Add(record) => self.add(*record),
            Act::Stamp(leaf) => self.stamp(*leaf).is_some(),
            Act::Receipt(leaf, index) => self.receipt(*leaf, *index).is_some(),
            Act::Decline => true,
            Act::Restart => {
                self.restart();
                true
            }
        }
    }

    /// All of its state outlives a restart.
    pub fn restart(&mut self) {
        self.acts.push(Act::Restart);
    }

    /// Raises the term, which never falls.
    pub fn raise(&mut self, term: u32) -> bool {
        if term < self.term {
            return false;
        }
        self.term = term;
        self.acts.push(Act::Raise(term));
        true
    }

    /// Votes, if it may: in one term again only for the very same request.
    pub fn vote(&mut self, leaf: u32, vote: &Vote, n: usize) -> bool {
        let twice = self.last_vote.is_some_and(|last| last.term == vote.term && last != *vote);
        let statement = Statement::Vote(*vote);
        if vote.term < self.term
            || !(1..=n).contains(&(vote.candidate as usize))
            || (twice && !self.cheats.votes_twice)
            || !self.may_use(leaf, &statement)
        {
            return false;
        }
        if self.cheats.forgets {
            self.log.clear();
        }
        let staler = is_staler((vote.last_term, vote.last_index), self.end());
        if staler && !self.cheats.votes_for_staler {
            return false;
        }
        self.term = vote.term;
        self.last_vote = Some(*vote);
        self.used.insert(leaf, statement);
        self.acts.push(Act::Vote(leaf, *vote));
        true
    }

    /// Keeps the first records and takes a run in place of the rest, if it may.
    pub fn take(&mut self, keep: usize, run: &[Record]) -> bool {
        if run.is_empty() || keep > self.log.len() {
            return false;
        }
        let mut log = self.log[..keep].to_vec();
        log.extend(run);
        let in_order = log[0].term > 0 && log.windows(2).all(|two| two[0].term <= two[1].term);
        let own = end_of(&log).0 == self.term;
        let stamped = self.last_stamp == Some(self.term);
        if !in_order
            || !own
            || is_staler(end_of(&log), self.end())
            || (stamped && !self.cheats.rewrites)
        {
            return false;
        }
        self.log = log;
        self.acts.push(Act::Take(keep, run.to_vec()));
        true
    }

    /// Adds a record, if it has the replica's own term and that is above 0.
    pub fn add(&mut self, record: Record) -> bool {
        if record.term != self.term || self.term == 0 {
            return false;
        }
        self.log.push(record);
        self.acts.push(Act::Add(record));
        true
    }

    /// Stamps its last record, if it may.
    pub fn stamp(&mut self, leaf: u32) -> Option<Position> {
        let at = self.last_own_record()?;
        self.sign(leaf, Statement::Stamp(at))?;
        self.last_stamp = Some(self.term);
        self.acts.push(Act::Stamp(leaf));
        Some(at)
    }

    /// Gives a receipt for a record of its log, if it may.
    pub fn receipt(&mut self, leaf: u32, index: usize) -> Option<Position> {
        let at = self.own_record(index)?;
        self.sign(leaf, Statement::Receipt(at))?;
        self.acts.push(Act::Receipt(leaf, index));
        Some(at)
    }

    /// One leaf, one message, over all of its acts: whether a leaf may sign the statement.
    fn may_use(&self, leaf: u32, statement: &Statement) -> bool {
        let other = self.used.get(&leaf).is_some_and(|used| used != statement);
        !other || self.cheats.reuses_leaves
    }

    /// Keeps the leaf with what it signs, if it may sign that.
    fn sign(&mut self, leaf: u32, statement: Statement) -> Option<()> {
        if !self.may_use(leaf, &statement) {
            return None;
        }
        self.used.insert(leaf, statement);
        Some(())
    }

    /// The last record, if there is one and it has the replica's own term.
    pub fn last_own_record(&self) -> Option<Position> {
        self.own_record(self.log.len())
    }

    /// The record at an index, if there is one and it has the replica's own term.
    fn own_record(&self, index: usize) -> Option<Position> {
        let record = self.log.get(index.checked_sub(1)?)?;
        (record.term == self.term).then(|| Position {
            term: record.term,
            index: index as u32,
            pointer: pointers(&self.log)[index],
        })
    }
}

/// The term and the index of a log's last record.
fn end_of(log: &[Record]) -> (u32, u32) {
    log.last().map_or((0, 0), |record| (record.term, log.len() as u32))
}

#[cfg(test)]
mod tests {
    use super::*;

    fn record(term: u32) -> Record {
        Record { term, payload: [term as u8; 32] }
    }

    fn vote(candidate: u16, term: u32, (last_term, last_index): (u32, u32)) -> Vote {
        Vote { candidate, term, last_term, last_index, last_pointer: [0; 32] }
    }

    /// In term 3, with a log that ends at (3, 2).
    fn in_term_3() -> Replica {
        let mut replica = Replica::new(1);
        assert!(replica.raise(3));
        assert!(replica.take(0, &[record(1), record(3)]));
        replica
    }

    /// Each rule on votes, kept where a cheat is not allowed it.
    #[test]
    fn votes() {
        let may = |vote: &Vote| in_term_3().vote(0, vote, 3);
        assert!(may(&vote(2, 3, (3, 2))) && may(&vote(2, 9, (3, 2))));
        assert!(may(&vote(2, 5, (4, 1))) && may(&vote(2, 5, (3, 7))));
        assert!(!may(&vote(2, 2, (3, 2))), "its term falls");
        assert!(!may(&vote(2, 5, (3, 1))) && !may(&vote(2, 5, (2, 9))), "a staler log");
        assert!(!may(&vote(0, 5, (3, 2))) && !may(&vote(4, 5, (3, 2))), "no such candidate");
        let mut replica = in_term_3();
        assert!(replica.vote(0, &vote(2, 5, (3, 2)), 3) && replica.term == 5);
        assert!(replica.vote(0, &vote(2, 5, (3, 2)), 3), "the same vote again");
        let same = vote(2, 5, (3, 2));
        let others = [
            vote(3, 5, (3, 2)),
            vote(2, 5, (4, 2)),
            vote(2, 5, (3, 3)),
            Vote { last_pointer: [1; 32], ..same },
        ];
        for other in &others {
            assert!(!replica.vote(1, other, 3) && replica.last_vote == Some(same), "{other:?}");
        }
        assert!(replica.vote(0, &same, 3), "the same vote, after others were refused");
        replica.cheats.votes_twice = true;
        for (leaf, other) in (1..).zip(&others) {
            assert!(replica.vote(leaf, other, 3) && replica.last_vote == Some(*other), "a cheat");
        }
        replica.cheats.votes_twice = false;
        assert!(replica.vote(5, &vote(1, 6, (9, 1)), 3), "another request, in a later term");
    }

    /// Each rule on taking a run.
    #[test]
    fn runs() {
        let may = |keep, run: &[Record]| in_term_3().take(keep, run);
        assert!(may(1, &[record(3)]) && may(2, &[record(3)]) && may(1, &[record(2), record(3)]));
        assert!(!may(2, &[]), "no record");
        assert!(!may(3, &[record(3)]), "more kept than there are");
        assert!(!may(0, &[record(3)]), "a staler end");
        assert!(!may(1, &[record(2)]) && !may(2, &[record(4)]), "another term than its own");
        assert!(!may(0, &[record(0), record(3)]), "term 0");
        assert!(!may(0, &[record(2), record(1), record(3)]), "terms that fall");
        let mut replica = in_term_3();
        assert!(replica.stamp(0).is_some());
        assert!(!replica.take(2, &[record(3)]), "it has stamped in this term");
        assert!(replica.add(record(3)) && replica.stamp(1).is_some());
        assert!(replica.raise(4) && replica.take(2, &[record(4)]), "not in the next");
    }

    /// Stamps and receipts are for records of its own term only.
    #[test]
    fn stamps_and_receipts() {
        let mut replica = in_term_3();
        assert!(replica.receipt(0, 1).is_none() && replica.receipt(0, 0).is_none());
        assert!(replica.receipt(0, 3).is_none());
        let at = replica.receipt(0, 2).expect("a record of its own term");
        assert_eq!((at.term, at.index, at.pointer), (3, 2, pointers(&replica.log)[2]));
        assert_eq!(replica.stamp(1), Some(at));
        assert!(!replica.raise(2) && replica.raise(4));
        assert!(replica.stamp(2).is_none() && replica.receipt(2, 2).is_none());
        assert_eq!(replica.used.len(), 2, "a refused act uses no leaf");
    }

    /// One leaf, one message, whatever is signed and however often; a restart changes nothing.
    #[test]
    fn leaves() {
        let mut replica = in_term_3();
        let (own, later) = (vote(2, 3, (3, 2)), vote(2, 4, (3, 3)));
        let at = replica.receipt(7, 2);
        assert!(at.is_some() && replica.receipt(7, 2) == at, "the same again");
        assert_eq!(replica.receipt(0, 2), at, "the same by another leaf");
        assert_eq!(replica.stamp(7), None, "another kind, for the same record");
        assert!(replica.last_stamp.is_none() && !replica.vote(7, &own, 3));
        assert!(replica.vote(8, &own, 3) && replica.stamp(9).is_some());
        replica.restart();
        assert!(replica.add(record(3)));
        assert_eq!(replica.receipt(7, 3), None, "another record");
        assert_eq!(replica.receipt(9, 2), None, "the stamp's");
        assert_eq!(replica.stamp(9), None, "the last record is another one now");
        assert!(!replica.vote(8, &later, 3) && replica.term == 3);
        let used = replica.used.clone();
        assert_eq!(used.keys().collect::<Vec<_>>(), [&0, &7, &8, &9]);
        replica.cheats.reuses_leaves = true;
        assert!(replica.receipt(7, 3).is_some() && replica.stamp(9).is_some());
        assert!(replica.vote(8, &later, 3), "a cheat");
    }

    /// Records are added in its own term only, and never in term 0.
    #[test]
    fn adds() {
        let mut replica = in_term_3();
        assert!(!replica.add(record(2)) && !replica.add(record(4)), "another term than its own");
        assert!(replica.add(record(3)) && replica.log.len() == 3);
        assert!(!Replica::new(1).add(record(0)), "a record of term 0");
    }

    /// Each act goes to its own rules; declining and restarting are always allowed.
    #[test]
    fn acts() {
        let may = |act: Act| in_term_3().act(&act, 3);
        assert!(may(Act::Raise(3)) && !may(Act::Raise(2)));
        assert!(may(Act::Vote(0, vote(3, 3, (3, 2)))) && !may(Act::Vote(0, vote(4, 3, (3, 2)))));
        assert!(may(Act::Take(1, vec![record(3)])) && !may(Act::Take(0, vec![record(3)])));
        assert!(may(Act::Add(record(3))) && !may(Act::Add(record(1))));
        assert!(may(Act::Stamp(0)) && !Replica::new(1).act(&Act::Stamp(0), 3));
        assert!(may(Act::Receipt(0, 2)) && !may(Act::Receipt(0, 1)));
        assert!(may(Act::Decline) && may(Act::Restart));
    }
}
