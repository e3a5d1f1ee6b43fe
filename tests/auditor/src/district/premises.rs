//! The premises of fairness (demand 3), asked of a replica's list of acts and of submissions, two
//! or more, in document 01's words, with document 02's W4 and W5.

use super::replica::{Act, Replica};
use crate::roster::Name;
use crate::sha256::sha256;
use crate::statement::{chain_string, pointers, Record};
use crate::submission::Submission;
use crate::verdicts::Verdicts;
use std::collections::HashMap;

/// What a list of acts signs, by the leaf that signed it, and the logs held on the way.
pub struct Past {
    signed: HashMap<u32, Vec<u8>>,
    held: Vec<Vec<Record>>,
}

impl Past {
    /// The acts of one of n replicas, each on the state that the one before left; nothing if one of
    /// them breaks a board rule, among them one leaf, one message.
    pub fn of(acts: &[Act], n: usize, name: &Name) -> Option<Past> {
        let mut replica = Replica::new(0);
        let mut held = vec![Vec::new()];
        for act in acts {
            if !replica.act(act, n) {
                return None;
            }
            held.push(replica.log.clone());
        }
        let signed = replica.used.iter().map(|(leaf, said)| (*leaf, said.bytes(name))).collect();
        Some(Past { signed, held })
    }

    /// How many signatures of the submissions are good under the replica's key; nothing if one of
    /// them stands on a statement that was not signed in the list, or not with that leaf.
    pub fn own_signatures(
        &self,
        key: &[u8],
        name: &Name,
        submissions: &[&Submission],
        verdicts: &mut Verdicts,
    ) -> Option<usize> {
        let mut own = 0;
        for slot in submissions.iter().flat_map(|submission| submission.slots(name)) {
            if let Some(leaf) = verdicts.leaf(key, &slot.statement, slot.signature) {
                if self.signed.get(&leaf) != Some(&slot.statement) {
                    return None;
                }
                own += 1;
            }
        }
        Some(own)
    }

    /// Whether no two different chain strings of the logs held and of the submissions have one
    /// SHA-256 value.
    pub fn strings_apart(&self, submissions: &[&Submission]) -> bool {
        let mut strings = HashMap::new();
        let submitted = submissions.iter().map(|submission| &submission.records);
        self.held.iter().chain(submitted).all(|log| {
            let pointers = pointers(log);
            log.iter().enumerate().all(|(i, record)| {
                let string = chain_string(i + 1, record, &pointers[i]);
                let known = strings.entry(sha256(&[&string])).or_insert_with(|| string.clone());
                *known == string
            })
        })
    }
}

#[cfg(test)]
mod tests {
    use super::*;
    use crate::build::log;
    use crate::cluster::{Cluster, Keys};
    use crate::leaves::Leaves;
    use crate::roster::Roster;
    use crate::signer::Signer;
    use crate::statement::Vote;
    use std::rc::Rc;

    /// A replica that votes for itself, adds a record, stamps it and gives a receipt for it; and
    /// the submission that this allows.
    fn past_and_submission(cluster: &Rc<Cluster>, roster: &Roster) -> (Past, Submission) {
        let records = log(&[(1, "a")]);
        let signer = Signer::new(cluster);
        let draft = signer.submission(&records, &[(1, 0b011)], Some((1, 0b101)));
        let vote = draft.leaders[0].vote;
        let acts = [
            Act::Vote(0, vote),
            Act::Add(records[0]),
            Act::Stamp(1),
            Act::Restart,
            Act::Receipt(2, 1),
        ];
        let past = Past::of(&acts, 3, &roster.name).expect("the acts keep the rules");
        let read = Submission::read(roster, &draft.bytes(), &mut Verdicts::default());
        (past, read.expect("the submission is accepted"))
    }

    #[test]
    fn met() {
        let cluster = Keys::new("premises").cluster_from_0(3, 5, 4);
        let roster = Roster::read(&cluster.roster()).expect("a roster");
        let (past, submission) = past_and_submission(&cluster, &roster);
        let (two, mut verdicts) = ([&submission, &submission], Verdicts::default());
        let mut own = |k| past.own_signatures(roster.key(k), &roster.name, &two, &mut verdicts);
        // Its vote, stamp and receipt, in either; replica 2 signed nothing but the vote, with its
        // first leaf too, and replica 3 nothing but the receipt, which is not replica 1's first.
        assert_eq!([1, 2, 3].map(&mut own), [Some(6), Some(2), None]);
        assert!(past.strings_apart(&two));
    }

    /// The same statements by other leaves do not meet them; a restart changes nothing, nor does a
    /// statement that another leaf has signed besides.
    #[test]
    fn other_leaves() {
        let cluster = Keys::new("premises").cluster_from_0(3, 5, 4);
        let roster = Roster::read(&cluster.roster()).expect("a roster");
        let (_, submission) = past_and_submission(&cluster, &roster);
        let (two, mut verdicts) = ([&submission, &submission], Verdicts::default());
        let (vote, record) = (submission.leaders[0].vote, submission.records[0]);
        let mut own = |acts: &[Act]| {
            let past = Past::of(acts, 3, &roster.name).expect("the acts keep the rules");
            past.own_signatures(roster.key(1), &roster.name, &two, &mut verdicts)
        };
        let begun = [Act::Vote(0, vote), Act::Restart, Act::Vote(0, vote), Act::Add(record)];
        let with = |more: [Act; 3]| [&begun[..], &more].concat();
        assert_eq!(own(&with([Act::Stamp(1), Act::Stamp(1), Act::Receipt(2, 1)])), Some(6));
        assert_eq!(own(&with([Act::Stamp(1), Act::Stamp(9), Act::Receipt(2, 1)])), Some(6));
        assert_eq!(own(&with([Act::Receipt(2, 1), Act::Restart, Act::Stamp(1)])), Some(6));
        assert_eq!(own(&with([Act::Receipt(1, 1), Act::Restart, Act::Stamp(2)])), None);
        assert_eq!(own(&with([Act::Stamp(1), Act::Stamp(2), Act::Receipt(3, 1)])), None);
        assert_eq!(own(&with([Act::Stamp(1), Act::Restart, Act::Decline])), None, "no receipt");
    }

    /// One leaf for two messages, in whatever order and through a restart, breaks a board rule.
    #[test]
    fn one_leaf() {
        let records = log(&[(1, "a"), (1, "b")]);
        let kept = |acts: &[Act]| Past::of(acts, 3, &[7; 16]).is_some();
        let begun = [Act::Raise(1), Act::Add(records[0]), Act::Stamp(4)];
        let with = |more: &[Act]| kept(&[&begun, more].concat());
        assert!(with(&[Act::Stamp(4), Act::Restart, Act::Stamp(4), Act::Receipt(5, 1)]));
        assert!(!with(&[Act::Receipt(4, 1)]) && !with(&[Act::Restart, Act::Receipt(4, 1)]));
        assert!(!with(&[Act::Add(records[1]), Act::Stamp(4)]));
        assert!(with(&[Act::Add(records[1]), Act::Stamp(5), Act::Receipt(3, 1)]));
        assert!(!with(&[Act::Receipt(5, 1), Act::Add(records[1]), Act::Receipt(5, 2)]));
    }

    /// A statement that the list does not have; an act that breaks a rule.
    #[test]
    fn not_met() {
        let cluster = Keys::new("premises").cluster_from_0(3, 5, 4);
        let roster = Roster::read(&cluster.roster()).expect("a roster");
        let (_, submission) = past_and_submission(&cluster, &roster);
        let past = Past::of(&[Act::Raise(1)], 3, &roster.name).expect("a raise is allowed");
        let (two, mut verdicts) = ([&submission, &submission], Verdicts::default());
        assert_eq!(past.own_signatures(roster.key(1), &roster.name, &two, &mut verdicts), None);
        assert!(Past::of(&[Act::Raise(2), Act::Raise(1)], 3, &roster.name).is_none());
        assert!(Past::of(&[Act::Raise(1), Act::Stamp(0)], 3, &roster.name).is_none());
    }

    /// Votes of one term are for one request, as often as it is given; another one in the same
    /// term, whatever it differs in, is no act of a replica that keeps the rules.
    #[test]
    fn one_request() {
        let kept = |votes: &[Vote]| {
            let mut leaves = Leaves::default();
            let acts: Vec<Act> =
                votes.iter().map(|vote| Act::Vote(leaves.of(*vote), *vote)).collect();
            Past::of(&acts, 3, &[7; 16]).is_some()
        };
        let vote =
            Vote { candidate: 2, term: 4, last_term: 3, last_index: 5, last_pointer: [9; 32] };
        let others = [
            Vote { candidate: 1, ..vote },
            Vote { last_term: 2, ..vote },
            Vote { last_index: 6, ..vote },
            Vote { last_pointer: [8; 32], ..vote },
        ];
        assert!(kept(&[vote, vote]));
        for other in others {
            assert!(!kept(&[vote, other]) && !kept(&[other, vote]), "{other:?}");
            assert!(!kept(&[vote, vote, other]), "{other:?}");
            assert!(kept(&[vote, Vote { term: 5, ..other }]), "{other:?}");
        }
    }
}
