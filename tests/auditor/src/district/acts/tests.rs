//! What the file holds: enough examples of each kind, each clause of the board rules broken alone,
//! and, in `by_hand`, a few examples spelled out from the documents.

mod by_hand;

use super::*;
use by_hand::in_term_4;
use std::mem::discriminant;

/// The clauses of document 02, W4 and W5.
const TWO_REQUESTS: &str = "two requests in one term";
const ONE_LEAF: &str = "a leaf that has signed another message";

/// What a vote is for, but for its term: the candidate, and the end of the candidate's log.
fn request(vote: &Vote) -> (u16, (u32, u32), Vec<u8>) {
    (vote.candidate, (vote.last_term, vote.last_index), vote.last_pointer.to_vec())
}

/// The clauses of document 01's board rules that speak of the example's kind of act, and whether
/// the act breaks them: said anew, in other words than the replica's.
fn clauses(example: &Example) -> Vec<(&'static str, bool)> {
    let Example { n, state, act, .. } = example;
    let own = state.term;
    let elsewhere = |index: usize| state.log[index - 1].term != own;
    let signed = state.signed_by(act);
    let other = |(leaf, message)| {
        state.used.iter().filter(|used| used.0 == leaf).any(|used| used.1 != message)
    };
    let one_leaf = (ONE_LEAF, signed.is_some_and(other));
    match act {
        Act::Raise(term) => vec![("the term falls", *term < own)],
        Act::Vote(_, vote) => {
            let other = |last: Vote| last.term == vote.term && request(&last) != request(vote);
            vec![
                ("a vote in a lower term", vote.term < own),
                ("a candidate below 1", vote.candidate < 1),
                ("a candidate above n", vote.candidate as usize > *n),
                (TWO_REQUESTS, state.last_vote.is_some_and(other)),
                ("a staler log", (vote.last_term, vote.last_index) < end(&state.log)),
                one_leaf,
            ]
        }
        Act::Take(keep, run) => {
            let log = [&state.log[..(*keep).min(state.log.len())], run].concat();
            vec![
                ("more kept than there are", *keep > state.log.len()),
                ("no record taken", run.is_empty()),
                ("a term of 0", log.iter().any(|record| record.term == 0)),
                ("terms that fall", log.windows(2).any(|two| two[1].term < two[0].term)),
                ("an end in another term", end(&log).0 != own),
                ("a staler end", end(&log) < end(&state.log)),
                ("stamped in this term", state.last_stamp == Some(own)),
            ]
        }
        Act::Add(record) => vec![
            ("a record of another term added", record.term != own),
            ("a record of term 0 added", record.term == 0),
        ],
        Act::Stamp(_) => {
            let last = state.log.len();
            vec![
                ("a stamp of no record", last == 0),
                ("a stamp in another term", last > 0 && elsewhere(last)),
                one_leaf,
            ]
        }
        Act::Receipt(_, index) => {
            let there = (1..=state.log.len()).contains(index);
            vec![
                ("a receipt for record 0", *index == 0),
                ("a receipt past the end", *index > state.log.len()),
                ("a receipt in another term", there && elsewhere(*index)),
                one_leaf,
            ]
        }
        Act::Decline | Act::Restart => vec![],
    }
}

/// The term and the index of a log's last record.
fn end(log: &[Record]) -> (u32, u32) {
    (log.last().map_or(0, |record| record.term), log.len() as u32)
}

fn broken(example: &Example) -> Vec<&'static str> {
    clauses(example).into_iter().filter(|(_, breaks)| *breaks).map(|(clause, _)| clause).collect()
}

fn all() -> Vec<Example> {
    groups().into_iter().flat_map(|group| group.examples).collect()
}

/// A leaf that is used for the first time is kept with its message, before the others.
fn note(state: &mut State, leaf: u32, message: Message) {
    if state.used.iter().all(|(other, _)| *other != leaf) {
        state.used.insert(0, (leaf, message));
    }
}

/// An act is allowed if it breaks no clause, and then only what document 01 says is changed.
#[test]
fn allowed_or_refused() {
    for example in all() {
        assert_eq!(example.after.is_some(), broken(&example).is_empty(), "{example:?}");
        let mut replica = example.state.replica();
        if !replica.act(&example.act, example.n) {
            let State { term, last_vote, last_stamp, log, .. } = &example.state;
            assert_eq!((replica.term, replica.last_vote), (*term, *last_vote), "a refused act");
            assert_eq!((replica.last_stamp, &replica.log), (*last_stamp, log), "a refused act");
            assert_eq!(replica.used, example.state.statements(), "a refused act");
            continue;
        }
        let mut changed = example.state.clone();
        match &example.act {
            Act::Raise(term) => changed.term = *term,
            Act::Vote(leaf, vote) => {
                (changed.term, changed.last_vote) = (vote.term, Some(*vote));
                note(&mut changed, *leaf, Message::Vote(*vote));
            }
            Act::Take(keep, run) => changed.log = [&changed.log[..*keep], run].concat(),
            Act::Add(record) => changed.log.push(*record),
            Act::Stamp(leaf) => {
                changed.last_stamp = Some(changed.term);
                let message = Message::Stamp(changed.log.clone());
                note(&mut changed, *leaf, message);
            }
            Act::Receipt(leaf, index) => {
                let message = Message::Receipt(changed.log[..*index].to_vec());
                note(&mut changed, *leaf, message);
            }
            Act::Decline | Act::Restart => (),
        }
        assert_eq!(example.after, Some(changed), "{example:?}");
    }
}

/// Each clause is broken alone by some example, beside which there is an allowed one: another act
/// of its kind on the same state, or the same act on another. A record of term 0 has neither, so
/// one of term 1 in term 1 stands in.
#[test]
fn clauses_broken_alone() {
    let examples = all();
    let beside = |one: &Example, other: &Example| {
        let same_kind = discriminant(&one.act) == discriminant(&other.act);
        let same_state = (one.n, &one.state) == (other.n, &other.state);
        let first_two = (one.state.term, other.state.term) == (0, 1);
        let first_adds = first_two && one.n == other.n && matches!(one.act, Act::Add(_));
        one.act == other.act || (same_kind && (same_state || first_adds))
    };
    let mut names: Vec<&str> = Vec::new();
    for (clause, _) in examples.iter().flat_map(clauses) {
        if !names.contains(&clause) {
            names.push(clause);
        }
    }
    assert_eq!(names.len(), 21);
    for clause in names {
        let mut alone = examples.iter().filter(|example| broken(example) == [clause]);
        let found = alone.any(|example| {
            examples.iter().any(|other| other.after.is_some() && beside(example, other))
        });
        assert!(found, "{clause}");
    }
}

/// For each of the four fields of a request, lower and higher: a vote in the last vote's term that
/// differs from it in that field alone is refused, and breaks no other clause; on the same state
/// the very same vote is allowed, and in the next term one that differs in all four.
#[test]
fn one_field_of_a_request() {
    let examples = all();
    let fields = |vote: &Vote| {
        let Vote { candidate, last_term, last_index, last_pointer, .. } = *vote;
        [candidate.into(), last_term, last_index, last_pointer[0].into()]
    };
    let differ = |one: &Vote, other: &Vote| {
        let (one, other) = (fields(one), fields(other));
        [0, 1, 2, 3].map(|i| one[i] != other[i])
    };
    for n in [3, 6] {
        for (field, higher) in (0..4).flat_map(|field| [(field, false), (field, true)]) {
            let found = examples.iter().filter(|example| example.n == n).any(|example| {
                let (Act::Vote(_, vote), Some(last)) = (&example.act, example.state.last_vote)
                else {
                    return false;
                };
                let beside = |holds: &dyn Fn(&Vote) -> bool| {
                    examples.iter().any(|other| {
                        let Act::Vote(_, vote) = &other.act else { return false };
                        let allowed = (other.n, &other.state) == (n, &example.state);
                        allowed && other.after.is_some() && holds(vote)
                    })
                };
                vote.term == last.term
                    && differ(vote, &last) == [0, 1, 2, 3].map(|i| i == field)
                    && (fields(vote)[field] > fields(&last)[field]) == higher
                    && broken(example) == [TWO_REQUESTS]
                    && beside(&|vote| *vote == last)
                    && beside(&|vote| {
                        vote.term == last.term + 1 && differ(vote, &last) == [true; 4]
                    })
            });
            assert!(found, "n = {n}, field {field}, higher: {higher}");
        }
    }
}

/// How many there are of each kind, and of those that are allowed; and no two are the same.
#[test]
fn counts() {
    let mut examples = all();
    let allowed = examples.iter().filter(|example| example.after.is_some()).count();
    println!("{allowed} of {} allowed", examples.len());
    for group in groups() {
        let acts = &group.examples;
        let allowed = acts.iter().filter(|example| example.after.is_some()).count();
        println!("{}: {allowed} allowed, {} refused", group.name, acts.len() - allowed);
        if group.name == "others" {
            let count = |act| acts.iter().filter(|example| example.act == act).count();
            assert!(count(Act::Decline) >= 3 && count(Act::Restart) >= 3);
        } else {
            assert!(acts.len() >= 15 && allowed >= 7 && acts.len() - allowed >= 7);
            assert!(acts
                .iter()
                .all(|example| discriminant(&example.act) == discriminant(&acts[0].act)));
        }
    }
    assert!((300..=400).contains(&examples.len()));
    assert!((100..=130).contains(&(200 * allowed / examples.len())));
    while let Some(example) = examples.pop() {
        assert!(!examples.contains(&example), "twice: {example:?}");
    }
}

/// Every number of replicas, every length of a log up to 6, low terms and the two highest; votes
/// and stamps of this term, of an earlier one, and none.
#[test]
fn states() {
    let examples = all();
    let some = |holds: &dyn Fn(&Example) -> bool| examples.iter().any(holds);
    assert!((3..=9).all(|n| some(&|example| example.n == n)));
    assert!((0..=6).all(|length| some(&|example| example.state.log.len() == length)));
    let mut terms = (0..=6).chain([u32::MAX - 1, u32::MAX]);
    assert!(terms.all(|term| some(&|example| example.state.term == term)));
    for act in examples.iter().map(|example| discriminant(&example.act)) {
        let some = |holds: &dyn Fn(&State) -> bool| {
            some(&|example| discriminant(&example.act) == act && holds(&example.state))
        };
        let vote_term = |state: &State| state.last_vote.map(|vote| vote.term);
        assert!(some(&|state| vote_term(state).is_none()));
        assert!(some(&|state| vote_term(state).is_some_and(|term| term <= state.term)));
        assert!(some(&|state| state.last_stamp.is_none()));
        assert!(some(&|state| state.last_stamp == Some(state.term)));
        assert!(some(&|state| state.last_stamp.is_some_and(|term| term < state.term)));
    }
}

/// An act of every kind is allowed on a log of every length up to 6, but for those that need a
/// record on the empty log; and a receipt for every record of a log.
#[test]
fn lengths() {
    let examples = all();
    let allowed = |length: usize, act: &Act| {
        examples.iter().any(|example| {
            let same_kind = discriminant(&example.act) == discriminant(act);
            example.state.log.len() == length && same_kind && example.after.is_some()
        })
    };
    for length in 0..=6 {
        let vote = Act::Vote(0, families::ballot(1, 1, (0, 0)));
        let any = [Act::Raise(0), vote, Act::Take(0, vec![]), Act::Add(record(1, 0))];
        assert!(any.iter().all(|act| allowed(length, act)), "{length}");
        let with_record = [Act::Stamp(0), Act::Receipt(0, 1)];
        assert!(with_record.iter().all(|act| allowed(length, act) == (length > 0)), "{length}");
        for index in 1..=length {
            assert!(examples.iter().any(|example| {
                let whole = example.state.log.len() == length;
                let same = matches!(example.act, Act::Receipt(_, at) if at == index);
                whole && same && example.after.is_some()
            }));
        }
    }
}

fn record(term: u32, byte: u8) -> Record {
    let mut payload = [0; 32];
    payload[0] = byte;
    Record { term, payload }
}

fn vote(candidate: u16, term: u32, last_term: u32, last_index: u32) -> Vote {
    Vote { candidate, term, last_term, last_index, last_pointer: [0; 32] }
}

/// Examples with every kind of act, one of them refused, and one whose state takes two lines.
#[test]
fn written() {
    let mut group = Group::new("raises", "raises");
    group.on(3, &in_term_4(), [Act::Raise(5)]);
    group.on(3, &State::default(), [Act::Stamp(8)]);
    let used = vec![(9, Message::Vote(vote(2, 4, 3, 1))), (0, Message::Stamp(vec![record(3, 0)]))];
    group.on(3, &State { used, ..in_term_4() }, [Act::Receipt(1, 2), Act::Stamp(0)]);
    let voted = State { term: 5, last_vote: None, log: vec![], ..in_term_4() };
    group.on(3, &voted, [Act::Vote(7, vote(1, 6, 0, 0))]);
    let many = State { log: vec![record(u32::MAX, 255); 4], ..in_term_4() };
    group.on(3, &many, [Act::Take(4, vec![record(4, 0)])]);
    let text = text::file(&[group]);
    let expected = "
-- raises
unfoldable pub raises : List Case
raises =
    given 3 (state 4 (some (ballot 2 4 3 1 0)) (some 3) (of 3 0 ∷ of 4 7 ∷ []) [])
    (raise 5)
    (some (state 5 (some (ballot 2 4 3 1 0)) (some 3) (of 3 0 ∷ of 4 7 ∷ []) []))
    ∷ given 3 (state 0 none none [] [])
    (stamp 8)
    none
    ∷ given 3 (state 4 (some (ballot 2 4 3 1 0)) (some 3) (of 3 0 ∷ of 4 7 ∷ [])
    (used 9 (voted (ballot 2 4 3 1 0)) ∷ used 0 (stamped (of 3 0 ∷ [])) ∷ []))
    (receipt 1 2)
    (some (state 4 (some (ballot 2 4 3 1 0)) (some 3) (of 3 0 ∷ of 4 7 ∷ [])
    (used 1 (received (of 3 0 ∷ of 4 7 ∷ [])) ∷ used 9 (voted (ballot 2 4 3 1 0)) ∷ \
        used 0 (stamped (of 3 0 ∷ [])) ∷ [])))
    ∷ given 3 (state 4 (some (ballot 2 4 3 1 0)) (some 3) (of 3 0 ∷ of 4 7 ∷ [])
    (used 9 (voted (ballot 2 4 3 1 0)) ∷ used 0 (stamped (of 3 0 ∷ [])) ∷ []))
    (stamp 0)
    none
    ∷ given 3 (state 5 none (some 3) [] [])
    (vote 7 (ballot 1 6 0 0 0))
    (some (state 6 (some (ballot 1 6 0 0 0)) (some 3) [] (used 7 (voted (ballot 1 6 0 0 0)) ∷ [])))
    ∷ given 3 (state 4 (some (ballot 2 4 3 1 0)) (some 3)
    (of 4294967295 255 ∷ of 4294967295 255 ∷ of 4294967295 255 ∷ of 4294967295 255 ∷ []) [])
    (run 4 (of 4 0 ∷ []))
    none
    ∷ []

-- all of them
unfoldable pub cases : List Case
cases = raises
";
    assert!(text.ends_with(expected), "{text}");
}

/// The whole file: the same twice, with every example, and no line too wide.
#[test]
fn whole_file() {
    let text = file();
    assert_eq!(text, file());
    let refused = all().iter().filter(|example| example.after.is_none()).count();
    assert_eq!(text.matches(" given ").count(), all().len());
    assert_eq!(text.matches("    none\n").count(), refused);
    for line in text.lines() {
        assert!(line.chars().count() <= 110 && line.trim_end() == line, "{line}");
    }
    let all = "\n-- all of them\nunfoldable pub cases : List Case\n\
               cases = raises ++ votes ++ runs ++ adds ++ stamps ++ receipts ++ others\n";
    assert!(text.ends_with(all));
}
