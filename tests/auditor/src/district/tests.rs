//! What simulated districts give: accepted submissions, honest replicas never named, somebody named
//! for every fork, and everybody who is shown to have used a leaf twice.

use super::*;
use crate::audit::{charges, compare, findings, Charge, Findings};
use crate::cases::tests::former::Former;
use crate::cluster::Keys;
use crate::verdicts::Verdicts;
use std::collections::{BTreeMap, BTreeSet};

/// How many pairs and forks there were, how many rows have each rule, how many charges of rule 1
/// are for two requests of one candidate, whose own row has rule 2, how many replicas used a leaf
/// twice, and what document 02's W6 changes.
#[derive(Debug, Default)]
struct Tally {
    pairs: usize,
    forks: usize,
    rules: [usize; 6],
    requests: usize,
    reused: usize,
    former: Former,
}

/// The replicas whose signatures in two claims have one leaf for two messages, each with the lowest
/// such leaf.
fn reused(district: &District, two: (&Claim, &Claim)) -> BTreeMap<u16, u32> {
    let mut signed: BTreeMap<(u16, u32), BTreeSet<Vec<u8>>> = BTreeMap::new();
    for used in [two.0, two.1].into_iter().flat_map(|claim| district.submission(claim).uses) {
        signed.entry((used.replica, used.leaf)).or_default().insert(used.message);
    }
    let mut lowest = BTreeMap::new();
    for ((replica, leaf), _) in signed.into_iter().filter(|(_, messages)| messages.len() > 1) {
        lowest.entry(replica).or_insert(leaf);
    }
    lowest
}

impl Tally {
    /// Counts a pair, and looks at who is named.
    fn count(&mut self, district: &District, two: (&Claim, &Claim), found: &Findings) {
        assert_eq!(found.number, 0, "a claim was refused: {two:?}");
        assert_eq!(found.named() & district.honest, 0, "an honest one named: {two:?}");
        assert!(found.fork == 0 || found.named() != 0, "nobody named: {two:?}");
        let reused = reused(district, two);
        self.reused += reused.len();
        for (k, row) in (1..).zip(&found.rows) {
            match (row, reused.get(&k)) {
                (Some(Charge { rule: 5, term }), leaf) => assert_eq!(Some(term), leaf, "{two:?}"),
                (None, Some(leaf)) => panic!("replica {k}, leaf {leaf}, not named: {two:?}"),
                _ => (),
            }
        }
        self.pairs += 1;
        self.forks += usize::from(found.fork != 0);
        for charge in found.rows.iter().flatten() {
            self.rules[charge.rule as usize] += 1;
        }
        let [first, second] = [two.0, two.1].map(|claim| district.submission(claim));
        self.former.look("a simulated district", [&first, &second], found);
        for (_, charge) in charges(&first, &second) {
            let led = |claim: &Claim| {
                let leaders = claim.unsigned().leaders;
                leaders.into_iter().map(|l| l.vote).find(|vote| vote.term == charge.term)
            };
            if let (1, Some(a), Some(b)) = (charge.rule, led(two.0), led(two.1)) {
                self.requests += usize::from(a.candidate == b.candidate);
            }
        }
    }
}

/// With signatures, through the whole audit.
#[test]
fn districts() {
    let mut random = Random::new(20);
    let mut verdicts = Verdicts::default();
    let mut tally = Tally::default();
    let keys = Keys::new("districts");
    for n in [3, 4, 5] {
        for round in 0..12 {
            let district = District::simulate(n, round % (n + 1), &mut random);
            let cluster = keys.cluster_with(n, district.leaves());
            let (roster, signer) = (cluster.roster(), district.signer(&cluster));
            let claims = district.claims(&mut random);
            for _ in 0..3 {
                let Some(two) = two_of(&claims, &mut random) else {
                    break;
                };
                let [a, b] = [two.0, two.1].map(|claim| claim.draft(&signer).bytes());
                let found = findings(&roster, &a, &b, &mut verdicts);
                tally.count(&district, two, &found);
            }
        }
    }
    println!("{tally:?}");
    assert!(tally.pairs >= 60 && tally.forks >= 10);
    assert!(tally.rules[1..].iter().all(|count| *count > 0) && tally.requests > 0);
    assert!(tally.reused > tally.rules[5], "rule 5 beside others");
}

/// The same claims as accepted submissions, without signatures but with their leaves: many more
/// districts, of every size.
#[test]
fn many_districts() {
    let mut random = Random::new(21);
    for n in 3..=9 {
        let mut tally = Tally::default();
        for round in 0..60 * (n + 1) {
            let district = District::simulate(n, round % (n + 1), &mut random);
            let claims = district.claims(&mut random);
            for _ in 0..6 {
                let Some(two) = two_of(&claims, &mut random) else {
                    break;
                };
                let [a, b] = [two.0, two.1].map(|claim| district.submission(claim));
                tally.count(&district, two, &compare(&a, &b));
            }
        }
        println!("n = {n}: {tally:?}");
        assert!(tally.pairs >= 500 && tally.forks >= 50);
        assert!(tally.rules[1..].iter().all(|count| *count >= 10) && tally.requests >= 5);
        assert!(tally.reused > tally.rules[5], "rule 5 beside others");
        let Former { kept, changed } = tally.former;
        assert!(kept >= 100 && changed.iter().sum::<usize>() > 0);
    }
}

/// Replica 1 asks twice in term 4, with the log that replica 3 led in term 1 and with an empty one.
/// Replica 2, whose log is empty, may vote for either, and not for both: it is named if it does,
/// and both votes are shown. Replica 3 may vote for the longer log only. Replica 1's row has its
/// two stamps, which come before its two votes.
#[test]
fn asked_twice() {
    let record = |term, payload: &[u8]| Record { term, payload: sha256(&[payload]) };
    let (long, short) = ([record(1, b"a"), record(4, b"y")], [record(4, b"z")]);
    let claim = |records: &[Record], leaders: &[(u16, u16)]| Claim {
        records: records.to_vec(),
        leaders: leaders.to_vec(),
        commit: None,
    };
    let signed_by = |signers| claim(&long, &[(3, 0b101), (1, signers)]);
    let other = claim(&short, &[(1, 0b011)]);
    let [first, second] = [&signed_by(0b101), &other]
        .map(|claim| claim.unsigned().leaders.pop().expect("a leader").vote);
    let mut three = [1, 2, 3].map(Replica::new);
    let elected = signed_by(0b101).unsigned().leaders[0].vote;
    for k in [0, 2] {
        assert!(three[k].vote(0, &elected, 3) && three[k].take(0, &long[..1]));
    }
    assert!(three[2].vote(1, &first, 3) && !three[2].vote(2, &second, 3), "a staler log");
    assert!(three[1].vote(0, &second, 3) && !three[1].vote(1, &first, 3), "a second request");
    assert!(three[1].vote(0, &second, 3), "the same request");
    let found = |a: &Claim, b: &Claim| compare(&a.unsigned(), &b.unsigned());
    let [asked, voted] = [2, 1].map(|rule| Some(Charge { rule, term: 4 }));
    for (a, b) in [(&signed_by(0b101), &other), (&other, &signed_by(0b101))] {
        assert_eq!(found(a, b).rows[..3], [asked, None, None], "replicas 2 and 3 did no wrong");
    }
    three[1].cheats.votes_twice = true;
    assert!(three[1].vote(1, &first, 3));
    for (a, b) in [(&signed_by(0b111), &other), (&other, &signed_by(0b111))] {
        assert_eq!(found(a, b).rows[..3], [asked, voted, None]);
    }
    // As long as one of its votes is shown only, nobody knows.
    assert_eq!(found(&signed_by(0b111), &signed_by(0b101)).named(), 0);
}

/// A replica that keeps every other rule, and signs the receipt for its record with the leaf of its
/// vote, is named in each pair that shows both, and in no other; its neighbour never.
#[test]
fn leaf_used_twice() {
    let signer = Signer::new(&Keys::new("one leaf").cluster(3, 5));
    let (roster, name) = (signer.roster(), signer.name);
    let record = Record { term: 1, payload: [3; 32] };
    let claim = |signers| Claim {
        records: vec![record],
        leaders: vec![(1, 0b011)],
        commit: Some((1, signers)),
    };
    let vote = claim(0b110).unsigned().leaders[0].vote;
    let mut replica = Replica::new(2);
    assert!(replica.vote(6, &vote, 3) && replica.take(0, &[record]));
    assert_eq!(replica.receipt(6, 1), None, "the vote's leaf");
    replica.cheats.reuses_leaves = true;
    let at = replica.receipt(6, 1).expect("a cheat");
    let [mut shown, hidden] = [0b110, 0b101].map(|signers| claim(signers).draft(&signer));
    shown.leaders[0].signatures[1] = signer.sign_with(2, 6, &Statement::Vote(vote).bytes(&name));
    let receipt = Statement::Receipt(at).bytes(&name);
    let commit = shown.commit.as_mut().expect("a commit certificate");
    commit.signatures[0] = signer.sign_with(2, 6, &receipt);
    let [shown, hidden] = [shown, hidden].map(|draft| draft.bytes());
    let mut verdicts = Verdicts::default();
    let mut rows = |a: &[u8], b: &[u8]| findings(&roster, a, b, &mut verdicts).rows[..3].to_vec();
    let charged = vec![None, Some(Charge { rule: 5, term: 6 }), None];
    assert_eq!(rows(&shown, &hidden), charged);
    assert_eq!(rows(&hidden, &shown), charged);
    assert_eq!(rows(&shown, &shown), charged);
    assert_eq!(rows(&hidden, &hidden), [None; 3]);
}

/// Without a cheat nobody is ever named, and there is no fork.
#[test]
fn honest_districts() {
    let mut random = Random::new(22);
    let mut pairs = 0;
    for round in 0..300 {
        let n = 3 + round % 7;
        let district = District::simulate(n, 0, &mut random);
        assert_eq!(replicas_of(district.honest).len(), n);
        let claims = district.claims(&mut random);
        let submissions: Vec<Submission> = claims.iter().map(|c| district.submission(c)).collect();
        for a in &submissions {
            for b in &submissions {
                let found = compare(a, b);
                assert_eq!((found.fork, found.named()), (0, 0), "{a:?} {b:?}");
                pairs += 1;
            }
        }
    }
    println!("{pairs} pairs");
    assert!(pairs >= 5000);
}
