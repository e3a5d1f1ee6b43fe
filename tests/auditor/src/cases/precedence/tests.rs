//! That the pairs break just the rules that they say, and that every two rules meet.

use super::*;
use crate::audit::charges;
use crate::cluster::Keys;
use crate::roster::Roster;
use crate::submission::Submission;
use crate::verdicts::Verdicts;
use std::cmp::Ordering::{self, Equal, Greater, Less};
use std::collections::{BTreeMap, BTreeSet};

/// The pair's charges as it states them, in its own order or exchanged.
fn stated(pair: &Pair, exchanged: bool) -> BTreeSet<(u16, u8, u32)> {
    let rule = |rule: u8| match rule {
        3 | 4 if exchanged => 7 - rule,
        _ => rule,
    };
    pair.charges.iter().map(|(replica, own, term)| (*replica, rule(*own), *term)).collect()
}

/// All that the auditor charges, before it chooses, is what each pair states, in both orders.
#[test]
fn just_these_charges() {
    let (keys, mut verdicts) = (Keys::new("precedence"), Verdicts::default());
    for pair in PAIRS {
        let signer = Signer::new(&keys.cluster(pair.n, 5));
        let roster = Roster::read(&signer.roster()).expect("a roster");
        let [a, b] = pair.drafts(&signer).map(|draft| {
            Submission::read(&roster, &draft.bytes(), &mut verdicts).expect("it is accepted")
        });
        for (exchanged, [first, second]) in [(false, [&a, &b]), (true, [&b, &a])] {
            let charged = charges(first, second).into_iter();
            let charged: BTreeSet<(u16, u8, u32)> =
                charged.map(|(replica, charge)| (replica, charge.rule, charge.term)).collect();
            assert_eq!(charged, stated(pair, exchanged), "{}", pair.name);
        }
    }
}

/// The two rules of each replica that breaks just two, the one that comes first in the row before
/// the other, and how the lowest numbers of the two compare.
fn two_rules() -> BTreeSet<(u8, u8, Ordering)> {
    let mut met = BTreeSet::new();
    for pair in PAIRS {
        for exchanged in [false, true] {
            let mut lowest: BTreeMap<u16, BTreeMap<u8, u32>> = BTreeMap::new();
            for (replica, rule, term) in stated(pair, exchanged) {
                lowest.entry(replica).or_default().entry(rule).or_insert(term);
            }
            for broken in lowest.values() {
                let broken: Vec<(u8, u32)> = broken.iter().map(|(a, b)| (*a, *b)).collect();
                match broken[..] {
                    [(1, votes), (2, stamps)] => met.insert((2, 1, stamps.cmp(&votes))),
                    [(one, a), (other, b)] => met.insert((one, other, a.cmp(&b))),
                    _ => false,
                };
            }
        }
    }
    met
}

/// Every two of the five rules are broken by one replica that breaks no other, with the lower term
/// or leaf number on either side; but rules 2 and 3, and 2 and 4, cannot have it on the latter's.
#[test]
fn every_two_rules() {
    let met = two_rules();
    let mut pairs = 0;
    for (i, one) in [2, 1, 3, 4, 5].into_iter().enumerate() {
        for other in &[2, 1, 3, 4, 5][i + 1..] {
            let either = !matches!((one, other), (2, 3 | 4));
            assert!(met.contains(&(one, *other, Less)), "{one} and {other}");
            assert_eq!(met.contains(&(one, *other, Greater)), either, "{one} and {other}");
            pairs += 1;
        }
    }
    assert_eq!(pairs, 10);
    let one_term = [(2, 1), (1, 3), (1, 4)].map(|(one, other)| (one, other, Equal));
    assert!(one_term.iter().all(|two| met.contains(two)), "{met:?}");
}
