//! The cases against this package's own audit alone: each gives what it was made for, and every
//! number comes up. Document 02's W6 changes the rows that it says, and no others.

pub mod former;

use super::*;
use crate::audit::{audit, findings};
use crate::bytes::u32_at;
use crate::roster::Roster;
use crate::submission::Submission;
use crate::verdicts::Verdicts;
use former::Former;
use std::collections::HashMap;

/// Why the good signatures of an accepted case are not one leaf for each message of a replica, and
/// one signature for each message, if they are not. Each signature has its replica, its message and
/// its bytes.
pub fn leaves_shared(signatures: &[(u16, Vec<u8>, Vec<u8>)]) -> Option<String> {
    let (mut by_leaf, mut by_message) = (HashMap::new(), HashMap::new());
    for (replica, message, signature) in signatures {
        let leaf = u32_at(signature, 0);
        if by_leaf.insert((replica, leaf), message).is_some_and(|other| other != message) {
            return Some(format!("replica {replica} signs two messages with leaf {leaf}"));
        }
        if by_message.insert((replica, message), signature).is_some_and(|other| other != signature)
        {
            return Some(format!("replica {replica} has two signatures of one message"));
        }
    }
    None
}

/// Both submissions of an accepted case.
fn read(case: &Case, verdicts: &mut Verdicts) -> [Submission; 2] {
    let roster = Roster::read(case.roster).expect("a roster");
    [case.first, case.second]
        .map(|bytes| Submission::read(&roster, bytes, verdicts).expect("it is accepted"))
}

/// Their signatures.
fn signatures(case: &Case, two: &[Submission; 2]) -> Vec<(u16, Vec<u8>, Vec<u8>)> {
    let roster = Roster::read(case.roster).expect("a roster");
    let slots = two.iter().flat_map(|one| one.slots(&roster.name));
    slots.map(|s| (s.replica, s.statement, s.signature.to_vec())).collect()
}

/// Whether two certificates of one term, with a signer in common, are for requests that differ in
/// the candidate alone; and with one candidate in the last term and not the index, in the last
/// index and not the term, in the last pointer alone, and in all of the three.
fn two_requests([first, second]: &[Submission; 2]) -> [bool; 5] {
    let mut found = [false; 5];
    for a in &first.leaders {
        for b in second.leaders.iter().filter(|b| b.signers & a.signers != 0) {
            let (a, b) = (a.vote, b.vote);
            if a.term == b.term {
                let ends = [a, b].map(|vote| (vote.last_term, vote.last_index, vote.last_pointer));
                let one = a.candidate == b.candidate;
                let (term, index) = (ends[0].0 != ends[1].0, ends[0].1 != ends[1].1);
                found[0] |= !one && ends[0] == ends[1];
                found[1] |= one && term && !index;
                found[2] |= one && index && !term;
                found[3] |= one && !term && !index && ends[0].2 != ends[1].2;
                found[4] |= one && term && index;
            }
        }
    }
    found
}

/// Whether the replica's leaves have one message each in the case: not where that is what the case
/// is made for, nor for the cheats of a simulated district.
fn keeps_leaves(case: &Case, replica: u16) -> bool {
    match case.expect {
        Expect::Honest(honest) if case.name.starts_with("district") => {
            honest & mask_of(&[replica]) != 0
        }
        _ => !case.name.starts_with("leaves: "),
    }
}

/// How often each number came up in a set; among the cases that are drawn each way in which two
/// requests differ; how many rows had each rule; and how many are as before W6, and how many not,
/// of all cases and of those that are drawn.
struct Counts {
    numbers: [usize; 16],
    requests: [usize; 5],
    rules: [usize; 6],
    former: Former,
    drawn: Former,
}

/// Runs the set.
fn counts(seed: u64, size: Size) -> Counts {
    let mut requests = [0; 5];
    let mut rules = [0; 6];
    let (mut former, mut drawn) = (Former::default(), Former::default());
    let mut verdicts = Verdicts::default();
    let mut counts = [0; 16];
    let mut broken = Vec::new();
    let mut signed = 0;
    run(seed, size, &mut |case: &Case| {
        let before: Vec<u8> = (0..case.report).map(|i| i as u8 ^ 0xa5).collect();
        let mut report = before.clone();
        let number = audit(case.roster, case.first, case.second, &mut report, &mut verdicts);
        counts[number as usize] += 1;
        if number == 1 {
            assert_eq!(report, before);
            broken.extend(case.expect.broken(None).map(|why| format!("{}: {why}", case.name)));
            return;
        }
        let asked = verdicts.asked;
        let found = findings(case.roster, case.first, case.second, &mut verdicts);
        if number == 0 {
            let two = read(case, &mut verdicts);
            former.look(&case.name, two.each_ref(), &found);
            if ["loose", "drawn", "district"].iter().any(|drawn| case.name.starts_with(drawn)) {
                drawn.look(&case.name, two.each_ref(), &found);
                for (count, found) in requests.iter_mut().zip(two_requests(&two)) {
                    *count += usize::from(found);
                }
            }
            let mut signatures = signatures(case, &two);
            signatures.retain(|(replica, ..)| keeps_leaves(case, *replica));
            signed += signatures.len();
            broken.extend(leaves_shared(&signatures).map(|why| format!("{}: {why}", case.name)));
            for charge in found.rows.iter().flatten() {
                rules[charge.rule as usize] += 1;
            }
        }
        verdicts.asked = asked;
        assert_eq!(report[..REPORT_SIZE], found.bytes());
        assert_eq!(report[REPORT_SIZE..], before[REPORT_SIZE..]);
        broken.extend(case.expect.broken(Some(&found)).map(|why| format!("{}: {why}", case.name)));
    });
    assert!(
        broken.is_empty(),
        "{} cases:\n{}",
        broken.len(),
        broken[..broken.len().min(20)].join("\n")
    );
    let total: usize = counts.iter().sum();
    println!("{total} cases, {} checks of {} asked for", verdicts.made(), verdicts.asked);
    println!("{signed} signatures of accepted pairs, each message of a replica with its own leaf");
    assert!(signed >= 1000);
    for (number, count) in counts.iter().enumerate() {
        println!("number {number}: {count}");
    }
    println!("two requests, drawn: {requests:?}");
    println!("rows by rule: {rules:?}");
    println!("rows before W6: {former:?}; of those drawn: {drawn:?}");
    Counts { numbers: counts, requests, rules, former, drawn }
}

#[test]
fn full_set() {
    let Counts { numbers, requests, rules, former, drawn } = counts(1, Size::Full);
    assert!(numbers.iter().sum::<usize>() >= 5000);
    assert!(numbers.iter().all(|count| *count >= 20));
    assert!(requests.iter().all(|count| *count >= 40));
    assert!(rules[1..].iter().all(|count| *count >= 100));
    assert!(former.kept >= 1000 && former.changed.iter().all(|count| *count >= 80));
    assert!(drawn.kept >= 1000 && drawn.changed.iter().all(|count| *count >= 50));
}

#[test]
fn small_set() {
    let Counts { numbers, requests, rules, former, drawn } = counts(2, Size::Small);
    assert!(numbers.iter().sum::<usize>() >= 500);
    assert!(numbers.iter().all(|count| *count >= 1));
    assert!(requests.iter().all(|count| *count >= 3));
    assert!(rules[1..].iter().all(|count| *count >= 20));
    assert!(former.kept >= 100 && former.changed.iter().all(|count| *count >= 20));
    assert!(drawn.kept >= 50 && drawn.changed.iter().all(|count| *count >= 4));
}

/// One leaf for two messages, and two signatures of one message, are noticed; the same signature in
/// both submissions is none of these, nor is one leaf number of two replicas.
#[test]
fn leaves_shared_are_noticed() {
    let signer = Signer::new(&Keys::new("shared").cluster(3, 5));
    let by = |replica: u16, leaf, message: &[u8]| {
        (replica, message.to_vec(), signer.sign_with(replica, leaf, message))
    };
    let right = [by(1, 0, b"a"), by(1, 1, b"b"), by(2, 0, b"b"), by(1, 0, b"a")];
    assert_eq!(leaves_shared(&right), None);
    let twice = leaves_shared(&[by(1, 0, b"a"), by(1, 0, b"b")]);
    assert_eq!(twice, Some("replica 1 signs two messages with leaf 0".into()));
    let twice = leaves_shared(&[by(2, 0, b"a"), by(2, 1, b"a")]);
    assert_eq!(twice, Some("replica 2 has two signatures of one message".into()));
}
