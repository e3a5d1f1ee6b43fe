//! The cases against this package's own run alone: each gives what it was made for, and every
//! number comes up, of runs and of submissions.

use super::*;
use crate::audit::compare;
use crate::cases::tests::former::Former;
use crate::cases::tests::leaves_shared;
use crate::depot::{district, end_to_end, findings};
use crate::roster::{mask_of, Roster};
use crate::submission::Submission;
use crate::verdicts::Verdicts;
use std::collections::BTreeMap;

/// How often each number came up, of runs and of the submissions in them; how many runs had a fork,
/// and named somebody without one; and what document 02's W6 changes in the rows of their pairs, of
/// which a run shows who is named alone.
#[derive(Debug, Default)]
struct Tally {
    runs: BTreeMap<u8, usize>,
    submissions: BTreeMap<u8, usize>,
    forks: usize,
    named: usize,
    former: Former,
}

/// The accepted submissions of a run.
fn accepted(case: &Case, found: &Findings, verdicts: &mut Verdicts) -> Vec<Submission> {
    let roster = Roster::read(case.roster).expect("a roster");
    let submissions = end_to_end(case.buffer, case.lengths);
    let accepted = submissions.iter().zip(&found.numbers).filter(|(_, number)| **number == 0);
    let read = |bytes| Submission::read(&roster, bytes, verdicts).expect("it is accepted");
    accepted.map(|(bytes, _)| *bytes).map(read).collect()
}

/// Why a replica of the accepted submissions has a leaf for two messages, or two signatures of one.
fn leaves_broken(case: &Case, accepted: &[Submission]) -> Option<String> {
    let roster = Roster::read(case.roster).expect("a roster");
    let mut signatures = Vec::new();
    for submission in accepted {
        let slots = submission.slots(&roster.name).into_iter();
        let kept = slots.filter(|slot| keeps_leaves(case, slot.replica));
        signatures.extend(kept.map(|s| (s.replica, s.statement, s.signature.to_vec())));
    }
    leaves_shared(&signatures)
}

/// Whether the replica's leaves have one message each in the case: not where that is what the case
/// is made for, nor for the cheats of a simulated district.
fn keeps_leaves(case: &Case, replica: u16) -> bool {
    match &case.expect {
        Expect::Honest(_, honest) => honest & mask_of(&[replica]) != 0,
        _ => !case.name.starts_with("leaves: "),
    }
}

fn tally(seed: u64, size: Size) -> Tally {
    let mut verdicts = Verdicts::default();
    let (mut tally, mut broken) = (Tally::default(), Vec::new());
    run(seed, size, &mut |case: &Case| {
        let Case { roster, buffer, lengths, report, .. } = *case;
        let before: Vec<u8> = (0..report).map(|i| i as u8 ^ 0xa5).collect();
        let mut room = before.clone();
        let number = district(roster, buffer, lengths, &mut room, &mut verdicts) as u8;
        *tally.runs.entry(number).or_default() += 1;
        let asked = verdicts.asked;
        let found = findings(roster, buffer, lengths, report, &mut verdicts);
        let written = found.as_ref().map_or(Vec::new(), Findings::bytes);
        assert_eq!(room[..written.len()], written);
        assert_eq!(room[written.len()..], before[written.len()..]);
        let mut why = vec![case.expect.broken(&found)];
        if let Ok(found) = &found {
            for number in &found.numbers {
                *tally.submissions.entry(*number).or_default() += 1;
            }
            tally.forks += usize::from(found.fork != (0, 0));
            tally.named += usize::from(found.fork == (0, 0) && found.named != 0);
            let accepted = accepted(case, found, &mut verdicts);
            why.push(leaves_broken(case, &accepted));
            for (i, first) in accepted.iter().enumerate() {
                for second in &accepted[i + 1..] {
                    let pair = compare(first, second);
                    tally.former.look(&case.name, [first, second], &pair);
                    assert_eq!(pair.named() & !found.named, 0, "{}", case.name);
                }
            }
        }
        verdicts.asked = asked;
        broken.extend(why.into_iter().flatten().map(|why| format!("{}: {why}", case.name)));
    });
    let some = &broken[..broken.len().min(20)];
    assert!(broken.is_empty(), "{} cases:\n{}", broken.len(), some.join("\n"));
    println!("{tally:?}");
    println!("{} checks of {} asked for", verdicts.made(), verdicts.asked);
    tally
}

#[test]
fn full_set() {
    let tally = tally(1, Size::Full);
    assert!(tally.runs.keys().eq(&[0, 1, 2, 3, 4, 17, 18]));
    assert!(tally.runs.values().all(|count| *count >= 20));
    assert!(tally.submissions.keys().eq(&[0, 5, 6, 7, 8, 9, 10, 11, 12, 13, 14, 15]));
    assert!(tally.submissions.values().all(|count| *count >= 20));
    assert!(tally.forks >= 200 && tally.named >= 100);
    let Former { kept, changed } = tally.former;
    assert!(kept >= 1000 && changed.iter().sum::<usize>() >= 100);
    assert!(changed.iter().all(|count| *count > 0));
}

#[test]
fn small_set() {
    let tally = tally(2, Size::Small);
    assert!(tally.runs.keys().eq(&[0, 1, 2, 3, 4, 17, 18]));
    assert!(tally.forks >= 10 && tally.named >= 5);
    let Former { kept, changed } = tally.former;
    assert!(kept >= 100 && changed.iter().sum::<usize>() >= 20);
}
