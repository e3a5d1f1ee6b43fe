//! The cases against this package's own assembling alone: each gives what it was made for, what is
//! written is accepted and reads as the same log, and every number comes up.

use super::*;
use crate::assemble::{assemble, assembled};
use crate::cases::tests::leaves_shared;
use crate::numbers::NO_LEADER;
use crate::roster::Roster;
use crate::submission::Submission;
use crate::verdicts::Verdicts;

/// Why what is written is not a submission of the case's log that this package accepts.
fn not_accepted(case: &Case, written: &[u8], verdicts: &mut Verdicts) -> Option<String> {
    let roster = Roster::read(case.roster).expect("a roster");
    match Submission::read(&roster, written, verdicts) {
        Err(number) => Some(format!("what is written is refused by {number}")),
        Ok(read) if log_bytes(&read.records) != case.log => Some("another log is written".into()),
        Ok(_) if written[..case.log.len()] != *case.log => {
            Some("it begins with another log".into())
        }
        Ok(_) => None,
    }
}

/// How often each number came up.
fn tally(seed: u64, size: Size) -> BTreeMap<u32, usize> {
    let (mut verdicts, mut broken) = (Verdicts::default(), Vec::new());
    let (mut numbers, mut commits) = (BTreeMap::new(), 0);
    run(seed, size, &mut |case: &Case| {
        let Case { roster, log, items, output, .. } = *case;
        let before: Vec<u8> = (0..output).map(|i| i as u8 ^ 0xa5).collect();
        let mut room = before.clone();
        let (number, length) = assemble(roster, log, items, &mut room, &mut verdicts);
        *numbers.entry(number).or_default() += 1;
        let found = assembled(roster, log, items, output, &mut verdicts);
        let mut why = vec![case.expect.broken(&found)];
        match &found {
            Ok(written) => {
                assert_eq!((number, length), (0, written.len()), "{}", case.name);
                assert!(room[..length] == written[..] && room[length..] == before[length..]);
                commits += usize::from(written[length - 8..length - 4] != [0; 4]);
                why.push(not_accepted(case, written, &mut verdicts));
            }
            Err(refusal) => {
                assert_eq!((number, length), (u32::from(*refusal), 0), "{}", case.name);
                assert!(room == before);
            }
        }
        broken.extend(why.into_iter().flatten().map(|why| format!("{}: {why}", case.name)));
    });
    let some = &broken[..broken.len().min(20)];
    assert!(broken.is_empty(), "{} cases:\n{}", broken.len(), some.join("\n"));
    println!("{numbers:?}, {commits} commits");
    println!("{} checks of {} asked for", verdicts.made(), verdicts.asked);
    assert!(commits > 0);
    numbers
}

#[test]
fn full_set() {
    let numbers = tally(1, Size::Full);
    assert!(numbers.keys().eq(&[0, 2, 3, 4, 8, 11, 19, 20, 21]));
    assert!(numbers.values().all(|count| *count >= 50));
}

#[test]
fn small_set() {
    let numbers = tally(2, Size::Small);
    assert!(numbers.keys().eq(&[0, 2, 3, 4, 8, 11, 19, 20, 21]));
}

/// In a scene each message of a replica has a leaf of its own, and so has a repeat.
#[test]
fn leaves() {
    let signer = Signer::new(&Keys::new("scene").cluster_from_0(3, 5, LEAVES));
    let mut scene = Scene::new(&signer, &log_of(&[1, 1, 2]));
    scene.elect(0, 1, 0b011);
    scene.elect(1, 3, 0b110);
    scene.add(0b111, &scene.receipt(2));
    let signed = |scene: &Scene| -> Vec<(u16, Vec<u8>, Vec<u8>)> {
        let own = |made: &scene::Made| made.item.clone();
        scene.bag.iter().map(own).map(|i| (i.replica, i.statement, i.signature)).collect()
    };
    assert_eq!(leaves_shared(&signed(&scene)), None);
    let mut again = scene.bag[0].clone();
    again.item.signature = scene.signer.sign_again(1, &again.item.statement, 1);
    scene.bag.push(again);
    let twice = Some("replica 1 has two signatures of one message".into());
    assert_eq!(leaves_shared(&signed(&scene)), twice);
    scene.bag.remove(0);
    assert_eq!(leaves_shared(&signed(&scene)), None, "the repeat's leaf is its own");
}

/// Each kind of expectation says what it misses.
#[test]
fn expectations() {
    let (written, refused) = (Ok(vec![1, 2, 3]), Err(NO_LEADER));
    assert_eq!(Expect::Any.broken(&refused), None);
    assert_eq!(Expect::Refused(20).broken(&refused), None);
    assert!(Expect::Refused(19).broken(&refused).is_some());
    assert!(Expect::Refused(20).broken(&written).is_some());
    assert_eq!(Expect::Accepted.broken(&written), None);
    assert!(Expect::Accepted.broken(&refused).is_some());
    assert_eq!(Expect::Written(vec![1, 2, 3]).broken(&written), None);
    for other in [vec![1, 2], vec![1, 2, 3, 4], vec![1, 2, 4], vec![]] {
        assert!(Expect::Written(other).broken(&written).is_some());
    }
    assert!(Expect::Written(vec![1]).broken(&refused).is_some());
}
