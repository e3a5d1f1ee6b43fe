//! Assembling submissions, of the repository's samples and of what they are taken apart into.

mod apart;
mod pairs;

use apart::{signature_size, Apart};
use hirelog::sys::{self, Written};
use hirelog::{assemble, assemble_into, audit, AssembleRefused, Refusal, ASSEMBLED_MAX};
use pairs::PAIRS;
use std::{fs, path::Path};

fn sample(name: &str, file: &str) -> Vec<u8> {
    let path = Path::new(env!("CARGO_MANIFEST_DIR")).join("../samples").join(name).join(file);
    fs::read(&path).unwrap_or_else(|error| panic!("{}: {error}", path.display()))
}

/// As C has it, into a buffer of so many bytes 7: what is returned, and the buffer.
fn run(roster: &[u8], log: &[u8], items: &[u8], output_len: usize) -> (Written, Vec<u8>) {
    let mut output = vec![7; output_len];
    (assemble_into(roster, log, items, &mut output), output)
}

/// The sample gives its submission, which is accepted. Bytes after it are kept; one byte fewer is
/// too few, and all are kept.
#[test]
fn the_sample() {
    let [roster, log, items, submission] =
        ["roster", "log", "items", "submission"].map(|file| sample("assemble", file));
    assert_eq!(assemble(&roster, &log, &items).as_ref(), Ok(&submission));
    assert!(audit(&roster, &submission, &submission).is_ok());
    assert_eq!(submission[..log.len()], log);

    let length = submission.len();
    let ok = Written { number: sys::OK, length };
    assert_eq!(run(&roster, &log, &items, length), (ok, submission.clone()));
    let longer = [&submission[..], &[7; 60]].concat();
    assert_eq!(run(&roster, &log, &items, length + 60), (ok, longer));
    let short = Written { number: sys::SHORT_OUTPUT, length: 0 };
    assert_eq!(run(&roster, &log, &items, length - 1), (short, vec![7; length - 1]));
    assert_eq!(run(&roster, &log, &items, 0), (short, vec![]));
}

/// Each submission among the samples is assembled again of what it is taken apart into: in its order,
/// from the end, twice, and among items that are passed over.
#[test]
fn taken_apart() {
    for name in PAIRS {
        let [roster, first, second] = ["roster", "first", "second"].map(|file| sample(name, file));
        let other = if name == "large" { "one_leader" } else { "large" };
        let strangers = Apart::of(&sample(other, "roster"), &sample(other, "first")).items;
        assert_ne!(strangers[0][3..19], roster[..16], "another cluster's name");
        for (submission, other) in [(&first, &second), (&second, &first)] {
            let Apart { log, items } = Apart::of(&roster, submission);
            let assembled = |bag: &[Vec<u8>]| assemble(&roster, &log, &bag.concat());
            assert_eq!(assembled(&items).as_ref(), Ok(submission), "{name}");
            let reversed: Vec<_> = items.iter().rev().cloned().collect();
            assert_eq!(assembled(&reversed).as_ref(), Ok(submission), "{name}");
            let mut bag = Vec::new();
            for item in &items {
                bag.extend(passed_over(item));
                bag.push(item.clone());
                bag.extend(strangers.clone());
            }
            bag.extend(Apart::of(&roster, other).items);
            bag.extend(items.clone());
            let mixed = assembled(&bag).expect("a submission");
            assert_eq!(mixed[..log.len()], log, "{name}");
            assert!(audit(&roster, &mixed, submission).is_ok(), "{name}");
            if name != "large" {
                // The other submission of this sample has no more that fits.
                assert_eq!(&mixed, submission, "{name}");
            }
        }
    }
}

/// Items that are none of this replica's, made of a good one: a bit of the signature, of the
/// cluster's name or of the last field changed, and other numbers of replicas.
fn passed_over(item: &[u8]) -> Vec<Vec<u8>> {
    let changed = |at: usize, bits: u8| {
        let mut other = item.to_vec();
        other[at] ^= bits;
        other
    };
    let last_field = if item[2] == 3 { 2 + 62 } else { 2 + 56 };
    let mut items = [2 + 63 + 100, 3, last_field].map(|at| changed(at, 1)).to_vec();
    items.push(changed(0, 1)); // 256 + k
    items.extend([0, 10, 255].map(|replica| [&[0, replica], &item[2..]].concat()));
    items
}

/// What is missing decides: without receipts nothing is committed, and without a vote of the leader,
/// a quorum of votes or the stamp there is no leader.
#[test]
fn missing_items() {
    let [roster, submission] = ["roster", "first"].map(|file| sample("one_leader", file));
    let Apart { log, items } = Apart::of(&roster, &submission);
    let kinds: Vec<u8> = items.iter().map(|item| item[2]).collect();
    assert_eq!(kinds, [3, 3, 1, 2, 2]);
    for left_out in 0..items.len() {
        let mut bag = items.clone();
        let item = bag.remove(left_out);
        let found = assemble(&roster, &log, &bag.concat());
        if item[2] == 2 {
            let uncommitted = found.as_ref().expect("a submission");
            assert_eq!(uncommitted.len(), submission.len() - 6 - 2 * signature_size(&roster));
            assert!(audit(&roster, uncommitted, &submission).is_ok());
        } else {
            assert_eq!(found, Err(AssembleRefused::NoLeader), "{left_out}");
        }
        for other in passed_over(&item) {
            let bag = [&bag[..], &[other]].concat().concat();
            assert!(assemble(&roster, &log, &bag) == found, "{left_out}");
        }
    }
    assert_eq!(assemble(&roster, &log, &[]), Err(AssembleRefused::NoLeader));
    let empty = assemble(&roster, &[], &items.concat()).expect("a submission");
    assert_eq!(empty, assemble(&roster, &[], &[]).expect("a submission"));
    assert_eq!(empty.len(), 44);
}

/// Roster, log and items may overlap each other: here the other two stand inside an item of no board.
#[test]
fn overlapping() {
    let [roster, submission] = ["roster", "first"].map(|file| sample("one_leader", file));
    let Apart { log, items } = Apart::of(&roster, &submission);
    let mut nobody = items[2].clone();
    nobody[..2].fill(0);
    let at = nobody.len() - roster.len() - log.len();
    nobody[at..].copy_from_slice(&[&roster[..], &log].concat());
    let bag = [nobody, items.concat()].concat();
    let (first, rest) = bag[at..].split_at(roster.len());
    assert!(assemble(first, &rest[..log.len()], &bag) == Ok(submission));
}

/// Each number, in their order, each with the later faults too; nothing is written.
#[test]
fn numbers() {
    let [roster, submission] = ["roster", "first"].map(|file| sample("one_leader", file));
    let Apart { log, items } = Apart::of(&roster, &submission);
    let mut kind = items[2].clone(); // the stamp
    kind[2] = 4;
    let items = items.concat();
    let mut other_type = roster.clone();
    other_type[18 + 7] = 3;
    let mut twins = roster.clone();
    twins.copy_within(18..18 + 56, 18 + 56);
    let counted = |terms: u32, per_term: usize| {
        let record = |term: u32| [&term.to_be_bytes()[..], &[0; 32]].concat();
        (1..=terms).map(|term| record(term).repeat(per_term)).collect::<Vec<_>>().concat()
    };
    let falling = [&counted(2, 1)[..], &counted(1, 1)].concat();
    let cut = &items[..items.len() - 1];
    type Case<'a> = (u32, &'a [u8], &'a [u8], &'a [u8]);
    let cases: [Case; 12] = [
        (2, &roster[1..], &log[1..], cut),
        (3, &other_type, &log[1..], cut),
        (4, &twins, &log[1..], cut),
        (8, &roster, &log[1..], cut),
        (8, &roster, &counted(1, 4097), cut),
        (8, &roster, &counted(65, 1), cut),
        (11, &roster, &falling, cut),
        (11, &roster, &[0; 36], cut),
        (19, &roster, &counted(1, 4096), cut),
        (19, &roster, &counted(64, 64), &kind),
        (20, &roster, &counted(64, 64), &items),
        (21, &roster, &log, &items),
    ];
    for (number, roster, log, items) in cases {
        let refused = Written { number, length: 0 };
        assert_eq!(run(roster, log, items, 1000), (refused, vec![7; 1000]), "{number}");
        assert_eq!(run(roster, log, items, 0), (refused, vec![]), "{number}");
        if number != sys::SHORT_OUTPUT {
            let found = assemble(roster, log, items).map_err(AssembleRefused::number);
            assert_eq!(found, Err(number));
        }
    }
    let refused = assemble(&roster[1..], &log, &items);
    assert_eq!(refused, Err(AssembleRefused::Roster(Refusal::RosterSize)));
    assert!(run(&roster, &log, &items, ASSEMBLED_MAX).0.number == sys::OK);
}
