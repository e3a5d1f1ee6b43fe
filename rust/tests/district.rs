//! A district's run on the repository's samples.

use hirelog::{audit, district, district_into, sys, District, DistrictRefused, Refusal};
use std::{fs, path::Path, path::PathBuf};

fn samples() -> PathBuf {
    Path::new(env!("CARGO_MANIFEST_DIR")).join("../samples")
}

fn sample(name: &str, file: &str) -> Vec<u8> {
    let path = samples().join(name).join(file);
    fs::read(&path).unwrap_or_else(|error| panic!("{}: {error}", path.display()))
}

/// The files 1, 2, .. of the district's sample.
fn submissions() -> Vec<Vec<u8>> {
    let folder = samples().join("district");
    let files = (1..).map(|position| folder.join(position.to_string()));
    files.take_while(|path| path.exists()).map(|path| fs::read(path).expect("a file")).collect()
}

fn slices(submissions: &[Vec<u8>]) -> Vec<&[u8]> {
    submissions.iter().map(Vec::as_slice).collect()
}

/// The run as C has it, into a buffer of so many bytes 7: its number, and the buffer.
fn run(roster: &[u8], submissions: &[Vec<u8>], report_len: usize) -> (u32, Vec<u8>) {
    let lengths: Vec<u32> = submissions.iter().map(|bytes| bytes.len() as u32).collect();
    let mut report = vec![7; report_len];
    (district_into(roster, &submissions.concat(), &lengths, &mut report), report)
}

/// The lines of `hirelog district`.
fn lines(found: &District) -> String {
    let mut lines = String::from("refusal 0\n");
    for (position, refusal) in (1..).zip(&found.refusals) {
        let number = refusal.map_or(0, Refusal::number);
        lines += &format!("submission {position} number {number}\n");
    }
    let (lower, higher) = found.fork.unwrap_or((0, 0));
    lines += &format!("fork {lower} {higher}\n");
    for replica in &found.named {
        lines += &format!("board {replica}\n");
    }
    lines
}

/// What the audits of every two accepted submissions come to.
fn by_pairs(roster: &[u8], submissions: &[Vec<u8>]) -> District {
    let own = |bytes: &Vec<u8>| audit(roster, bytes, bytes).err().map(|refused| refused.refusal);
    let refusals: Vec<Option<Refusal>> = submissions.iter().map(own).collect();
    let (mut named, mut fork) = (Vec::new(), None);
    for (a, first) in submissions.iter().enumerate() {
        for (b, second) in submissions.iter().enumerate().skip(a + 1) {
            if let Ok(found) = audit(roster, first, second) {
                named.extend(found.named().map(|(replica, _)| replica));
                fork = fork.or(found.fork.map(|_| (a + 1, b + 1)));
            }
        }
    }
    named.sort_unstable();
    named.dedup();
    District { refusals, named, fork }
}

/// The sample gives its lines and its report, which are those of the audits of its pairs. Bytes
/// after the report are kept; one byte fewer is too few, and all are kept.
#[test]
fn the_sample() {
    let (roster, submissions) = (sample("district", "roster"), submissions());
    let count = submissions.len();
    let found = district(&roster, &slices(&submissions)).expect("a run");
    assert_eq!(lines(&found), String::from_utf8(sample("district", "expected")).expect("lines"));
    assert_eq!(found, by_pairs(&roster, &submissions));
    assert!(found.refusals.iter().any(Option::is_some) && !found.named.is_empty());
    assert!(found.fork.is_some_and(|pair| pair != (1, 2)));

    let expected = sample("district", "report");
    assert_eq!(expected.len(), count + 4);
    assert_eq!(run(&roster, &submissions, count + 4), (sys::OK, expected.clone()));
    let longer = [&expected[..], &[7; 60]].concat();
    assert_eq!(run(&roster, &submissions, count + 64), (sys::OK, longer));
    let short = vec![7; count + 3];
    assert_eq!(run(&roster, &submissions, count + 3), (sys::SHORT_REPORT, short));
    assert_eq!(run(&roster, &submissions, 0), (sys::SHORT_REPORT, vec![]));
}

/// A fork of other submissions than the first two, with refused ones before, between and after.
#[test]
fn positions() {
    let [roster, first, second] =
        ["roster", "first", "second"].map(|file| sample("one_leader", file));
    let cut = first[..first.len() - 1].to_vec();
    let mut damaged = second.clone();
    damaged[36 + 48 + 100] ^= 1;
    let given = [vec![], first.clone(), cut, first.clone(), damaged, second, vec![0; 44]];
    let found = district(&roster, &slices(&given)).expect("a run");
    let numbers: Vec<u8> =
        found.refusals.iter().map(|refusal| refusal.map_or(0, Refusal::number)).collect();
    assert_eq!(numbers, [5, 0, 6, 0, 15, 0, 6]);
    assert_eq!((found.fork, &found.named[..]), (Some((2, 6)), &[1][..]));
    assert_eq!(found, by_pairs(&roster, &given));
    let alone = district(&roster, &[&first, &[]]).expect("a run");
    let none = District { refusals: vec![None, Some(Refusal::Size)], named: vec![], fork: None };
    assert_eq!(alone, none);
}

/// A replica that used one leaf for two messages is named without a fork, also where a refused
/// submission stands between; with one of the two alone, or refused, nobody is.
#[test]
fn one_leaf() {
    let [roster, first, second] =
        ["roster", "first", "second"].map(|file| sample("one_leaf", file));
    let mut damaged = first.clone();
    damaged[36 + 48 + 100] ^= 1;
    for (given, named) in [
        (vec![first.clone(), second.clone()], vec![2]),
        (vec![second.clone(), first.clone()], vec![2]),
        (vec![first.clone(), damaged.clone(), second.clone()], vec![2]),
        (vec![damaged, second.clone()], vec![]),
        (vec![first.clone(), first], vec![]),
        (vec![second.clone(), second], vec![]),
    ] {
        let found = district(&roster, &slices(&given)).expect("a run");
        assert_eq!((found.fork, &found.named), (None, &named));
        assert_eq!(found, by_pairs(&roster, &given));
    }
}

/// From two submissions to nine; fewer or more are refused, but for a roster that is refused first.
#[test]
fn counts() {
    let [roster, empty] = ["roster", "first"].map(|file| sample("empty", file));
    for count in 0..20 {
        let given = vec![&empty[..]; count];
        let found = district(&roster, &given);
        if (2..=9).contains(&count) {
            let nothing = District { refusals: vec![None; count], named: vec![], fork: None };
            assert_eq!(found, Ok(nothing));
        } else {
            assert_eq!(found, Err(DistrictRefused::LengthCount), "{count}");
        }
        let refused = district(&roster[1..], &given);
        assert_eq!(refused, Err(DistrictRefused::Roster(Refusal::RosterSize)), "{count}");
    }
}

/// The longest submission, and longer ones, up to what no u32 can say: each gets its number.
#[test]
fn long_submissions() {
    let [roster, empty] = ["roster", "first"].map(|file| sample("empty", file));
    // Pages of zeros that are never touched take no memory, but some machines do not give them.
    let size = u32::MAX as usize + 2;
    if Vec::<u8>::new().try_reserve_exact(size).is_err() {
        println!("note: not tried, for there are no {size} bytes of address space");
        return;
    }
    let zeros = vec![0; size];
    let longest = [&zeros[..2_097_152 - empty.len()], &empty].concat();
    let longer = [&zeros[..2_097_153 - empty.len()], &empty].concat();
    let found = district(&roster, &[&longest, &longer, &zeros[..u32::MAX as usize], &zeros]);
    let size = Some(Refusal::Size);
    assert_eq!(found.expect("a run").refusals, [Some(Refusal::Layout), size, size, size]);
    let many = vec![&zeros[..]; 1000];
    assert_eq!(district(&roster, &many), Err(DistrictRefused::LengthCount));
}

/// Lengths that do not add up to the buffer, also where their sum would in 32 bits; and that the
/// numbers are asked in their order, with nothing written.
#[test]
fn lengths() {
    let [roster, empty] = ["roster", "first"].map(|file| sample("empty", file));
    let buffer = [&empty[..], &empty].concat();
    let len = empty.len() as u32;
    let mut report = [7; 13];
    let wrong: [&[u32]; 6] = [
        &[len, len - 1],
        &[len, len + 1],
        &[0, 0],
        &[len, len, 1],
        &[len, u32::MAX, len + 1],
        &[u32::MAX; 9],
    ];
    for lengths in wrong {
        assert_eq!(district_into(&roster, &buffer, lengths, &mut report), sys::LENGTH_SUM);
        assert_eq!(district_into(&roster, &buffer, lengths, &mut []), sys::LENGTH_SUM);
        assert_eq!(district_into(&[], &buffer, lengths, &mut report), 2);
    }
    for lengths in [&[][..], &[2 * len], &[0; 10], &[u32::MAX; 10]] {
        assert_eq!(district_into(&roster, &buffer, lengths, &mut report), sys::LENGTH_COUNT);
        assert_eq!(district_into(&roster, &[], lengths, &mut []), sys::LENGTH_COUNT);
        assert_eq!(district_into(&[], &buffer, lengths, &mut report), 2);
    }
    assert_eq!(report, [7; 13]);
    assert_eq!(district_into(&roster, &buffer, &[len, len], &mut report[..5]), sys::SHORT_REPORT);
    assert_eq!(district_into(&roster, &buffer, &[0, 2 * len], &mut report[..6]), sys::OK);
    assert_eq!(report, [5, 9, 0, 0, 0, 0, 7, 7, 7, 7, 7, 7, 7]);
}
