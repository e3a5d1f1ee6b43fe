//! Small bags made by hand, each with what W3 asks for.

use super::cases::scene::{spoiled, Scene, Spoil};
use super::*;
use crate::build::{log, log_bytes};
use crate::cases::{empty, led, whole};
use crate::cluster::Keys;
use crate::random::Random;
use crate::signer::Signer;

/// Three replicas with a few leaves each, none of them taken.
fn signer() -> Signer {
    Signer::new(&Keys::new("assemble").cluster_from_0(3, 5, 24))
}

/// A log of these terms and an empty bag.
fn scene(signer: &Signer, terms: &[u32]) -> Scene {
    let records: Vec<(u32, &str)> = terms.iter().map(|term| (*term, "a")).collect();
    Scene::new(signer, &log(&records))
}

/// What comes of the scene, with room enough: each term's candidate and signers, and the commit.
fn found(scene: &Scene) -> Result<(Vec<(u16, u16)>, Option<(u32, u16)>), u8> {
    let (roster, log) = (scene.signer.roster(), log_bytes(&scene.records));
    let mut verdicts = Verdicts::default();
    let written = assembled(&roster, &log, &scene.bytes(), LONGEST, &mut verdicts)?;
    let roster = Roster::read(&roster).expect("a roster");
    let read = Submission::read(&roster, &written, &mut verdicts).expect("it is accepted");
    assert_eq!(read.records, scene.records, "it reads as the same log");
    let leaders =
        read.leaders.iter().map(|leader| (leader.vote.candidate, leader.signers)).collect();
    Ok((leaders, read.commit.map(|commit| (commit.index, commit.signers))))
}

/// A submission that is taken apart comes back, byte for byte.
#[test]
fn round_trip() {
    let signer = signer();
    for draft in [empty(&signer), led(&signer, "ab", 0b011, 2), whole(&signer)] {
        let items = items::bytes(&items::taken_apart(&draft.parts_of(), &signer.name));
        let (roster, log, right) = (signer.roster(), log_bytes(&draft.records), draft.bytes());
        let mut output = vec![0xa5; right.len() + 3];
        let mut verdicts = Verdicts::default();
        let answer = assemble(&roster, &log, &items, &mut output, &mut verdicts);
        assert_eq!(answer, (0, right.len()));
        assert_eq!(output, [&right[..], &[0xa5; 3]].concat());
    }
}

/// The command's lines: with and without a commit, of an empty log, and after a refusal.
#[test]
fn worked_lines() {
    let signer = signer();
    let (roster, all) = (signer.roster(), signer.all());
    let print = |found| lines(&roster, &found, &mut Verdicts::default());
    let printed = |draft: &Draft| print(Ok(draft.bytes()));
    let expected = "refusal 0\nlength 44\nrecords 0\ncommit 0\n";
    assert_eq!(printed(&empty(&signer)), expected);
    let expected = "refusal 0\nlength 10590\nrecords 3\nterm 1 board 1 signers 1 2\n\
        term 3 board 3 signers 1 3\ncommit 2 signers 1 2\n";
    assert_eq!(printed(&whole(&signer)), expected);
    let draft = led(&signer, "ab", all, 0);
    let expected = "refusal 0\nlength 5332\nrecords 2\nterm 1 board 1 signers 1 2 3\ncommit 0\n";
    assert_eq!(printed(&draft), expected);
    assert_eq!(print(Err(NO_LEADER)), "refusal 20\n");
}

/// The lowest candidate who has a quorum, an own vote among it, and a stamp.
#[test]
fn candidates() {
    let signer = signer();
    let mut base = scene(&signer, &[1, 1]);
    base.add(0b110, &Statement::Vote(base.vote(0, 3)));
    assert_eq!(found(&base), Err(NO_LEADER), "no stamp");
    base.add(0b001, &base.stamp(0));
    assert_eq!(found(&base), Err(NO_LEADER), "not the candidate's stamp");
    base.add(0b100, &Statement::Stamp(base.at(1)));
    assert_eq!(found(&base), Err(NO_LEADER), "not on the last record");
    base.add(0b100, &base.stamp(0));
    assert_eq!(found(&base), Ok((vec![(3, 0b110)], None)));
    base.add(0b001, &Statement::Vote(base.vote(0, 3)));
    assert_eq!(found(&base), Ok((vec![(3, 0b111)], None)), "all good signers go in");
    base.add(0b110, &Statement::Vote(base.vote(0, 1)));
    assert_eq!(found(&base), Ok((vec![(3, 0b111)], None)), "1 has stamped, and not voted");
    base.add(0b001, &Statement::Vote(base.vote(0, 1)));
    assert_eq!(found(&base), Ok((vec![(1, 0b111)], None)));
}

/// The highest index with a quorum of receipts on its record.
#[test]
fn commits() {
    let signer = signer();
    let mut base = scene(&signer, &[1, 1, 2]);
    base.elect(0, 1, 0b011);
    base.elect(1, 2, 0b110);
    let leaders = vec![(1, 0b011), (2, 0b110)];
    let with = |commit| Ok((leaders.clone(), commit));
    base.add(0b100, &base.receipt(3));
    assert_eq!(found(&base), with(None));
    base.add(0b101, &base.receipt(1));
    assert_eq!(found(&base), with(Some((1, 0b101))));
    base.add(0b111, &base.receipt(2));
    assert_eq!(found(&base), with(Some((2, 0b111))));
    base.add(0b011, &Statement::Stamp(base.at(3)));
    assert_eq!(found(&base), with(Some((2, 0b111))), "a stamp is no receipt");
    base.add(0b001, &base.receipt(3));
    assert_eq!(found(&base), with(Some((3, 0b101))));
}

/// Of a replica's items the first good one goes in; others, and bad ones before it, change nothing.
#[test]
fn copies() {
    let signer = signer();
    let mut base = scene(&signer, &[1]);
    base.elect(0, 1, 0b001);
    let second = base.item(2, &Statement::Vote(base.vote(0, 1)));
    let bad = spoiled(&base.signer, &second, Spoil::Bit, &mut Random::new(1));
    base.add_bad(bad);
    assert_eq!(found(&base), Err(NO_LEADER));
    for number in [1, 2] {
        let mut copy = second.clone();
        copy.signature = base.signer.sign_again(2, &second.statement, number);
        base.bag.push(super::cases::scene::Made { item: copy, good: true });
    }
    assert_eq!(found(&base), Ok((vec![(1, 0b011)], None)));
    let (roster, log) = (signer.roster(), log_bytes(&base.records));
    let mut verdicts = Verdicts::default();
    let written = assembled(&roster, &log, &base.bytes(), LONGEST, &mut verdicts);
    let first = base.signer.sign_again(2, &second.statement, 1);
    let at = RECORD_SIZE + LEADER_HEAD_SIZE + first.len();
    assert_eq!(written.expect("a submission")[at..at + first.len()], first);
}

/// Numbers of nobody, another cluster's name, and votes on another last record count for nothing.
#[test]
fn passed_over() {
    let signer = signer();
    let mut base = scene(&signer, &[1, 2]);
    base.elect(0, 1, 0b011);
    base.elect(1, 1, 0b001);
    let vote = base.vote(1, 1);
    let right = base.item(2, &Statement::Vote(vote));
    for replica in [0, 4, 258, 0x0200] {
        base.add_bad(Item { replica, ..right.clone() });
    }
    let mut other = right.clone();
    other.statement[16] ^= 1;
    other.signature = signer.sign(2, &other.statement);
    base.add_bad(other);
    for other in [
        Vote { last_pointer: [0; 32], ..vote },
        Vote { last_index: 0, ..vote },
        Vote { last_term: 0, ..vote },
        Vote { term: 3, ..vote },
        Vote { candidate: 257, ..vote },
    ] {
        base.add(0b111, &Statement::Vote(other));
    }
    assert_eq!(found(&base), Err(NO_LEADER));
    base.add(0b010, &Statement::Vote(vote));
    assert_eq!(found(&base), Ok((vec![(1, 0b011), (1, 0b011)], None)));
}

/// The order of the numbers, and what each leaves unwritten.
#[test]
fn order() {
    let signer = signer();
    let draft = whole(&signer);
    let (roster, log) = (signer.roster(), log_bytes(&draft.records));
    let bag = items::bytes(&items::taken_apart(&draft.parts_of(), &signer.name));
    let enough = draft.bytes().len();
    let call = |roster: &[u8], log: &[u8], bag: &[u8], output: usize| {
        let mut room = vec![0xa5; output];
        let answer = assemble(roster, log, bag, &mut room, &mut Verdicts::default());
        assert_eq!(answer.0 != 0, answer.1 == 0);
        assert!(room[answer.1..].iter().all(|byte| *byte == 0xa5));
        answer.0
    };
    assert_eq!(call(&roster[1..], &log[1..], &bag[1..], 0), 2);
    assert_eq!(call(&roster, &log[1..], &bag[1..], 0), 8);
    let falls = [&log[36..], &log[..36]].concat();
    assert_eq!(call(&roster, &falls, &bag[1..], 0), 8 + 3);
    assert_eq!(call(&roster, &log, &bag[..bag.len() - 1], 0), 19);
    assert_eq!(call(&roster, &[], &bag[..2], 0), 19);
    assert_eq!(call(&roster, &log, &[], 0), 20);
    assert_eq!(call(&roster, &log, &bag, 0), 21);
    assert_eq!(call(&roster, &log, &bag, enough - 1), 21);
    assert_eq!(call(&roster, &log, &bag, enough), 0);
    assert_eq!(call(&roster, &[], &bag, 43), 21);
    assert_eq!(call(&roster, &[], &bag, 44), 0);
}

/// Records and terms: most, and one more. Terms are counted as a set.
#[test]
fn counts() {
    let log_of = |terms: &[u32]| {
        let record = |term: &u32| Record { term: *term, payload: [7; 32] };
        log_bytes(&terms.iter().map(record).collect::<Vec<_>>())
    };
    let number = |terms: &[u32]| read_log(&log_of(terms)).map_or_else(|number| number, |_| 0);
    assert_eq!(number(&[]), 0);
    assert_eq!(number(&[1; 4096]), 0);
    assert_eq!(number(&[1; 4097]), 8);
    assert_eq!(number(&(1..=64).collect::<Vec<_>>()), 0);
    assert_eq!(number(&(1..=65).collect::<Vec<_>>()), 8);
    assert_eq!(number(&(0..=64).collect::<Vec<_>>()), 8);
    assert_eq!(number(&(0..=63).collect::<Vec<_>>()), 11);
    assert_eq!(number(&(0..200).map(|i| 1 + i % 2).collect::<Vec<_>>()), 11);
    assert_eq!(number(&[2, 2, 1]), 11);
    assert_eq!(number(&[u32::MAX]), 0);
    assert_eq!(read_log(&log_of(&[1, 1])[..71]), Err(COUNTS));
    assert_eq!(read_log(&log_of(&[1, 1])[..37]), Err(COUNTS));
    assert_eq!(LONGEST, 1_404_446);
}
