//! Small districts made by hand, each with what W1 asks for.

use super::*;
use crate::build::{log, Draft};
use crate::cases::{empty, led};
use crate::cluster::Keys;
use crate::signer::Signer;

/// Three replicas with a few leaves each, none of them taken.
fn signer() -> Signer {
    Signer::new(&Keys::new("depot").cluster_from_0(3, 5, 16))
}

/// The lines of a run over these submissions, with a report that is just long enough.
fn printed(signer: &Signer, submissions: &[Vec<u8>]) -> String {
    let lengths: Vec<u32> = submissions.iter().map(|one| one.len() as u32).collect();
    let (roster, buffer) = (signer.roster(), submissions.concat());
    let report = report_size(lengths.len());
    lines(&findings(&roster, &buffer, &lengths, report, &mut Verdicts::default()))
}

/// The same for drafts that are all accepted: the lines after those of the submissions.
fn found(signer: &Signer, drafts: &[&Draft]) -> String {
    let submissions: Vec<Vec<u8>> = drafts.iter().map(|draft| draft.bytes()).collect();
    let lines = printed(signer, &submissions);
    let accepted = (1..=drafts.len()).map(|i| format!("submission {i} number 0\n"));
    let begun = "refusal 0\n".to_string() + &accepted.collect::<String>();
    lines.strip_prefix(&begun).expect("all are accepted").into()
}

/// Each field has its bytes, in the order of W1.
#[test]
fn fields() {
    let found = Findings { numbers: vec![0, 15, 5], named: 0x0104, fork: (1, 3) };
    assert_eq!(found.bytes(), [0, 15, 5, 1, 4, 1, 3]);
    assert_eq!(Findings::read(&[0, 15, 5, 1, 4, 1, 3, 99], 3), found);
    assert_eq!(report_size(3), 7);
    let expected = "refusal 0\nsubmission 1 number 0\nsubmission 2 number 15\n\
        submission 3 number 5\nfork 1 3\nboard 3\nboard 9\n";
    assert_eq!(lines(&Ok(found)), expected);
    assert_eq!(lines(&Err(LENGTH_SUM)), "refusal 18\n");
}

/// Refused submissions are left out, and the others keep their positions.
#[test]
fn refused_ones() {
    let signer = signer();
    let a = led(&signer, "a", 0b011, 1).bytes();
    let b = led(&signer, "b", 0b101, 1).bytes();
    let mut damaged = b.clone();
    damaged[0] ^= 1;
    let none = empty(&signer).bytes();
    let short = none[1..].to_vec();
    let expected = "refusal 0\nsubmission 1 number 5\nsubmission 2 number 0\n\
        submission 3 number 13\nsubmission 4 number 0\nfork 2 4\nboard 1\n";
    assert_eq!(printed(&signer, &[short.clone(), a.clone(), damaged.clone(), b]), expected);
    let expected = "refusal 0\nsubmission 1 number 0\nsubmission 2 number 13\nfork 0 0\n";
    assert_eq!(printed(&signer, &[a, damaged]), expected);
    let expected = "refusal 0\nsubmission 1 number 5\nsubmission 2 number 5\nfork 0 0\n";
    assert_eq!(printed(&signer, &[short.clone(), short]), expected);
}

/// The first pair is that of the lowest lower position, then of the lowest higher one, wherever
/// their logs part.
#[test]
fn first_pair() {
    let signer = signer();
    let [abc, aby] = ["abc", "aby"].map(|letters| led(&signer, letters, 0b011, 3));
    let x = led(&signer, "x", 0b101, 1);
    for order in [[&abc, &aby, &x], [&x, &abc, &aby], [&aby, &x, &abc]] {
        assert_eq!(found(&signer, &order), "fork 1 2\nboard 1\n");
    }
    let [ab, ac] = ["ab", "ac"].map(|letters| led(&signer, letters, 0b011, 2));
    let a = led(&signer, "a", 0b011, 1);
    assert_eq!(found(&signer, &[&a, &ab, &ac, &x]), "fork 1 4\nboard 1\n");
    assert_eq!(found(&signer, &[&a, &ab, &ac]), "fork 2 3\nboard 1\n");
    assert_eq!(found(&signer, &[&ab, &a, &ac]), "fork 1 3\nboard 1\n");
}

/// Whoever is named in some pair is named; without a commit nothing forks.
#[test]
fn union() {
    let signer = signer();
    let elect =
        |candidate, signers| signer.submission(&log(&[(1, "a")]), &[(candidate, signers)], None);
    let [one, two, three] = [elect(2, 0b011), elect(1, 0b101), elect(3, 0b110)];
    assert_eq!(found(&signer, &[&one, &two]), "fork 0 0\nboard 1\n");
    assert_eq!(found(&signer, &[&one, &three]), "fork 0 0\nboard 2\n");
    assert_eq!(found(&signer, &[&two, &three]), "fork 0 0\nboard 3\n");
    assert_eq!(found(&signer, &[&one, &two, &three]), "fork 0 0\nboard 1\nboard 2\nboard 3\n");
    let none = empty(&signer);
    assert_eq!(found(&signer, &[&two, &none, &none, &three]), "fork 0 0\nboard 3\n");
}

/// Document 02, W4: replica 2 votes in term 4 for two requests of replica 1, on (1, 1) and on (1,
/// 2); a third log of term 1 charges its leader, replica 3, alone.
#[test]
fn two_requests() {
    let signer = signer();
    let leaders = [(3, 0b110), (1, 0b011)];
    let made = |records: &[(u32, &str)]| {
        signer.submission(&log(records), &leaders[..records.len().min(2)], None)
    };
    let one = made(&[(1, "a"), (4, "z")]);
    let two = made(&[(1, "a"), (1, "b"), (4, "z")]);
    let other = made(&[(1, "x")]);
    assert_eq!(found(&signer, &[&one, &two]), "fork 0 0\nboard 1\nboard 2\n");
    assert_eq!(found(&signer, &[&two, &one]), "fork 0 0\nboard 1\nboard 2\n");
    assert_eq!(found(&signer, &[&one, &other]), "fork 0 0\nboard 3\n");
    assert_eq!(found(&signer, &[&one, &one, &other]), "fork 0 0\nboard 3\n");
    let union = "fork 0 0\nboard 1\nboard 2\nboard 3\n";
    assert_eq!(found(&signer, &[&one, &other, &two]), union);
}

/// The same submission twice is no fork, and a stale vote counts in either order.
#[test]
fn twice_and_exchanged() {
    let signer = signer();
    let first = led(&signer, "a", 0b011, 1);
    let second = signer.submission(&log(&[(2, "b")]), &[(3, 0b110)], Some((1, 0b110)));
    assert_eq!(found(&signer, &[&first, &first]), "fork 0 0\n");
    assert_eq!(found(&signer, &[&first; 9]), "fork 0 0\n");
    assert_eq!(found(&signer, &[&first, &first, &second]), "fork 1 3\nboard 2\n");
    assert_eq!(found(&signer, &[&second, &first, &first]), "fork 1 2\nboard 2\n");
}

/// 2 to 4 come first, then 17, 18 and 1, and then nothing is written; with 0 as many bytes as there
/// are submissions, and four more.
#[test]
fn order_and_report() {
    let signer = signer();
    let (right, none) = (signer.roster(), empty(&signer).bytes());
    let run = |roster: &[u8], bytes: usize, lengths: &[u32], report: usize| {
        let buffer: Vec<u8> = none.iter().copied().cycle().take(bytes).collect();
        let mut room = vec![0xa5; report];
        let number = district(roster, &buffer, lengths, &mut room, &mut Verdicts::default());
        let written = room.iter().take_while(|byte| **byte != 0xa5).count();
        assert!(room[written..].iter().all(|byte| *byte == 0xa5));
        (number, written)
    };
    let short = &right[1..];
    assert_eq!(run(short, 44, &[43], 0), (2, 0));
    assert_eq!(run(&right, 44, &[43], 0), (17, 0));
    assert_eq!(run(&right, 0, &[], 9), (17, 0));
    assert_eq!(run(&right, 44, &[44], 9), (17, 0));
    assert_eq!(run(&right, 440, &[44; 10], 99), (17, 0));
    assert_eq!(run(&right, 88, &[44, 43], 0), (18, 0));
    assert_eq!(run(&right, 88, &[44, 45], 99), (18, 0));
    assert_eq!(run(&right, 88, &[88, u32::MAX, 1], 99), (18, 0));
    assert_eq!(run(&right, 88, &[44, 44], 5), (1, 0));
    assert_eq!(run(&right, 88, &[44, 44], 6), (0, 6));
    assert_eq!(run(&right, 88, &[44, 44], 7), (0, 6));
    assert_eq!(run(&right, 396, &[44; 9], 12), (1, 0));
    assert_eq!(run(&right, 396, &[44; 9], 99), (0, 13));
    assert_eq!(run(&right, 0, &[0, 0], 6), (0, 6));
}
