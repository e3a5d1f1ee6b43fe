//! The districts that make_cases writes: the sample of the folder samples, and more that are tested
//! and measured. All of them follow from fixed labels, so they are always the same.

use super::cases::refused::refused;
use crate::build::{log, Draft};
use crate::cases::{empty, led};
use crate::cluster::{Cluster, Keys};
use crate::roster::mask_of;
use crate::samples::one_leaf;
use crate::sha256::sha256;
use crate::signer::Signer;
use crate::statement::Record;
use std::rc::Rc;

/// A roster and a list of submissions.
pub struct List {
    pub folder: &'static str,
    pub roster: Vec<u8>,
    pub submissions: Vec<Vec<u8>>,
}

impl List {
    /// The submissions end to end.
    pub fn buffer(&self) -> Vec<u8> {
        self.submissions.concat()
    }

    pub fn lengths(&self) -> Vec<u32> {
        self.submissions.iter().map(|submission| submission.len() as u32).collect()
    }
}

fn list(folder: &'static str, cluster: &Cluster, submissions: Vec<Vec<u8>>) -> List {
    List { folder, roster: cluster.roster(), submissions }
}

/// What stands in samples/district: an empty log; a record that replicas 1 and 2 committed; a
/// damaged copy of that; a leader of term 2 whom replica 2 elected without that record; and a
/// second log that replica 1 stamped in term 1.
pub fn sample(cluster: &Rc<Cluster>) -> List {
    let signer = Signer::new(cluster);
    let kept = led(&signer, "a", 0b011, 1);
    let stale = signer.submission(&log(&[(2, "b")]), &[(3, 0b110)], Some((1, 0b110)));
    let other = led(&signer, "c", 0b101, 0);
    let damaged = refused(&signer, &kept, 15);
    let submissions =
        vec![empty(&signer).bytes(), kept.bytes(), damaged, stale.bytes(), other.bytes()];
    list("district", cluster, submissions)
}

/// More districts: small ones, and a large one for the measurement of speed.
pub fn more(cluster: &Rc<Cluster>, keys: &Keys) -> Vec<List> {
    let signer = Signer::new(cluster);
    let draft = led(&signer, "a", 0b011, 1);
    let bad = |number| refused(&signer, &draft, number);
    let grown = [("a", 1), ("ab", 2), ("a", 1), ("ac", 2)];
    let forks = grown.map(|(letters, commit)| led(&signer, letters, 0b011, commit).bytes());
    let voter = Signer::new(cluster);
    let elect = |candidate, signers| {
        voter.submission(&log(&[(1, "a")]), &[(candidate, signers)], None).bytes()
    };
    let (one, other) = one_leaf(&Signer::new(cluster));
    let reused = |between| vec![one.bytes(), between, other.bytes()];
    let many = keys.cluster_with(9, NINE_LEAVES);
    vec![
        list("all_refused", cluster, (5..=13).map(bad).collect()),
        list("one_accepted", cluster, vec![bad(14), draft.bytes(), bad(15)]),
        list("fork_2_4", cluster, forks.to_vec()),
        list(
            "named_without_fork",
            cluster,
            vec![elect(2, 0b011), elect(1, 0b101), elect(3, 0b110)],
        ),
        list("one_leaf", cluster, reused(bad(15))),
        list("nine", &many, nine(&Signer::new(&many)).iter().map(Draft::bytes).collect()),
    ]
}

/// As many leaves as a replica needs for the nine: 64 votes, 16 stamps and 9 receipts.
const NINE_LEAVES: u32 = 89;

/// Nine submissions of nine replicas with the most records, terms and signatures that there can be:
/// 4,096 records, of which the last is another in each, and 64 terms, all signed by every replica.
fn nine(signer: &Signer) -> Vec<Draft> {
    let everybody = mask_of(&[1, 2, 3, 4, 5, 6, 7, 8, 9]);
    let mut records: Vec<Record> = (0..4096u32)
        .map(|i| Record { term: 1 + i / 64, payload: sha256(&[&i.to_be_bytes()]) })
        .collect();
    let leaders: Vec<(u16, u16)> = (0..64).map(|i| (i % 9 + 1, everybody)).collect();
    (0..9)
        .map(|k: u16| {
            records[4095].payload = sha256(&[b"last", &k.to_be_bytes()]);
            signer.submission(&records, &leaders, Some((4096, everybody)))
        })
        .collect()
}

#[cfg(test)]
mod tests {
    use super::*;
    use crate::depot::{findings, lines, report_size};
    use crate::samples::{cluster, large_keys};
    use crate::verdicts::Verdicts;

    /// What each is made for.
    #[test]
    fn worked_lines() {
        let (cluster, mut verdicts) = (cluster(), Verdicts::default());
        let mut lists = vec![sample(&cluster)];
        lists.extend(more(&cluster, &large_keys()));
        let expected: [(&str, &[u8], &str); 7] = [
            ("district", &[0, 0, 15, 0, 0], "fork 2 4\nboard 1\nboard 2\n"),
            ("all_refused", &[5, 6, 7, 8, 9, 10, 11, 12, 13], "fork 0 0\n"),
            ("one_accepted", &[14, 0, 15], "fork 0 0\n"),
            ("fork_2_4", &[0; 4], "fork 2 4\nboard 1\n"),
            ("named_without_fork", &[0; 3], "fork 0 0\nboard 1\nboard 2\nboard 3\n"),
            ("one_leaf", &[0, 15, 0], "fork 0 0\nboard 2\n"),
            ("nine", &[0; 9], "fork 1 2\nboard 1\n"),
        ];
        assert_eq!(lists.len(), expected.len());
        for (list, (folder, numbers, rest)) in lists.iter().zip(expected) {
            let (buffer, lengths) = (list.buffer(), list.lengths());
            let report = report_size(lengths.len());
            let found = findings(&list.roster, &buffer, &lengths, report, &mut verdicts);
            let own = numbers.iter().enumerate();
            let own = own.map(|(i, number)| format!("submission {} number {number}\n", i + 1));
            let right = format!("refusal 0\n{}{rest}", own.collect::<String>());
            assert_eq!((list.folder, lines(&found)), (folder, right));
        }
    }
}
