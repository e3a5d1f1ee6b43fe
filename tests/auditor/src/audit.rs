//! Document 01, The report: the fork, the charges by rules 1 to 5, and the report's bytes. Rule 1
//! is that of document 02, W4, rule 5 that of W5, and the order for choosing a row that of W6.

use crate::bytes::{u16_at, u32_at};
use crate::numbers::{
    ACCEPTED, ONE_LEAF, SHORT_REPORT, STALE_VOTE, STALE_VOTE_EXCHANGED, TWO_STAMPS, TWO_VOTES,
};
use crate::roster::{replicas_of, Roster, MOST};
use crate::statement::{vote_fields, Record};
use crate::submission::{LeaderCertificate, Run, Submission, Use};
use crate::verdicts::Verdicts;

/// Bytes of a report.
pub const REPORT_SIZE: usize = 53;

/// Document 02, W6: the rules in the order for choosing a row. They keep their numbers.
const ROW_ORDER: [u8; 5] = [TWO_STAMPS, TWO_VOTES, STALE_VOTE, STALE_VOTE_EXCHANGED, ONE_LEAF];

/// What a replica's row holds: the rule it broke and the term.
#[derive(Clone, Copy, Debug, PartialEq)]
pub struct Charge {
    pub rule: u8,
    /// For rule 5 a leaf number stands in its place.
    pub term: u32,
}

impl Charge {
    /// By which the first of a replica's charges is chosen: the place of its rule in that order,
    /// then its term, or leaf number.
    fn rank(&self) -> (usize, u32) {
        let place = ROW_ORDER.iter().position(|rule| *rule == self.rule);
        (place.expect("a rule of the order"), self.term)
    }
}

/// What an audit finds.
#[derive(Clone, Debug, PartialEq, Default)]
pub struct Findings {
    pub number: u8,
    pub place: u8,
    pub fork: u32,
    /// Replica k's charge is the k-th.
    pub rows: [Option<Charge>; MOST],
}

impl Findings {
    fn refused(number: u8, place: u8) -> Findings {
        Findings { number, place, ..Findings::default() }
    }

    /// The replicas that have a charge, as bits.
    pub fn named(&self) -> u16 {
        (0..MOST).filter(|k| self.rows[*k].is_some()).map(|k| 1 << k).sum()
    }

    /// The 53 bytes of the report.
    pub fn bytes(&self) -> Vec<u8> {
        let mut bytes = vec![self.number, self.place];
        bytes.extend(self.fork.to_be_bytes());
        bytes.extend(self.named().to_be_bytes());
        for row in &self.rows {
            let Charge { rule, term } = row.unwrap_or(Charge { rule: 0, term: 0 });
            bytes.push(rule);
            bytes.extend(term.to_be_bytes());
        }
        bytes
    }

    /// What a report's first 53 bytes say.
    pub fn read(report: &[u8]) -> Findings {
        let mut rows = [None; MOST];
        for (k, row) in rows.iter_mut().enumerate() {
            let at = 8 + 5 * k;
            let named = u16_at(report, 6) >> k & 1 == 1;
            *row = named.then(|| Charge { rule: report[at], term: u32_at(report, at + 1) });
        }
        Findings { number: report[0], place: report[1], fork: u32_at(report, 2), rows }
    }

    /// The lines that the program prints.
    pub fn lines(&self) -> String {
        let mut lines = format!("refusal {} in {}\nfork {}\n", self.number, self.place, self.fork);
        for (k, row) in self.rows.iter().enumerate() {
            if let Some(Charge { rule, term }) = row {
                lines += &format!("board {} rule {rule} term {term}\n", k + 1);
            }
        }
        lines
    }
}

/// The audit as it is called: the number, with the report written into its buffer.
pub fn audit(
    roster: &[u8],
    first: &[u8],
    second: &[u8],
    report: &mut [u8],
    verdicts: &mut Verdicts,
) -> u32 {
    if report.len() < REPORT_SIZE {
        return SHORT_REPORT as u32;
    }
    let findings = findings(roster, first, second, verdicts);
    report[..REPORT_SIZE].copy_from_slice(&findings.bytes());
    findings.number as u32
}

/// What an audit with a report long enough finds.
pub fn findings(roster: &[u8], first: &[u8], second: &[u8], verdicts: &mut Verdicts) -> Findings {
    let roster = match Roster::read(roster) {
        Ok(roster) => roster,
        Err(number) => return Findings::refused(number, 0),
    };
    let first = match Submission::read(&roster, first, verdicts) {
        Ok(submission) => submission,
        Err(number) => return Findings::refused(number, 1),
    };
    let second = match Submission::read(&roster, second, verdicts) {
        Ok(submission) => submission,
        Err(number) => return Findings::refused(number, 2),
    };
    compare(&first, &second)
}

/// What two accepted submissions show.
pub fn compare(first: &Submission, second: &Submission) -> Findings {
    let rows = chosen(&charges(first, second));
    Findings { number: ACCEPTED, place: 0, fork: fork(first, second), rows }
}

/// The lowest index, committed in both, whose records differ; 0 if there is none.
fn fork(first: &Submission, second: &Submission) -> u32 {
    let (Some(a), Some(b)) = (&first.commit, &second.commit) else {
        return 0;
    };
    let both = a.index.min(b.index);
    (1..=both)
        .find(|i| first.records[*i as usize - 1] != second.records[*i as usize - 1])
        .unwrap_or(0)
}

/// Every charge that two accepted submissions give, each with its replica; some of them stand there
/// several times.
pub fn charges(first: &Submission, second: &Submission) -> Vec<(u16, Charge)> {
    let mut charges = Vec::new();
    for (a, run_a) in first.leaders.iter().zip(first.runs()) {
        for (b, run_b) in second.leaders.iter().zip(second.runs()) {
            charges.extend(rule_1(a, b));
            charges.extend(rule_2((a, run_a, &first.records), (b, run_b, &second.records)));
        }
    }
    charges.extend(receipt_then_vote(STALE_VOTE, first, second));
    charges.extend(receipt_then_vote(STALE_VOTE_EXCHANGED, second, first));
    charges.extend(rule_5(first.uses.iter().chain(&second.uses).collect()));
    charges
}

/// The row of each replica: of its charges those of the first rule in the order, and of these the
/// one with the lowest term, or leaf number.
fn chosen(charges: &[(u16, Charge)]) -> [Option<Charge>; MOST] {
    let mut rows = [None; MOST];
    for (k, row) in (1..).zip(&mut rows) {
        let own = charges.iter().filter(|(replica, _)| *replica == k);
        *row = own.map(|(_, charge)| *charge).min_by_key(Charge::rank);
    }
    rows
}

/// Rule 1: signers of both certificates, whose votes are of one term and differ. Votes are compared
/// by the bytes that are signed, so that candidate, last term, last index and last pointer all
/// count.
fn rule_1(a: &LeaderCertificate, b: &LeaderCertificate) -> Vec<(u16, Charge)> {
    if a.vote.term != b.vote.term || vote_fields(&a.vote) == vote_fields(&b.vote) {
        return Vec::new();
    }
    let charge = Charge { rule: TWO_VOTES, term: a.vote.term };
    both(a.signers, b.signers).into_iter().map(|k| (k, charge)).collect()
}

/// A leader certificate, the run of its term, and the log.
type Leader<'a> = (&'a LeaderCertificate, Run, &'a [Record]);

/// Rule 2: one replica's stamps in one term, on logs that differ up to the lower of the two.
fn rule_2((a, run_a, log_a): Leader, (b, run_b, log_b): Leader) -> Option<(u16, Charge)> {
    if a.vote.candidate != b.vote.candidate || a.vote.term != b.vote.term {
        return None;
    }
    let lower = run_a.last.min(run_b.last);
    let differ = (1..=lower).any(|i| log_a[i - 1] != log_b[i - 1]);
    differ.then_some((a.vote.candidate, Charge { rule: TWO_STAMPS, term: a.vote.term }))
}

/// Rules 3 and 4: signers of one's commit certificate and of a later vote for a staler log in the
/// other.
fn receipt_then_vote(rule: u8, one: &Submission, other: &Submission) -> Vec<(u16, Charge)> {
    let Some(commit) = &one.commit else {
        return Vec::new();
    };
    let (t, c) = (one.records[commit.index as usize - 1].term, commit.index);
    let mut charges = Vec::new();
    for leader in &other.leaders {
        let vote = &leader.vote;
        if vote.term > t && is_staler((vote.last_term, vote.last_index), (t, c)) {
            let charge = Charge { rule, term: vote.term };
            charges.extend(both(commit.signers, leader.signers).into_iter().map(|k| (k, charge)));
        }
    }
    charges
}

/// Rule 5: two good signatures of one replica, in one submission or in both, with one leaf number
/// and different messages. These are compared by the bytes that are signed, so that a stamp and a
/// receipt differ, and the same message signed again does not.
fn rule_5(uses: Vec<&Use>) -> Vec<(u16, Charge)> {
    let mut charges = Vec::new();
    for (i, a) in uses.iter().enumerate() {
        for b in &uses[..i] {
            if a.replica == b.replica && a.leaf == b.leaf && a.message != b.message {
                charges.push((a.replica, Charge { rule: ONE_LEAF, term: a.leaf }));
            }
        }
    }
    charges
}

/// Whether one end of a log, as term and index, is staler than another: term first, then index.
pub fn is_staler(one: (u32, u32), other: (u32, u32)) -> bool {
    one.0 < other.0 || (one.0 == other.0 && one.1 < other.1)
}

/// The replicas with bits in both masks.
fn both(a: u16, b: u16) -> Vec<u16> {
    replicas_of(a).into_iter().filter(|k| replicas_of(b).contains(k)).collect()
}

#[cfg(test)]
mod tests {
    use super::*;
    use crate::statement::Vote;

    const VOTE: Vote =
        Vote { candidate: 2, term: 7, last_term: 5, last_index: 6, last_pointer: [9; 32] };

    /// Whom rule 1 charges, for two votes and their signers.
    fn charged(a: Vote, a_signers: u16, b: Vote, b_signers: u16) -> Vec<(u16, Charge)> {
        let certificate = |vote, signers| LeaderCertificate { vote, signers, signatures: vec![] };
        rule_1(&certificate(a, a_signers), &certificate(b, b_signers))
    }

    /// Document 02, W4: a vote of the same term that differs in one field only, whichever it is,
    /// and in whichever byte of the pointer.
    #[test]
    fn two_requests() {
        let mut others = vec![
            Vote { candidate: 1, ..VOTE },
            Vote { candidate: 2 + 256, ..VOTE },
            Vote { last_term: 4, ..VOTE },
            Vote { last_term: 5 + (1 << 24), ..VOTE },
            Vote { last_index: 7, ..VOTE },
            Vote { last_index: 6 + (1 << 16), ..VOTE },
        ];
        for at in 0..32 {
            let mut vote = VOTE;
            vote.last_pointer[at] ^= 1;
            others.push(vote);
        }
        let charge = Charge { rule: 1, term: 7 };
        for other in others {
            let right = vec![(2, charge), (3, charge)];
            assert_eq!(charged(VOTE, 0b0111, other, 0b1110), right, "{other:?}");
            assert_eq!(charged(other, 0b0110, VOTE, 0b0111), right, "{other:?}");
            assert_eq!(charged(VOTE, 0b0011, other, 0b1100), vec![], "no signer of both");
        }
    }

    /// The same vote twice, by whomever, and votes of two terms, are no charge.
    #[test]
    fn one_request() {
        assert_eq!(charged(VOTE, 0b111, VOTE, 0b111), vec![]);
        assert_eq!(charged(VOTE, 0b011, VOTE, 0b110), vec![]);
        for candidate in [1, 2] {
            let later = Vote { candidate, term: 8, last_index: 7, ..VOTE };
            assert_eq!(charged(VOTE, 0b111, later, 0b111), vec![]);
        }
    }

    /// Document 02, W5: one leaf, one message, for each replica by itself.
    #[test]
    fn one_leaf() {
        let by = |replica, leaf, message: &[u8]| Use { replica, leaf, message: message.to_vec() };
        let charged = |uses: &[Use]| {
            let mut charges = rule_5(uses.iter().collect());
            charges.sort_by_key(|(replica, charge)| (*replica, charge.term));
            charges
        };
        let right = [by(1, 0, b"a"), by(1, 1, b"b"), by(2, 0, b"b"), by(1, 0, b"a")];
        assert_eq!(charged(&right), vec![]);
        assert_eq!(charged(&[by(1, 3, b"a"), by(1, 4, b"a")]), vec![], "two leaves, one message");
        let charge = |leaf| Charge { rule: 5, term: leaf };
        assert_eq!(charged(&[by(2, 0, b"a"), by(2, 0, b"b")]), vec![(2, charge(0))]);
        let apart = [by(2, 7, b"a"), by(1, 7, b"c"), by(2, 7, b"a"), by(2, 7, b"b")];
        assert_eq!(charged(&apart), vec![(2, charge(7)); 2], "with either of the two");
        let twice = [by(1, 9, b"a"), by(1, 9, b"b"), by(1, 8, b"c"), by(1, 8, b"d")];
        assert_eq!(charged(&twice), vec![(1, charge(8)), (1, charge(9))]);
    }

    /// Document 02, W6: of two rules the one that comes first of 2, 1, 3, 4 and 5, whatever the
    /// terms are and whichever is found first; of one rule the lowest term.
    #[test]
    fn row_order() {
        let order = [2, 1, 3, 4, 5];
        for (i, rule) in order.into_iter().enumerate() {
            for (own, other) in [(7, 7), (7, 6), (7, 8), (u32::MAX, 0), (0, u32::MAX)] {
                let own = Charge { rule, term: own };
                for later in &order[i + 1..] {
                    let after = Charge { rule: *later, term: other };
                    for two in [[(3, own), (3, after)], [(3, after), (3, own)]] {
                        let mut right = [None; MOST];
                        right[2] = Some(own);
                        assert_eq!(chosen(&two), right, "{two:?}");
                    }
                }
                let again = Charge { rule, term: other };
                let lowest = Some(Charge { rule, term: own.term.min(other) });
                assert_eq!(chosen(&[(9, own), (9, again)])[8], lowest, "rule {rule}");
            }
        }
        let of_all = order.map(|rule| (1, Charge { rule, term: 10 - u32::from(rule) }));
        assert_eq!(chosen(&of_all)[0], Some(Charge { rule: 2, term: 8 }));
        assert_eq!(chosen(&[]), [None; MOST]);
    }

    /// Each replica's row is chosen from its own charges.
    #[test]
    fn rows_by_replica() {
        let charge = |rule, term| Charge { rule, term };
        let charges = [
            (2, charge(1, 4)),
            (1, charge(1, 1)),
            (9, charge(2, 5)),
            (1, charge(2, 3)),
            (2, charge(1, 2)),
        ];
        let mut right = [None; MOST];
        right[0] = Some(charge(2, 3));
        right[1] = Some(charge(1, 2));
        right[8] = Some(charge(2, 5));
        assert_eq!(chosen(&charges), right);
    }

    /// Document 01, Bench figures: against (3, 7), (3, 6) is staler, (3, 7) and (4, 1) are not.
    #[test]
    fn staler() {
        assert_eq!(
            [(3, 6), (3, 7), (4, 1), (2, 9), (3, 8)].map(|end| is_staler(end, (3, 7))),
            [true, false, false, true, false]
        );
    }

    /// Each field has its bytes in the report.
    #[test]
    fn fields() {
        let mut findings =
            Findings { number: 1, place: 2, fork: 0x03040506, ..Findings::default() };
        findings.rows[0] = Some(Charge { rule: 9, term: 0x0a0b0c0d });
        findings.rows[8] = Some(Charge { rule: 14, term: 0x0f101112 });
        let mut expected = vec![1, 2, 3, 4, 5, 6, 1, 1, 9, 10, 11, 12, 13];
        expected.extend([0; 35]);
        expected.extend([14, 15, 16, 17, 18]);
        assert_eq!(findings.bytes(), expected);
        assert_eq!(Findings::read(&expected), findings);
        assert_eq!(expected.len(), REPORT_SIZE);
    }
}
