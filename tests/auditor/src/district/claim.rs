//! What can be submitted of what a district's replicas have signed.

use crate::build::{ends, Draft};
use crate::random::Random;
use crate::roster::replicas_of;
use crate::signer::Signer;
use crate::statement::{pointers, position, Record, Statement};
use crate::submission::Submission;

/// What a submission is made of: a log, each term's candidate and signers, and a commit's index
/// and signers.
#[derive(Clone, Debug)]
pub struct Claim {
    pub records: Vec<Record>,
    pub leaders: Vec<(u16, u16)>,
    pub commit: Option<(u32, u16)>,
}

impl Claim {
    /// The submission, as it is accepted, without signatures, and so without the leaves.
    pub fn unsigned(&self) -> Submission {
        Draft::unsigned([0; 16], &self.records, &self.leaders, self.commit).parts_of()
    }

    /// Every signature that it has: whose, and on what.
    pub fn statements(&self) -> Vec<(u16, Statement)> {
        let Submission { records, leaders, commit, .. } = self.unsigned();
        let pointers = pointers(&records);
        let at = |index: usize| position(&records, &pointers, index);
        let each =
            |signers, statement| replicas_of(signers).into_iter().map(move |k| (k, statement));
        let mut all = Vec::new();
        for (leader, end) in leaders.iter().zip(ends(&records)) {
            all.extend(each(leader.signers, Statement::Vote(leader.vote)));
            all.push((leader.vote.candidate, Statement::Stamp(at(end))));
        }
        if let Some(commit) = commit {
            all.extend(each(commit.signers, Statement::Receipt(at(commit.index as usize))));
        }
        all
    }

    pub fn draft(&self, signer: &Signer) -> Draft {
        signer.submission(&self.records, &self.leaders, self.commit)
    }
}

/// Two of the claims, more often than not two with commits whose logs part.
pub fn two_of<'a>(claims: &'a [Claim], random: &mut Random) -> Option<(&'a Claim, &'a Claim)> {
    if claims.is_empty() {
        return None;
    }
    let mut two = (&claims[0], &claims[0]);
    for _ in 0..6 {
        two = (&claims[random.below(claims.len())], &claims[random.below(claims.len())]);
        let part = two.0.records.iter().zip(&two.1.records).any(|(a, b)| a != b);
        if part && two.0.commit.is_some() && two.1.commit.is_some() {
            break;
        }
    }
    Some(two)
}
