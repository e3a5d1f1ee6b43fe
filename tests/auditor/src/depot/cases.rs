//! The runs of the comparison: every refusal of a run, submissions refused in every place, forks
//! and named replicas between every two places, and simulated districts. A seed chooses what is
//! not fixed.

mod damaged;
mod districts;
mod forks;
mod leaves;
mod lengths;
mod order;
mod places;
mod precedence;
pub mod refused;
mod reports;
mod requests;
mod sums;

use super::{report_size, Findings};
use crate::cases::{empty, Size};
use crate::cluster::{Cluster, Keys};
use crate::random::Random;
use crate::signer::Signer;
use std::collections::BTreeMap;
use std::rc::Rc;

/// One run.
pub struct Case<'a> {
    pub name: String,
    pub roster: &'a [u8],
    pub buffer: &'a [u8],
    pub lengths: &'a [u32],
    /// Bytes of the report's buffer.
    pub report: usize,
    pub expect: Expect,
}

/// What a case was made for.
#[derive(Clone, Debug)]
pub enum Expect {
    /// Nothing in particular.
    Any,
    /// The run is refused with this number.
    Refused(u8),
    /// The run is not refused, and finds just this.
    Found(Findings),
    /// The submissions get these numbers, none of these replicas is named, and somebody for a fork.
    Honest(Vec<u8>, u16),
    /// Of the submissions just these are accepted.
    Accepted(Vec<bool>),
}

impl Expect {
    /// Why what a run finds, or its refusal, is not what the case was made for, if it is not.
    pub fn broken(&self, found: &Result<Findings, u8>) -> Option<String> {
        let kept = match (self, found) {
            (Expect::Any, _) => true,
            (Expect::Refused(number), Err(refusal)) => number == refusal,
            (Expect::Found(right), Ok(found)) => found == right,
            (Expect::Honest(numbers, honest), Ok(found)) => {
                found.numbers == *numbers
                    && found.named & honest == 0
                    && (found.fork == (0, 0) || found.named != 0)
            }
            (Expect::Accepted(accepted), Ok(found)) => {
                found.numbers.iter().map(|number| *number == 0).eq(accepted.iter().copied())
            }
            _ => false,
        };
        (!kept).then(|| format!("made for {self:?}, found {found:?}"))
    }
}

/// Made to find just this.
fn found(numbers: &[u8], named: u16, fork: (u8, u8)) -> Expect {
    Expect::Found(Findings { numbers: numbers.to_vec(), named, fork })
}

/// Every kind of case from this seed, each handed to `take`.
pub fn run(seed: u64, size: Size, take: &mut dyn FnMut(&Case)) {
    let mut cases = Cases {
        keys: Keys::new(&format!("depot {seed}")),
        random: Random::new(seed),
        size,
        take,
        clusters: BTreeMap::new(),
    };
    cases.counts();
    cases.sums();
    cases.sums_modulo();
    cases.past_32_bits();
    cases.no_bytes();
    cases.moved();
    cases.reports();
    cases.order();
    cases.refused();
    cases.forks();
    cases.named();
    cases.requests();
    cases.places();
    cases.nine_of_nine();
    cases.damaged();
    cases.districts();
    cases.leaves();
    cases.precedence();
}

/// Where cases come from and where they go.
struct Cases<'a> {
    keys: Keys,
    random: Random,
    size: Size,
    take: &'a mut dyn FnMut(&Case),
    clusters: BTreeMap<usize, Rc<Cluster>>,
}

/// The leaves that a replica has for one case: in nine submissions of one term a vote, a stamp and
/// a receipt each.
const LEAVES: u32 = 27;

impl Cases<'_> {
    fn count(&self, full: usize) -> usize {
        self.size.count(full)
    }

    fn some<T>(&mut self, values: Vec<T>, few: usize) -> Vec<T> {
        self.size.some(values, few, &mut self.random)
    }

    /// Replicas for one case, in which no leaf is taken yet.
    fn signer(&mut self, n: usize) -> Signer {
        let cluster =
            self.clusters.entry(n).or_insert_with(|| self.keys.cluster_from_0(n, 5, LEAVES));
        Signer::new(cluster)
    }

    /// A run over these submissions, with a report that is just long enough.
    fn run(&mut self, name: &str, roster: &[u8], submissions: &[Vec<u8>], expect: Expect) {
        let lengths: Vec<u32> = submissions.iter().map(|one| one.len() as u32).collect();
        self.cut(name, roster, &submissions.concat(), &lengths, expect);
    }

    /// The same with other lengths.
    fn cut(&mut self, name: &str, roster: &[u8], buffer: &[u8], lengths: &[u32], expect: Expect) {
        let (name, report) = (name.to_string(), report_size(lengths.len()));
        (self.take)(&Case { name, roster, buffer, lengths, report, expect });
    }
}

/// As many submissions of 44 bytes.
fn empties(cluster: &Cluster, count: usize) -> Vec<Vec<u8>> {
    vec![empty(cluster).bytes(); count]
}

#[cfg(test)]
mod tests;
