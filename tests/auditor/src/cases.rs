//! The inputs of the comparison: worked examples, every refusal in every way and place, damaged
//! submissions, and pairs of accepted ones. A seed chooses what is not fixed.

pub mod accepted;
pub mod change;
mod commits;
mod damaged;
mod edges;
mod forged;
mod layouts;
mod leaders;
pub mod leaves;
mod order;
mod pairs;
pub mod precedence;
mod reports;
pub mod requests;
mod rosters;
mod rules;
mod signers;
mod sizes;
mod terms;
pub mod worked_examples;

use crate::audit::{Findings, REPORT_SIZE};
use crate::build::{log, Draft};
use crate::cluster::{Cluster, Keys};
use crate::random::Random;
use crate::roster::mask_of;
use crate::signer::Signer;
use std::collections::BTreeMap;
use std::rc::Rc;

/// One call of the audit.
pub struct Case<'a> {
    pub name: String,
    pub roster: &'a [u8],
    pub first: &'a [u8],
    pub second: &'a [u8],
    /// Bytes of the report's buffer.
    pub report: usize,
    pub expect: Expect,
}

/// What a case was made for.
#[derive(Clone, Debug)]
pub enum Expect {
    /// Nothing in particular.
    Any,
    /// Number 1: the report's buffer is too short.
    Short,
    /// This number, in this place.
    Number(u8, u8),
    /// Some number, but not 0.
    Refused,
    /// Accepted, and these lines.
    Lines(String),
    /// Accepted, none of these replicas named, and somebody for a fork.
    Honest(u16),
}

impl Expect {
    /// Why the findings are not what the case was made for, if they are not. Nothing is found
    /// where the report's buffer was too short.
    pub fn broken(&self, found: Option<&Findings>) -> Option<String> {
        let Some(found) = found else {
            return match self {
                Expect::Any | Expect::Short => None,
                _ => Some(format!("made for {self:?}, and the report is too short")),
            };
        };
        let kept = match self {
            Expect::Any => true,
            Expect::Short => false,
            Expect::Number(number, place) => (found.number, found.place) == (*number, *place),
            Expect::Refused => found.number != 0,
            Expect::Lines(lines) => found.lines() == *lines,
            Expect::Honest(honest) => {
                found.number == 0
                    && found.named() & honest == 0
                    && (found.fork == 0 || found.named() != 0)
            }
        };
        (!kept).then(|| format!("made for {self:?}, found {found:?}"))
    }
}

/// The full set has the fixed seed, the small one the fresh.
#[derive(Clone, Copy, PartialEq)]
pub enum Size {
    Full,
    Small,
}

impl Size {
    /// As many in the full set; a few of them in the small one.
    pub fn count(self, full: usize) -> usize {
        match self {
            Size::Full => full,
            Size::Small => full.div_ceil(10),
        }
    }

    /// All of them in the full set; some in the small one.
    pub fn some<T>(self, mut values: Vec<T>, few: usize, random: &mut Random) -> Vec<T> {
        if self == Size::Small {
            crate::district::shuffle(&mut values, random);
            values.truncate(few);
        }
        values
    }
}

/// Every kind of case from this seed, each handed to `take`.
pub fn run(seed: u64, size: Size, take: &mut dyn FnMut(&Case)) {
    let mut cases = Cases {
        keys: Keys::new(&format!("cases {seed}")),
        random: Random::new(seed),
        size,
        take,
        clusters: BTreeMap::new(),
    };
    cases.worked_examples();
    cases.missed_faults();
    cases.rules();
    cases.requests();
    cases.reports();
    cases.rosters();
    cases.sizes();
    cases.trailers();
    cases.layouts();
    cases.signers();
    cases.terms();
    cases.leaders();
    cases.commit_indexes();
    cases.order();
    cases.edges();
    cases.accepted();
    cases.loose_pairs();
    cases.forged();
    cases.districts();
    cases.every_length();
    cases.every_byte();
    cases.leaves();
    cases.precedence();
}

/// Where cases come from and where they go.
struct Cases<'a> {
    keys: Keys,
    random: Random,
    size: Size,
    take: &'a mut dyn FnMut(&Case),
    clusters: BTreeMap<(usize, u32), Rc<Cluster>>,
}

impl Cases<'_> {
    fn count(&self, full: usize) -> usize {
        self.size.count(full)
    }

    fn some<T>(&mut self, values: Vec<T>, few: usize) -> Vec<T> {
        self.size.some(values, few, &mut self.random)
    }

    /// The cluster of n replicas with this tree type.
    fn cluster(&mut self, n: usize, tree: u32) -> Rc<Cluster> {
        self.clusters.entry((n, tree)).or_insert_with(|| self.keys.cluster(n, tree)).clone()
    }

    /// The same cluster, for one case in which no leaf is taken yet.
    fn signer(&mut self, n: usize, tree: u32) -> Signer {
        Signer::new(&self.cluster(n, tree))
    }

    /// One case with a report of 53 bytes.
    fn case(&mut self, name: &str, roster: &[u8], first: &[u8], second: &[u8], expect: Expect) {
        let name = name.to_string();
        (self.take)(&Case { name, roster, first, second, report: REPORT_SIZE, expect });
    }

    /// The submission in both places, beside an empty one, gets the number; 0 has no place.
    fn refuse(&mut self, name: &str, cluster: &Cluster, bytes: &[u8], number: u8) {
        let (roster, empty) = (cluster.roster(), empty(cluster).bytes());
        let place = |place| if number == 0 { 0 } else { place };
        self.case(name, &roster, bytes, &empty, Expect::Number(number, place(1)));
        self.case(name, &roster, &empty, bytes, Expect::Number(number, place(2)));
    }

    /// The submission in one of the places gets the number.
    fn refuse_once(&mut self, name: &str, cluster: &Cluster, bytes: &[u8], number: u8) {
        let place = 1 + self.random.below(2) as u8;
        self.once(name, cluster, bytes, place, Expect::Number(number, place));
    }

    /// The submission in this place, beside an empty one.
    fn once(&mut self, name: &str, cluster: &Cluster, bytes: &[u8], place: u8, expect: Expect) {
        let (roster, empty) = (cluster.roster(), empty(cluster).bytes());
        match place {
            1 => self.case(name, &roster, bytes, &empty, expect),
            _ => self.case(name, &roster, &empty, bytes, expect),
        }
    }

    /// The two submissions are accepted and give these lines after `refusal 0 in 0`.
    fn lines(&mut self, name: &str, cluster: &Cluster, first: &Draft, second: &Draft, rest: &str) {
        let expect = Expect::Lines(format!("refusal 0 in 0\n{rest}"));
        self.case(name, &cluster.roster(), &first.bytes(), &second.bytes(), expect);
    }
}

/// A submission of 44 bytes.
pub fn empty(cluster: &Cluster) -> Draft {
    let mut draft = Draft::unsigned(cluster.name, &[], &[], None);
    draft.lay_out();
    draft
}

/// One record, its leader and its stamp.
pub fn small(signer: &Signer) -> Draft {
    signer.submission(&log(&[(1, "a")]), &[(1, signer.first_quorum())], None)
}

/// Two terms and a commit on a record before the last.
pub fn whole(signer: &Signer) -> Draft {
    let records = log(&[(1, "a"), (1, "b"), (3, "c")]);
    let q = signer.first_quorum();
    let other = mask_of(&[signer.n() as u16]) | (q >> 1);
    let last = signer.n() as u16;
    signer.submission(&records, &[(1, q), (last, other)], Some((2, q)))
}

/// One record for each letter, all of term 1, which replica 1 leads; committed up to an index by
/// those who elected it, or not at all for 0.
pub fn led(signer: &Signer, letters: &str, signers: u16, commit: u32) -> Draft {
    let payloads: Vec<String> = letters.chars().map(String::from).collect();
    let records: Vec<(u32, &str)> = payloads.iter().map(|payload| (1, &payload[..])).collect();
    signer.submission(&log(&records), &[(1, signers)], (commit > 0).then_some((commit, signers)))
}

#[cfg(test)]
pub mod tests;
