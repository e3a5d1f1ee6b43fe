//! The calls of the comparison: every refusal and its place in the order, bags in every order and
//! with every kind of item that does not count, leaders and commits that miss by one thing, and what
//! simulated districts have signed. A seed chooses what is not fixed.

mod bags;
mod commits;
mod cuts;
mod damaged;
mod districts;
mod drawn;
mod large;
mod leaders;
mod logs;
mod order;
mod outputs;
pub mod scene;
mod sizes;

use super::items::{self, Item};
use crate::build::{log_bytes, Draft};
use crate::cases::Size;
use crate::cluster::{Cluster, Keys};
use crate::random::Random;
use crate::signer::Signer;
use crate::statement::Record;
use scene::Scene;
use std::collections::BTreeMap;
use std::rc::Rc;

/// One call.
pub struct Case<'a> {
    pub name: String,
    pub roster: &'a [u8],
    pub log: &'a [u8],
    pub items: &'a [u8],
    /// Bytes of the output's buffer.
    pub output: usize,
    pub expect: Expect,
}

/// What a case was made for.
#[derive(Clone)]
pub enum Expect {
    /// Nothing in particular.
    Any,
    /// The call is refused with this number.
    Refused(u8),
    /// Just this submission.
    Written(Vec<u8>),
    /// Some submission.
    Accepted,
}

impl Expect {
    /// Why what is written, or the refusal, is not what the case was made for, if it is not.
    pub fn broken(&self, found: &Result<Vec<u8>, u8>) -> Option<String> {
        match (self, found) {
            (Expect::Any, _) | (Expect::Accepted, Ok(_)) => None,
            (Expect::Accepted, Err(refusal)) => {
                Some(format!("made to be written, and it is refused by {refusal}"))
            }
            (Expect::Refused(number), Err(refusal)) if number == refusal => None,
            (Expect::Refused(number), Err(refusal)) => {
                Some(format!("made for number {number}, and it is {refusal}"))
            }
            (Expect::Refused(number), Ok(written)) => {
                Some(format!("made for number {number}, and {} bytes are written", written.len()))
            }
            (Expect::Written(right), Err(refusal)) => {
                Some(format!("made for {} bytes, and it is refused by {refusal}", right.len()))
            }
            (Expect::Written(right), Ok(written)) => {
                let at = right.iter().zip(written).position(|(a, b)| a != b);
                let (right, written) = (right.len(), written.len());
                if at.is_none() && right == written {
                    return None;
                }
                Some(format!("made for {right} bytes, and {written} are written: byte {at:?}"))
            }
        }
    }
}

/// Every kind of case from this seed, each handed to `take`.
pub fn run(seed: u64, size: Size, take: &mut dyn FnMut(&Case)) {
    let mut cases = Cases {
        keys: Keys::new(&format!("assemble {seed}")),
        random: Random::new(seed),
        size,
        take,
        clusters: BTreeMap::new(),
    };
    cases.sizes();
    cases.bags();
    cases.cuts();
    cases.kinds();
    cases.logs();
    cases.outputs();
    cases.order();
    cases.leaders();
    cases.commits();
    cases.damaged();
    cases.drawn();
    cases.districts();
    cases.large();
}

/// Where cases come from and where they go.
struct Cases<'a> {
    keys: Keys,
    random: Random,
    size: Size,
    take: &'a mut dyn FnMut(&Case),
    clusters: BTreeMap<(usize, u32), Rc<Cluster>>,
}

/// The leaves that a replica has for one case.
const LEAVES: u32 = 32;

/// Outputs of a call that is refused whatever they are.
const ANY_OUTPUT: [usize; 6] = [0, 1, 43, 44, 5_000, 40_000];

impl Cases<'_> {
    fn count(&self, full: usize) -> usize {
        self.size.count(full)
    }

    fn some<T>(&mut self, values: Vec<T>, few: usize) -> Vec<T> {
        self.size.some(values, few, &mut self.random)
    }

    /// Replicas for one case, in which no leaf is taken yet.
    fn signer(&mut self, n: usize) -> Signer {
        let cluster =
            self.clusters.entry((n, 5)).or_insert_with(|| self.keys.cluster_from_0(n, 5, LEAVES));
        Signer::new(cluster)
    }

    /// The same with trees of this type, of which but a few leaves can sign.
    fn signer_of(&mut self, n: usize, tree: u32) -> Signer {
        if tree == 5 {
            return self.signer(n);
        }
        let cluster = self.clusters.entry((n, tree)).or_insert_with(|| self.keys.cluster(n, tree));
        Signer::new(cluster)
    }

    /// The scene's log and bag give a submission with these leaders and this commit, in an output of
    /// just its bytes or of more.
    fn writes(&mut self, name: &str, scene: &Scene, leaders: &[(u16, u16)], commit: Commit) {
        self.writes_draft(name, scene, &scene.right(leaders, commit));
    }

    fn writes_draft(&mut self, name: &str, scene: &Scene, right: &Draft) {
        let right = right.bytes();
        let more = [0, 0, 0, 1, 7, 100][self.random.below(6)];
        let output = right.len() + more;
        self.case(name, scene, output, Expect::Written(right));
    }

    /// The scene's log and bag are refused, whatever the output.
    fn refuses(&mut self, name: &str, scene: &Scene, number: u8) {
        let output = ANY_OUTPUT[self.random.below(ANY_OUTPUT.len())];
        self.case(name, scene, output, Expect::Refused(number));
    }

    fn case(&mut self, name: &str, scene: &Scene, output: usize, expect: Expect) {
        let (roster, log) = (scene.signer.roster(), log_bytes(&scene.records));
        self.call(name, (&roster, &log, &scene.bytes()), output, expect);
    }

    /// Roster, log and items in bytes.
    fn call(
        &mut self,
        name: &str,
        (roster, log, items): (&[u8], &[u8], &[u8]),
        output: usize,
        expect: Expect,
    ) {
        (self.take)(&Case { name: name.into(), roster, log, items, output, expect });
    }
}

/// A commit's index and signers, if there is one.
type Commit = Option<(u32, u16)>;

/// A log of these terms, each record with a payload of its own.
fn log_of(terms: &[u32]) -> Vec<Record> {
    let payload = |i: usize| crate::sha256::sha256(&[b"record", &(i as u32).to_be_bytes()]);
    terms.iter().enumerate().map(|(i, term)| Record { term: *term, payload: payload(i) }).collect()
}

/// The items of a submission, in its order.
pub fn bag_of(signer: &Signer, draft: &Draft) -> Vec<Item> {
    items::taken_apart(&draft.parts_of(), &signer.name)
}

#[cfg(test)]
mod tests;
