//! Fairness is not an empty claim: pairs of accepted submissions that fork, in which the library
//! names somebody, and beside whoever is named replicas that meet every premise, with signatures
//! of their own in the pair, each by the very leaf that the replica signed the statement with.
//! Whoever is shown to have used a leaf twice is named. The same of lists of submissions, in which
//! some pair forks.

use auditor::audit::compare;
use auditor::cluster::Keys;
use auditor::depot::{self, report_size};
use auditor::district::premises::Past;
use auditor::district::{shuffle, two_of, Claim, District};
use auditor::random::Random;
use auditor::roster::{mask_of, replicas_of, Roster};
use auditor::submission::Submission;
use auditor::verdicts::Verdicts;
use std::collections::HashMap;

/// How many pairs that fork are looked for, for each number of replicas; and how many lists.
const FORKS: usize = 8;
const LISTS: usize = 4;

/// What was found in pairs; or, as an error, which replica or pair does not meet them.
pub fn hold() -> Result<String, &'static str> {
    let (mut pairs, mut sound) = (0, Sound::default());
    let mut random = Random::new(4);
    let keys = Keys::new("premises");
    for n in [3, 4, 5] {
        let mut forks = 0;
        while forks < FORKS {
            let cheats = 1 + random.below(n - 1);
            let district = District::simulate(n, cheats, &mut random);
            let claims = district.claims(&mut random);
            let Some((a, b)) = two_of(&claims, &mut random) else {
                continue;
            };
            if !fork(a, b) {
                continue;
            }
            let submitted = Submitted::sign(&keys, &district, &[a, b]);
            let [first, second] = &submitted.bytes[..] else { unreachable!("two submissions") };
            let Ok(found) = hirelog::audit(&submitted.roster, first, second) else {
                return Err("a pair is refused");
            };
            if found.fork.is_none() {
                return Err("the auditor finds a fork, and the library none");
            }
            if found.charges.iter().all(Option::is_none) {
                return Err("a fork, and nobody is named");
            }
            let named = found.charges.iter().enumerate();
            let named = named.map(|(k, charge)| u16::from(charge.is_some()) << k).sum();
            sound.look(&district, &submitted, named)?;
            forks += 1;
        }
        pairs += forks;
    }
    sound.told(pairs, "pairs fork and name somebody")
}

/// What was found in lists of up to nine submissions, run over at once; or what does not hold.
pub fn hold_in_lists() -> Result<String, &'static str> {
    let (mut lists, mut sound) = (0, Sound::default());
    let mut random = Random::new(5);
    let keys = Keys::new("premises");
    for n in [3, 4, 5] {
        let mut forks = 0;
        while forks < LISTS {
            let cheats = 1 + random.below(n - 1);
            let district = District::simulate(n, cheats, &mut random);
            let claims = district.claims(&mut random);
            let mut list: Vec<&Claim> = claims.iter().collect();
            shuffle(&mut list, &mut random);
            list.truncate(depot::MOST);
            if !list.iter().any(|a| list.iter().any(|b| fork(a, b))) {
                continue;
            }
            let submitted = Submitted::sign(&keys, &district, &list);
            let lengths: Vec<u32> = submitted.bytes.iter().map(|one| one.len() as u32).collect();
            let mut report = vec![0xa5; report_size(list.len())];
            let buffer = submitted.bytes.concat();
            if hirelog::district_into(&submitted.roster, &buffer, &lengths, &mut report) != 0 {
                return Err("a list is refused");
            }
            let found = depot::Findings::read(&report, list.len());
            if found.numbers.iter().any(|number| *number != 0) {
                return Err("a submission of a list is refused");
            }
            if found.fork == (0, 0) {
                return Err("the auditor finds a fork in a list, and the library none");
            }
            if found.named == 0 {
                return Err("a fork in a list, and nobody is named");
            }
            sound.look(&district, &submitted, found.named)?;
            forks += 1;
        }
        lists += forks;
    }
    sound.told(lists, "lists of submissions have a fork and name somebody")
}

/// Whether two claims fork.
fn fork(a: &Claim, b: &Claim) -> bool {
    compare(&a.unsigned(), &b.unsigned()).fork != 0
}

/// A roster, and submissions that are made of a district's claims.
struct Submitted {
    roster: Vec<u8>,
    bytes: Vec<Vec<u8>>,
}

impl Submitted {
    fn sign(keys: &Keys, district: &District, claims: &[&Claim]) -> Submitted {
        let cluster = keys.cluster_with(district.n(), district.leaves());
        let signer = district.signer(&cluster);
        let bytes = claims.iter().map(|claim| claim.draft(&signer).bytes()).collect();
        Submitted { roster: cluster.roster(), bytes }
    }
}

/// The replicas with a leaf that has two messages in the submissions, as bits.
fn reusing(submissions: &[&Submission]) -> u16 {
    let mut signed = HashMap::new();
    let twice = submissions.iter().flat_map(|one| &one.uses).filter(|used| {
        let message = *signed.entry((used.replica, used.leaf)).or_insert(&used.message);
        *message != used.message
    });
    twice.fold(0, |found, used| found | mask_of(&[used.replica]))
}

/// The replicas that meet every premise and signed something, and how many signatures they have;
/// and how many replicas used a leaf twice.
#[derive(Default)]
struct Sound {
    replicas: usize,
    signatures: usize,
    reused: u32,
    verdicts: Verdicts,
}

impl Sound {
    /// Looks at each honest replica: it has to meet the premises, and not to be named; and at those
    /// that used a leaf twice: these have to be named.
    fn look(
        &mut self,
        district: &District,
        submitted: &Submitted,
        named: u16,
    ) -> Result<(), &'static str> {
        let roster = Roster::read(&submitted.roster).map_err(|_| "no roster")?;
        let verdicts = &mut self.verdicts;
        let read = submitted.bytes.iter().map(|one| Submission::read(&roster, one, verdicts));
        let read: Result<Vec<Submission>, u8> = read.collect();
        let read = read.map_err(|_| "a submission is refused")?;
        let submissions: Vec<&Submission> = read.iter().collect();
        for k in replicas_of(district.honest) {
            let Some(past) = Past::of(district.acts(k), roster.n(), &roster.name) else {
                return Err("an honest replica's acts break a rule");
            };
            let key = roster.key(k);
            let own = past.own_signatures(key, &roster.name, &submissions, &mut self.verdicts);
            let Some(own) = own.filter(|_| past.strings_apart(&submissions)) else {
                return Err("an honest replica does not meet them");
            };
            if named >> (k - 1) & 1 == 1 {
                return Err("a replica meets them, and is named");
            }
            self.replicas += usize::from(own > 0);
            self.signatures += own;
        }
        let reusing = reusing(&submissions);
        self.reused += reusing.count_ones();
        match reusing & !named {
            0 => Ok(()),
            _ => Err("a replica used a leaf twice, and is not named"),
        }
    }

    /// The same in words, after so many of what was looked at.
    fn told(&self, count: usize, what: &str) -> Result<String, &'static str> {
        let Sound { replicas, signatures, reused, .. } = self;
        if *replicas < count / 2 {
            return Err("too few replicas meet them: look at src/district.rs");
        }
        if *reused == 0 {
            return Err("no replica used a leaf twice: look at src/district.rs");
        }
        Ok(format!(
            "{count} {what}; in them {replicas} replicas with {signatures} signatures of their own \
             meet every premise of fairness, and none is named; {reused} used a leaf twice, and all \
             are"
        ))
    }
}
