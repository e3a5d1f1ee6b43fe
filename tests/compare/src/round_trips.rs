//! Simulated submissions taken apart and assembled again: the library accepts what it assembled beside
//! the original, finds no fork between the two and charges nobody who kept the rules. First with the
//! items of the submission alone, which gives its very bytes, then with all that the district signed.

use auditor::assemble::items;
use auditor::assemble::{assembled, LONGEST};
use auditor::build::log_bytes;
use auditor::cluster::Keys;
use auditor::district::{shuffle, District};
use auditor::random::Random;
use auditor::roster::MOST;
use auditor::verdicts::Verdicts;

/// How many districts of each size are looked at, and how many submissions of each.
const DISTRICTS: usize = 3;
const CLAIMS: usize = 2;

/// What was found; or, as an error, what does not hold.
pub fn hold() -> Result<String, &'static str> {
    let (mut random, mut verdicts) = (Random::new(6), Verdicts::default());
    let keys = Keys::new("round trips");
    let (mut trips, mut longer, mut committed) = (0, 0, 0);
    for n in 3..=MOST {
        let mut districts = 0;
        while districts < DISTRICTS {
            let cheats = random.below(n + 1);
            let district = District::simulate(n, cheats, &mut random);
            let mut claims = district.claims(&mut random);
            if claims.is_empty() {
                continue;
            }
            districts += 1;
            let cluster = keys.cluster_with(n, district.leaves());
            let (roster, signer) = (cluster.roster(), district.signer(&cluster));
            let mut all = district.items(&cluster);
            shuffle(&mut claims, &mut random);
            for claim in claims.iter().take(CLAIMS) {
                let original = claim.draft(&signer);
                let log = log_bytes(&claim.records);
                let mut own = items::taken_apart(&original.parts_of(), &cluster.name);
                shuffle(&mut own, &mut random);
                let (original, own) = (original.bytes(), items::bytes(&own));
                let again = assemble(&roster, &log, &own)?;
                if again != original {
                    return Err("a submission's own items give another submission");
                }
                shuffle(&mut all, &mut random);
                let all = items::bytes(&all);
                let whole = assemble(&roster, &log, &all)?;
                let right = assembled(&roster, &log, &all, LONGEST, &mut verdicts);
                if right != Ok(whole.clone()) {
                    return Err("all that was signed gives another submission than the auditor's");
                }
                audited(&roster, &whole, &original, district.honest)?;
                audited(&roster, &original, &whole, district.honest)?;
                trips += 1;
                longer += usize::from(whole.len() > original.len());
                committed += usize::from(claim.commit.is_some());
            }
        }
    }
    if longer < trips / 4 || committed < trips / 4 {
        return Err("too few submissions gain signers, or have a commit: look at src/district.rs");
    }
    Ok(format!(
        "{trips} simulated submissions taken apart and assembled again; with all that was signed {longer} \
         get longer, and all are accepted beside the original, with no fork; {committed} have a commit"
    ))
}

/// The library's submission.
fn assemble(roster: &[u8], log: &[u8], items: &[u8]) -> Result<Vec<u8>, &'static str> {
    hirelog::assemble(roster, log, items).map_err(|_| "items of a submission are refused")
}

/// The library accepts both, finds no fork, and names no honest replica.
fn audited(roster: &[u8], first: &[u8], second: &[u8], honest: u16) -> Result<(), &'static str> {
    let found = hirelog::audit(roster, first, second)
        .map_err(|_| "what is assembled is refused beside the original")?;
    if found.fork.is_some() {
        return Err("a fork between a submission and what is assembled of the same log");
    }
    if found.named().any(|(replica, _)| honest >> (replica - 1) & 1 == 1) {
        return Err("an honest replica is named");
    }
    Ok(())
}
