//! Submissions to change, and changes that keep the layout right.

use super::{empty, small, whole};
use crate::build::Draft;
use crate::cluster::Cluster;
use crate::signer::Signer;

/// Accepted submissions to change, each signed as if alone.
pub fn bases(signer: &Signer) -> Vec<(String, Draft)> {
    let mut two = whole(&signer.clone());
    two.commit = None;
    two.lay_out();
    vec![
        ("empty".into(), empty(signer)),
        ("one record".into(), small(&signer.clone())),
        ("two terms".into(), two),
        ("two terms and a commit".into(), whole(&signer.clone())),
    ]
}

/// The same, and two with right layouts in which other parts are empty: records alone, which get
/// number 12, and a commit certificate alone, which gets 14.
pub fn laid_out(signer: &Signer) -> Vec<(String, Draft)> {
    let mut drafts = bases(signer);
    let mut records = small(&signer.clone());
    records.leaders.clear();
    records.stamps.clear();
    records.lay_out();
    drafts.push(("records alone".into(), records));
    let mut commit = empty(signer);
    commit.commit = whole(&signer.clone()).commit;
    commit.lay_out();
    drafts.push(("a commit alone".into(), commit));
    drafts
}

/// How many certificates there are: the leaders' first, then the commit's.
pub fn slots(draft: &Draft) -> usize {
    draft.leaders.len() + draft.commit.iter().count()
}

/// The signers of a certificate.
pub fn signers(draft: &mut Draft, slot: usize) -> &mut u16 {
    if slot < draft.leaders.len() {
        &mut draft.leaders[slot].signers
    } else {
        &mut draft.commit.as_mut().expect("a commit certificate").signers
    }
}

/// Sets a certificate's signers, with as many bytes that are no signatures.
pub fn set_signers(cluster: &Cluster, draft: &mut Draft, slot: usize, mask: u16) {
    let none = cluster.no_signatures(mask);
    if slot < draft.leaders.len() {
        draft.leaders[slot].signers = mask;
        draft.leaders[slot].signatures = none;
    } else {
        let commit = draft.commit.as_mut().expect("a commit certificate");
        commit.signers = mask;
        commit.signatures = none;
    }
    draft.lay_out();
}

/// Keeps as many leader certificates and stamps, or repeats the last.
pub fn set_leaders(draft: &mut Draft, count: usize) {
    let (leader, stamp) = (draft.leaders[0].clone(), draft.stamps[0].clone());
    draft.leaders.resize(count, leader);
    draft.stamps.resize(count, stamp);
    draft.lay_out();
}
