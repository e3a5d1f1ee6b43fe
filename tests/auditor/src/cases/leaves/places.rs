//! Where a replica's signatures stand in a submission, and signatures by chosen leaves put there.

use crate::build::{ends, Draft};
use crate::bytes::u32_at;
use crate::roster::replicas_of;
use crate::signer::Signer;
use crate::statement::{self, pointers, position};

/// Where a signature stands.
#[derive(Clone, Copy, Debug, PartialEq)]
pub enum Place {
    /// In the leader certificate of the log's first term, here 0, or of a later one.
    Vote(usize),
    /// The stamp of such a term, which is its leader's.
    Stamp(usize),
    /// In the commit certificate.
    Receipt,
}

use Place::{Receipt, Stamp, Vote};

/// A replica's places in a submission, in the order of its parts.
pub fn places(draft: &Draft, replica: u16) -> Vec<Place> {
    let signs = |signers: u16| replicas_of(signers).contains(&replica);
    let leaders = || draft.leaders.iter().enumerate();
    let votes = leaders().filter(|(_, leader)| signs(leader.signers)).map(|(i, _)| Vote(i));
    let stamps = leaders().filter(|(_, leader)| leader.vote.candidate == replica);
    let receipt = draft.commit.iter().filter(|commit| signs(commit.signers)).map(|_| Receipt);
    votes.chain(stamps.map(|(i, _)| Stamp(i))).chain(receipt).collect()
}

/// The message that signatures at a place stand on.
pub fn message(draft: &Draft, place: Place) -> Vec<u8> {
    let (records, name) = (&draft.records, &draft.trailer.name);
    let at = |index| position(records, &pointers(records), index);
    match place {
        Vote(i) => statement::vote(name, &draft.leaders[i].vote),
        Stamp(i) => statement::stamp(name, &at(ends(records)[i])),
        Receipt => {
            let commit = draft.commit.as_ref().expect("a commit certificate");
            statement::receipt(name, &at(commit.index as usize))
        }
    }
}

/// The replica's signature at a place.
pub fn signature(draft: &mut Draft, replica: u16, place: Place) -> &mut Vec<u8> {
    let of = |signers: u16| {
        let among = replicas_of(signers).iter().position(|k| *k == replica);
        among.expect("the replica is a signer")
    };
    match place {
        Vote(i) => {
            let leader = &mut draft.leaders[i];
            &mut leader.signatures[of(leader.signers)]
        }
        Stamp(i) => {
            assert_eq!(draft.leaders[i].vote.candidate, replica, "the stamp is the leader's");
            &mut draft.stamps[i]
        }
        Receipt => {
            let commit = draft.commit.as_mut().expect("a commit certificate");
            &mut commit.signatures[of(commit.signers)]
        }
    }
}

/// Puts there the replica's signature of the same message by a chosen leaf.
pub fn sign(signer: &Signer, draft: &mut Draft, replica: u16, place: Place, leaf: u32) {
    let message = message(draft, place);
    *signature(draft, replica, place) = signer.sign_with(replica, leaf, &message);
}

/// Puts there the same leaf's signature of the same message with another C, so that its bytes are
/// others.
pub fn sign_anew(signer: &Signer, draft: &mut Draft, replica: u16, place: Place, leaf: u32) {
    let message = message(draft, place);
    let other = signer.sign_anew(replica, leaf, 1, &message);
    assert_ne!(other, signer.sign_with(replica, leaf, &message));
    *signature(draft, replica, place) = other;
}

/// The leaf number that the replica's signature at a place begins with.
pub fn leaf(draft: &mut Draft, replica: u16, place: Place) -> u32 {
    u32_at(signature(draft, replica, place), 0)
}
