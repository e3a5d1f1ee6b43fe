//! Points that document 01 leaves to a close reading, one by one.

use super::*;
use crate::build::{log, Draft};
use crate::cases::empty;
use crate::cluster::{Cluster, Keys};
use crate::signer::Signer;
use crate::statement::Position;

/// Three replicas with a few leaves each, none of them taken.
fn signer() -> Signer {
    Signer::new(&Keys::new("readings").cluster_from_0(3, 5, 8))
}

fn number(cluster: &Cluster, bytes: &[u8]) -> u8 {
    let roster = Roster::read(&cluster.roster()).expect("a roster that is right");
    Submission::read(&roster, bytes, &mut Verdicts::default()).map_or_else(|number| number, |_| 0)
}

/// One record of term 1, leader 1, signers 1 and 2, no commit.
fn small(signer: &Signer) -> Draft {
    signer.submission(&log(&[(1, "a")]), &[(1, 0b011)], None)
}

/// The body's bytes followed by a trailer with these counts and distances.
fn laid(cluster: &Cluster, body: &[u8], counts: [u32; 2], distances: [u32; 4]) -> Vec<u8> {
    let mut draft = empty(cluster);
    [draft.trailer.records, draft.trailer.leaders] = counts;
    draft.trailer.distances = distances;
    [body, &draft.bytes()].concat()
}

/// A fourth distance of 1 to 5 leaves no room for a certificate; 6 leaves room for one without
/// signers.
#[test]
fn fourth_distance() {
    let signer = signer();
    assert_eq!(number(&signer, &laid(&signer, &[], [0, 0], [0; 4])), 0);
    for d4 in 1..=5u32 {
        let body = vec![0; d4 as usize];
        assert_eq!(number(&signer, &laid(&signer, &body, [0, 0], [d4; 4])), 9);
        // The certificate would go on into the trailer.
        assert_eq!(number(&signer, &laid(&signer, &[0; 6], [0, 0], [6, 6, 6, d4])), 9);
    }
    assert_eq!(number(&signer, &laid(&signer, &[0; 6], [0, 0], [6; 4])), 10);
    assert_eq!(number(&signer, &laid(&signer, &[0; 6], [0, 0], [6, 6, 6, 0])), 9);
}

/// All sixteen bits are counted for the layout: a stray one with its bytes gives 10.
#[test]
fn stray_signer() {
    let signer = signer();
    for bit in 3..16 {
        let mut draft = small(&signer);
        draft.leaders[0].signers |= 1 << bit;
        assert_eq!(number(&signer, &draft.bytes()), 9);
        draft.lay_out();
        assert_eq!(number(&signer, &draft.bytes()), 9);
        draft.leaders[0].signatures.push(vec![0; signer.signature_size()]);
        draft.lay_out();
        assert_eq!(number(&signer, &draft.bytes()), 10);
    }
}

/// Check 8 looks at the counts alone.
#[test]
fn counts() {
    let signer = signer();
    for (counts, expected) in [
        ([4096, 0], 9),
        ([4096, 64], 9),
        ([4097, 0], 8),
        ([0, 64], 9),
        ([0, 65], 8),
        ([u32::MAX, 0], 8),
        ([0, u32::MAX], 8),
    ] {
        assert_eq!(number(&signer, &laid(&signer, &[], counts, [0; 4])), expected);
    }
}

/// The distances of empty parts are looked at, and 2^32 - 1 does not wrap.
#[test]
fn distances() {
    let signer = signer();
    for part in 0..4 {
        for distance in [1, 44, u32::MAX] {
            let mut distances = [0; 4];
            distances[part] = distance;
            assert_eq!(number(&signer, &laid(&signer, &[], [0, 0], distances)), 9);
        }
        let right = small(&signer);
        for distance in [0, 1, u32::MAX, right.trailer.distances[part] + 1] {
            let mut draft = right.clone();
            draft.trailer.distances[part] = distance;
            let unchanged = part == 3 && distance == 0;
            let expected = if unchanged { 0 } else { 9 };
            assert_eq!(number(&signer, &draft.bytes()), expected, "{part} {distance}");
        }
    }
}

/// No candidate above n is taken for one of the signers.
#[test]
fn candidates() {
    let signer = signer();
    for candidate in [0, 3, 4, 16, 17, 18, 33, 256, 257, 32769, 65535] {
        let mut draft = small(&signer);
        draft.leaders[0].vote.candidate = candidate;
        assert_eq!(number(&signer, &draft.bytes()), 13, "{candidate}");
    }
}

/// With an empty log every L above 0 gives 12, and every commit index 14.
#[test]
fn empty_log() {
    let signer = signer();
    let mut draft = small(&signer);
    draft.records.clear();
    draft.lay_out();
    assert_eq!(number(&signer, &draft.bytes()), 12);
    for index in [0, 1, u32::MAX] {
        let mut draft = empty(&signer);
        let signatures = signer.no_signatures(0b011);
        draft.commit = Some(CommitCertificate { index, signers: 0b011, signatures });
        draft.lay_out();
        assert_eq!(number(&signer, &draft.bytes()), 14);
    }
}

/// Each check is made over the whole submission before the next: certificate 2's signers come
/// before certificate 1's candidate.
#[test]
fn whole_before_next() {
    let signer = signer();
    let records = log(&[(1, "a"), (2, "b")]);
    let right = signer.submission(&records, &[(1, 0b011); 2], Some((1, 0b011)));
    assert_eq!(number(&signer, &right.bytes()), 0);
    let mut draft = right.clone();
    draft.leaders[0].vote.candidate = 0;
    assert_eq!(number(&signer, &draft.bytes()), 13);
    draft.leaders[1].signers = 0b001;
    draft.leaders[1].signatures.pop();
    draft.lay_out();
    assert_eq!(number(&signer, &draft.bytes()), 10);
    let mut draft = right;
    draft.leaders[0].signatures[0][50] ^= 1;
    assert_eq!(number(&signer, &draft.bytes()), 15);
    draft.commit.as_mut().expect("a commit certificate").index = 3;
    assert_eq!(number(&signer, &draft.bytes()), 14);
}

/// Another tree type inside a signature makes it bad; a receipt carries its own record's term.
#[test]
fn signatures() {
    let signer = signer();
    let records = log(&[(1, "a"), (2, "b")]);
    let right = signer.submission(&records, &[(1, 0b011); 2], Some((1, 0b011)));
    let type_at = signer.signature_size() - 32 * 5 - 4;
    let mut draft = right.clone();
    assert_eq!(draft.stamps[1][type_at..type_at + 4], [0, 0, 0, 5]);
    draft.stamps[1][type_at + 3] = 6;
    assert_eq!(number(&signer, &draft.bytes()), 15);
    let mut draft = right;
    let at = Position { term: 2, index: 1, pointer: pointers(&records)[1] };
    let message = statement::receipt(&signer.name, &at);
    draft.commit.as_mut().expect("a commit certificate").signatures =
        signer.sign_each(0b011, &message);
    assert_eq!(number(&signer, &draft.bytes()), 15);
}

/// Terms up to 2^32 - 1 are accepted.
#[test]
fn largest_term() {
    let signer = signer();
    let records = log(&[(u32::MAX - 1, "a"), (u32::MAX, "b")]);
    let draft = signer.submission(&records, &[(2, 0b110); 2], Some((2, 0b101)));
    assert_eq!(number(&signer, &draft.bytes()), 0);
}

/// 2,097,152 bytes pass check 5.
#[test]
fn sizes() {
    let signer = signer();
    for (length, expected) in [(43, 5), (MOST_BYTES, 9), (MOST_BYTES + 1, 5)] {
        let mut bytes = vec![0; length];
        bytes.extend(empty(&signer).bytes());
        assert_eq!(number(&signer, &bytes[44..]), expected);
    }
}
