//! Check 9: each part begins where its distance says and ends where the next begins.

use super::{CommitCertificate, LeaderCertificate, Submission, Trailer};
use super::{COMMIT_HEAD_SIZE, LEADER_HEAD_SIZE, RECORD_SIZE, TRAILER_SIZE};
use crate::bytes::{array_at, u16_at, u32_at};
use crate::statement::{Record, Vote};

/// The parts, or nothing if they do not lie as the trailer says. S is the bytes of a signature.
pub fn parts(bytes: &[u8], trailer: &Trailer, s: usize) -> Option<Submission> {
    // The bytes before the trailer; every distance counts back from their end.
    let body = &bytes[..bytes.len() - TRAILER_SIZE];
    let back = |distance: u32| body.len().checked_sub(distance as usize);
    let [d1, d2, d3, d4] = trailer.distances;
    let mut reader = Reader { body, at: 0 };

    if back(d1)? != reader.at {
        return None;
    }
    let mut records = Vec::new();
    for _ in 0..trailer.records {
        records.push(Record::read(reader.take(RECORD_SIZE)?));
    }

    if back(d2)? != reader.at {
        return None;
    }
    let mut leaders = Vec::new();
    for _ in 0..trailer.leaders {
        leaders.push(reader.leader(s)?);
    }

    if back(d3)? != reader.at {
        return None;
    }
    let mut stamps = Vec::new();
    for _ in 0..trailer.leaders {
        stamps.push(reader.take(s)?.to_vec());
    }

    let mut commit = None;
    if d4 != 0 {
        if back(d4)? != reader.at {
            return None;
        }
        commit = Some(reader.commit(s)?);
    }
    let uses = Vec::new();
    (reader.at == body.len()).then_some(Submission { records, leaders, stamps, commit, uses })
}

/// Reads on from an offset.
struct Reader<'a> {
    body: &'a [u8],
    at: usize,
}

impl<'a> Reader<'a> {
    /// The next bytes, if there are as many.
    fn take(&mut self, count: usize) -> Option<&'a [u8]> {
        let taken = self.body.get(self.at..self.at + count)?;
        self.at += count;
        Some(taken)
    }

    fn leader(&mut self, s: usize) -> Option<LeaderCertificate> {
        let head = self.take(LEADER_HEAD_SIZE)?;
        let vote = Vote {
            candidate: u16_at(head, 0),
            term: u32_at(head, 2),
            last_term: u32_at(head, 6),
            last_index: u32_at(head, 10),
            last_pointer: array_at(head, 14),
        };
        let signers = u16_at(head, 46);
        Some(LeaderCertificate { vote, signers, signatures: self.signatures(signers, s)? })
    }

    fn commit(&mut self, s: usize) -> Option<CommitCertificate> {
        let head = self.take(COMMIT_HEAD_SIZE)?;
        let (index, signers) = (u32_at(head, 0), u16_at(head, 4));
        Some(CommitCertificate { index, signers, signatures: self.signatures(signers, s)? })
    }

    /// One signature for each one among all sixteen bits.
    fn signatures(&mut self, signers: u16, s: usize) -> Option<Vec<Vec<u8>>> {
        (0..signers.count_ones()).map(|_| Some(self.take(s)?.to_vec())).collect()
    }
}
