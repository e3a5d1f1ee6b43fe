//! What a submission has, read from its bytes (document 01, A submission, read from its trailer).

use crate::report::{replicas_of, u32_at};

/// The longest submission, in bytes, that is not refused for its size.
pub const SUBMISSION_MAX: usize = 2_097_152;

/// The shortest, in bytes, which is a trailer alone: its log is empty.
pub const SUBMISSION_MIN: usize = 44;

/// Bytes of a record: term and payload digest.
pub const RECORD_SIZE: usize = 36;

/// What the trailer ends in.
const VERSION: usize = 1;

/// Bytes of a leader certificate before its signatures, and of a commit certificate.
const LEADER_HEAD_SIZE: usize = 48;
const COMMIT_HEAD_SIZE: usize = 6;

/// The parts of a submission, without their signatures.
#[derive(Clone, Debug, PartialEq, Eq)]
pub struct Contents {
    /// How many records the log has.
    pub records: usize,
    /// One for each term, in the order of the log.
    pub leaders: Vec<Leader>,
    pub commit: Option<Commit>,
}

/// A leader certificate: who led a term, and who voted for it, rising.
#[derive(Clone, Debug, PartialEq, Eq)]
pub struct Leader {
    pub term: u32,
    pub candidate: usize,
    pub signers: Vec<usize>,
}

/// A commit certificate: the last record committed, and who gave a receipt for it, rising.
#[derive(Clone, Debug, PartialEq, Eq)]
pub struct Commit {
    pub index: u32,
    pub signers: Vec<usize>,
}

/// Takes a submission apart, as `assemble` writes it and the audit accepts it; nothing if its parts
/// do not stand where its trailer says. Whether its signatures are good, and whether its certificates
/// go with its log, is not asked.
pub fn read_submission(bytes: &[u8]) -> Option<Contents> {
    let trailer = bytes.len().checked_sub(SUBMISSION_MIN)?;
    let field = |place: usize| u32_at(bytes, trailer + 16 + 4 * place) as usize;
    let [records, count, start, leaders, stamps, commit, version] =
        [0, 1, 2, 3, 4, 5, 6].map(field);
    let log_size = RECORD_SIZE.checked_mul(records)?;
    let laid_out = start == trailer && leaders.checked_add(log_size)? == trailer;
    if version != VERSION || !laid_out || stamps > leaders {
        return None;
    }
    // The stamps are signatures alone, one for each term.
    let stamps_size = stamps.checked_sub(commit)?;
    let signature = stamps_size.checked_div(count).unwrap_or(0);
    if signature * count != stamps_size {
        return None;
    }
    let mut rest = &bytes[log_size..trailer - stamps];
    let mut certificates = Vec::new();
    for _ in 0..count {
        let (head, signers) = take_certificate(&mut rest, LEADER_HEAD_SIZE, signature)?;
        let candidate = usize::from(u16::from_be_bytes([head[0], head[1]]));
        certificates.push(Leader { term: u32_at(head, 2), candidate, signers });
    }
    let mut last = &bytes[trailer - commit..trailer];
    let commit = match last.is_empty() {
        true => None,
        false => {
            let (head, signers) = take_certificate(&mut last, COMMIT_HEAD_SIZE, signature)?;
            Some(Commit { index: u32_at(head, 0), signers })
        }
    };
    let whole = rest.is_empty() && last.is_empty();
    whole.then_some(Contents { records, leaders: certificates, commit })
}

/// The next certificate's first bytes, of which the last two are its signers; and these. Its
/// signatures are passed over.
fn take_certificate<'a>(
    rest: &mut &'a [u8],
    head_size: usize,
    signature: usize,
) -> Option<(&'a [u8], Vec<usize>)> {
    let head = rest.get(..head_size)?;
    let signers = replicas_of(u16::from_be_bytes([head[head_size - 2], head[head_size - 1]]));
    *rest = rest.get(head_size + signers.len() * signature..)?;
    Some((head, signers))
}

#[cfg(test)]
mod tests {
    use super::*;

    /// A submission with signatures of so many bytes: records, for each term the candidate and the
    /// signers' bits, and the commit's index and signers' bits.
    fn written(
        signature: usize,
        records: u32,
        leaders: &[(u32, u8, u8)],
        commit: Option<(u32, u8)>,
    ) -> Vec<u8> {
        let signatures = |signers: u8| vec![9; signers.count_ones() as usize * signature];
        let mut bytes = vec![0; RECORD_SIZE * records as usize];
        let mut places = vec![0, bytes.len()];
        for &(term, candidate, signers) in leaders {
            bytes.extend([0, candidate]);
            bytes.extend(term.to_be_bytes());
            bytes.extend([0; 40]);
            bytes.extend([0, signers]);
            bytes.extend(signatures(signers));
        }
        places.push(bytes.len());
        bytes.extend(vec![8; leaders.len() * signature]);
        places.push(bytes.len());
        if let Some((index, signers)) = commit {
            bytes.extend(index.to_be_bytes());
            bytes.extend([0, signers]);
            bytes.extend(signatures(signers));
        }
        let end = bytes.len();
        bytes.extend([5; 16]);
        let counts = [records, leaders.len() as u32];
        let distances = places.into_iter().map(|place| (end - place) as u32);
        for number in counts.into_iter().chain(distances).chain([1]) {
            bytes.extend(number.to_be_bytes());
        }
        bytes
    }

    /// Each part has its fields.
    #[test]
    fn fields() {
        let empty = Contents { records: 0, leaders: vec![], commit: None };
        assert_eq!(read_submission(&written(100, 0, &[], None)), Some(empty));
        let leaders = [(7, 2, 0b1011), (0x01020304, 9, 0b1111)];
        let found = read_submission(&written(100, 3, &leaders, Some((258, 0b101)))).expect("read");
        assert_eq!((found.records, found.leaders.len()), (3, 2));
        let first = Leader { term: 7, candidate: 2, signers: vec![1, 2, 4] };
        let second = Leader { term: 0x01020304, candidate: 9, signers: vec![1, 2, 3, 4] };
        assert_eq!(found.leaders, [first, second]);
        assert_eq!(found.commit, Some(Commit { index: 258, signers: vec![1, 3] }));
        let uncommitted = read_submission(&written(100, 3, &leaders, None)).expect("read");
        assert_eq!((uncommitted.leaders, uncommitted.commit), (found.leaders, None));
    }

    /// What is cut, has bytes added, or has another count, distance or version, is not read.
    #[test]
    fn no_submissions() {
        let bytes = written(100, 3, &[(7, 2, 0b1011), (8, 9, 0b1111)], Some((2, 0b101)));
        for length in 0..bytes.len() {
            assert_eq!(read_submission(&bytes[..length]), None, "{length}");
            assert_eq!(read_submission(&bytes[bytes.len() - length..]), None, "{length}");
        }
        assert_eq!(read_submission(&[&[0][..], &bytes].concat()), None);
        let trailer = bytes.len() - SUBMISSION_MIN;
        for place in 16..SUBMISSION_MIN {
            for bit in 0..8 {
                let mut other = bytes.clone();
                other[trailer + place] ^= 1 << bit;
                assert_eq!(read_submission(&other), None, "{place} {bit}");
            }
        }
    }
}
