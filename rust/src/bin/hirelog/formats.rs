//! What bytes look like, by their lengths and a field or two (document 01, The roster, and A
//! submission, read from its trailer; document 02, W3, for items). The library decides what they are;
//! this is for hints alone.

use hirelog::{REPLICAS, SUBMISSION_MIN};
use std::ops::RangeInclusive;

/// Bytes of an LMS public key.
pub const KEY_SIZE: usize = 56;

const NAME_SIZE: usize = 16;
const ROSTER_HEAD_SIZE: usize = NAME_SIZE + 2;
const REPLICAS_LEAST: usize = 3;
const VERSION: [u8; 4] = [0, 0, 0, 1];

/// How many replicas (document 01's boards) a roster may have.
pub const REPLICA_COUNTS: RangeInclusive<usize> = REPLICAS_LEAST..=REPLICAS;

/// How many replicas the bytes say they have, read as a roster.
pub fn replica_count(bytes: &[u8]) -> Option<usize> {
    let field = bytes.get(NAME_SIZE..ROSTER_HEAD_SIZE)?;
    Some(usize::from(u16::from_be_bytes([field[0], field[1]])))
}

/// Bytes of a roster of so many replicas.
pub fn roster_size(replicas: usize) -> usize {
    ROSTER_HEAD_SIZE + KEY_SIZE * replicas
}

/// How many of so many replicas make a quorum.
pub fn quorum(replicas: usize) -> usize {
    replicas - replicas.saturating_sub(1) / 2
}

/// Bytes of a signature under the keys of a roster, by the types of its first.
pub fn roster_signature_size(roster: &[u8]) -> Option<usize> {
    signature_size(roster.get(ROSTER_HEAD_SIZE..roster_size(1))?)
}

/// Whether the bytes have a roster's length for the replicas that they say they have.
pub fn looks_like_roster(bytes: &[u8]) -> bool {
    let fits = |count: usize| REPLICA_COUNTS.contains(&count) && bytes.len() == roster_size(count);
    replica_count(bytes).is_some_and(fits)
}

/// Bytes of a signature under this key (document 01, Digest and signature), by the key's types;
/// nothing if it is no key, or has a type that is not listed.
pub fn signature_size(key: &[u8]) -> Option<usize> {
    let key: &[u8; KEY_SIZE] = key.try_into().ok()?;
    let types =
        [0, 4].map(|at| u32::from_be_bytes([key[at], key[at + 1], key[at + 2], key[at + 3]]));
    let height = match types[0] {
        5 => 5,
        6 => 10,
        7 => 15,
        8 => 20,
        9 => 25,
        _ => return None,
    };
    let chains = match types[1] {
        1 => 265,
        2 => 133,
        3 => 67,
        4 => 34,
        _ => return None,
    };
    Some(8 + 32 * (chains + 1) + 4 + 32 * height)
}

/// Whether the bytes end as a submission does.
pub fn looks_like_submission(bytes: &[u8]) -> bool {
    bytes.len() >= SUBMISSION_MIN && bytes.ends_with(&VERSION)
}

/// The cluster name that a roster begins with.
pub fn roster_name(bytes: &[u8]) -> Option<&[u8]> {
    bytes.get(..NAME_SIZE)
}

/// The cluster name in a submission's trailer.
pub fn submission_name(bytes: &[u8]) -> Option<&[u8]> {
    let trailer = bytes.len().checked_sub(SUBMISSION_MIN)?;
    bytes.get(trailer..trailer + NAME_SIZE)
}

/// An item: a replica's number, and the statement that it signed.
pub struct Item<'a> {
    pub replica: usize,
    statement: &'a [u8],
}

/// The kinds of statements.
pub const STAMP: u8 = 1;
const RECEIPT: u8 = 2;
const VOTE: u8 = 3;

impl Item<'_> {
    pub fn kind(&self) -> u8 {
        self.statement[0]
    }

    /// The cluster's name.
    pub fn name(&self) -> &[u8] {
        &self.statement[1..1 + NAME_SIZE]
    }

    /// The candidate of a vote.
    pub fn candidate(&self) -> Option<usize> {
        let field = &self.statement[1 + NAME_SIZE..][..2];
        let candidate = usize::from(u16::from_be_bytes([field[0], field[1]]));
        (self.kind() == VOTE).then_some(candidate)
    }

    /// The term, before which a vote has its candidate.
    pub fn term(&self) -> u32 {
        let at = 1 + NAME_SIZE + if self.kind() == VOTE { 2 } else { 0 };
        let field = &self.statement[at..at + 4];
        u32::from_be_bytes([field[0], field[1], field[2], field[3]])
    }
}

/// A bag of items, as far as it can be read.
pub struct Items<'a> {
    pub whole: Vec<Item<'a>>,
    /// Where the last whole item ends.
    pub end: usize,
    /// Why no item follows; nothing if the bytes end there.
    pub broken: Option<Broken>,
}

/// What is wrong with an item.
#[derive(Debug, PartialEq, Eq)]
pub enum Broken {
    /// Its kind is none.
    Kind(u8),
    /// It would have more bytes than are left.
    Cut { size: usize },
    /// Not even its kind is left.
    Begun,
}

/// The items that the bytes have, with signatures of this size.
pub fn items(bytes: &[u8], signature_size: usize) -> Items<'_> {
    let (mut whole, mut end) = (Vec::new(), 0);
    let broken = loop {
        let rest = &bytes[end..];
        let &[high, low, kind, ..] = rest else {
            break (!rest.is_empty()).then_some(Broken::Begun);
        };
        let statement_size = match kind {
            STAMP | RECEIPT => 57,
            VOTE => 63,
            _ => break Some(Broken::Kind(kind)),
        };
        let size = 2 + statement_size + signature_size;
        if rest.len() < size {
            break Some(Broken::Cut { size });
        }
        let replica = usize::from(u16::from_be_bytes([high, low]));
        whole.push(Item { replica, statement: &rest[2..2 + statement_size] });
        end += size;
    };
    Items { whole, end, broken }
}

/// Bytes in hexadecimal.
pub fn hex(bytes: &[u8]) -> String {
    bytes.iter().map(|byte| format!("{byte:02x}")).collect()
}

#[cfg(test)]
mod tests {
    use super::*;

    /// Rosters of 3 to 9 replicas, to the byte.
    #[test]
    fn rosters() {
        for (count, size) in [(2, 130), (3, 186), (9, 522), (10, 578)] {
            let mut bytes = vec![0; size];
            bytes[17] = count;
            assert_eq!(looks_like_roster(&bytes), (3..=9).contains(&count), "{count}");
            bytes.push(0);
            assert!(!looks_like_roster(&bytes), "{count}");
        }
        assert_eq!([&[][..], &[0; 17], &[3; 18]].map(replica_count), [None, None, Some(0x303)]);
    }

    /// A signature's length for each listed type, and for no other.
    #[test]
    fn signatures() {
        let key = |tree: u8, one_time: u8| {
            let mut key = [0; KEY_SIZE];
            (key[3], key[7]) = (tree, one_time);
            key
        };
        for (place, height) in (0..).zip([5, 10, 15, 20, 25]) {
            assert_eq!(signature_size(&key(5 + place, 4)), Some(1132 + 32 * height));
        }
        let sizes = [1, 2, 3, 4].map(|one_time| signature_size(&key(5, one_time)));
        assert_eq!(sizes, [8684, 4460, 2348, 1292].map(Some));
        for (tree, one_time) in [(4, 4), (10, 4), (5, 0), (5, 5)] {
            assert_eq!(signature_size(&key(tree, one_time)), None);
        }
        assert_eq!(signature_size(&key(5, 4)[1..]), None);
        let mut high = key(5, 4);
        high[0] = 1;
        assert_eq!(signature_size(&high), None);
    }

    /// Items of each kind, and each way in which they can break off.
    #[test]
    fn bags() {
        let item = |replica: [u8; 2], kind: u8, size: usize| {
            let fields: Vec<u8> = (0..size as u8 - 17).collect();
            [&replica[..], &[kind], &[6; 16], &fields, &[9; 10]].concat()
        };
        let [stamp, receipt, vote] =
            [item([0, 1], 1, 57), item([1, 2], 2, 57), item([0, 3], 3, 63)];
        let bag = [&stamp[..], &receipt, &vote].concat();
        let found = items(&bag, 10);
        assert_eq!((found.end, found.broken), (bag.len(), None));
        let seen = found.whole.iter().map(|item| (item.replica, item.kind(), item.term()));
        let first = 0x00010203;
        let expected = [(1, STAMP, first), (258, RECEIPT, first), (3, VOTE, 0x02030405)];
        assert_eq!(seen.collect::<Vec<_>>(), expected);
        let candidates: Vec<_> = found.whole.iter().map(Item::candidate).collect();
        assert_eq!(candidates, [None, None, Some(0x0001)]);
        assert!(found.whole.iter().all(|item| item.name() == [6; 16]));
        assert!(items(&[], 10).whole.is_empty());

        let breaks = |bytes: &[u8]| {
            let found = items(bytes, 10);
            (found.whole.len(), found.end, found.broken)
        };
        let two = stamp.len() + receipt.len();
        assert_eq!(breaks(&bag[..two]), (2, two, None));
        for left in [1, 2] {
            assert_eq!(breaks(&bag[..two + left]), (2, two, Some(Broken::Begun)));
        }
        for left in [3, vote.len() - 1] {
            let cut = Some(Broken::Cut { size: vote.len() });
            assert_eq!(breaks(&bag[..two + left]), (2, two, cut));
        }
        for kind in [0, 4, 255] {
            let bag = [&stamp[..], &item([0, 1], kind, 57), &vote].concat();
            assert_eq!(breaks(&bag), (1, stamp.len(), Some(Broken::Kind(kind))));
        }
    }

    /// Quorums of document 01's figures, and a roster's signatures.
    #[test]
    fn quorums() {
        assert_eq!([3, 4, 9].map(quorum), [2, 3, 5]);
        let mut roster = vec![0; roster_size(3)];
        (roster[18 + 3], roster[18 + 7]) = (9, 4);
        assert_eq!(roster_signature_size(&roster), Some(1932));
        assert_eq!(roster_signature_size(&roster[..18 + 55]), None);
    }

    /// A trailer's version and name; and what is too short for a trailer.
    #[test]
    fn submissions() {
        let bytes = [&[7; 3][..], &[5; 16], &[0; 27], &[1]].concat();
        for start in 0..=3 {
            assert!(looks_like_submission(&bytes[start..]));
            assert_eq!(submission_name(&bytes[start..]), Some(&[5; 16][..]));
        }
        assert!(!looks_like_submission(&bytes[4..]));
        assert!(!looks_like_submission(&[0; 44]));
        assert_eq!(submission_name(&[0; 43]), None);
    }
}
