//! Document 02, W3: an item is a replica's number (u16), a statement and a signature, one after the
//! other without lengths; a bag is items end to end, as many as there are.

use crate::bytes::u16_at;
use crate::numbers::ITEM;
use crate::roster::Name;
use crate::submission::{Slot, Submission};

/// Bytes before the statement.
pub const NUMBER_SIZE: usize = 2;

/// One item; the number may be no replica's, the statement of any cluster, and the signature bad.
#[derive(Clone, Debug, PartialEq)]
pub struct Item {
    pub replica: u16,
    pub statement: Vec<u8>,
    pub signature: Vec<u8>,
}

impl Item {
    /// The statement's kind.
    pub fn kind(&self) -> u8 {
        self.statement[0]
    }

    pub fn bytes(&self) -> Vec<u8> {
        [&self.replica.to_be_bytes()[..], &self.statement, &self.signature].concat()
    }
}

/// The bytes of a statement of this kind, if there is such a kind.
pub fn statement_size(kind: u8) -> Option<usize> {
    match kind {
        1 | 2 => Some(57),
        3 => Some(63),
        _ => None,
    }
}

/// The items of a bag whose signatures have this size, or number 19.
pub fn read(bag: &[u8], signature_size: usize) -> Result<Vec<Item>, u8> {
    let (mut items, mut rest) = (Vec::new(), bag);
    while !rest.is_empty() {
        let kind = *rest.get(NUMBER_SIZE).ok_or(ITEM)?;
        let signature_at = NUMBER_SIZE + statement_size(kind).ok_or(ITEM)?;
        let size = signature_at + signature_size;
        let item = rest.get(..size).ok_or(ITEM)?;
        items.push(Item {
            replica: u16_at(item, 0),
            statement: item[NUMBER_SIZE..signature_at].to_vec(),
            signature: item[signature_at..].to_vec(),
        });
        rest = &rest[size..];
    }
    Ok(items)
}

/// The bytes of a bag.
pub fn bytes(items: &[Item]) -> Vec<u8> {
    items.iter().flat_map(Item::bytes).collect()
}

/// What a submission has, as items, in its order: votes, stamps, receipts.
pub fn taken_apart(submission: &Submission, name: &Name) -> Vec<Item> {
    let item = |Slot { replica, statement, signature }: Slot| Item {
        replica,
        statement,
        signature: signature.to_vec(),
    };
    submission.slots(name).into_iter().map(item).collect()
}

#[cfg(test)]
mod tests {
    use super::*;

    /// A number, a statement of the given kind and a signature of 5 bytes.
    fn item(replica: u16, kind: u8, size: usize) -> Item {
        let mut statement = vec![7; size];
        statement[0] = kind;
        Item { replica, statement, signature: vec![9; 5] }
    }

    /// The bytes that W3's words give, and the same items read from them.
    #[test]
    fn forms() {
        let items = [item(1, 1, 57), item(0x0203, 2, 57), item(0, 3, 63)];
        let bag = bytes(&items);
        assert_eq!(bag.len(), 3 * (2 + 5) + 57 + 57 + 63);
        assert_eq!(bag[..4], [0, 1, 1, 7]);
        assert_eq!(bag[64..68], [2, 3, 2, 7]);
        assert_eq!(read(&bag, 5), Ok(items.to_vec()));
        assert_eq!(read(&[], 5), Ok(Vec::new()));
    }

    /// Every cut within an item, and every kind that there is not, is number 19.
    #[test]
    fn number_19() {
        for (kind, size) in [(1, 57), (2, 57), (3, 63)] {
            let bag = bytes(&[item(1, 3, 63), item(2, kind, size)]);
            for length in 0..bag.len() {
                let whole = length == 0 || length == 2 + 63 + 5;
                assert_eq!(read(&bag[..length], 5).err(), (!whole).then_some(19), "{length}");
            }
        }
        for kind in 0..=u8::MAX {
            for size in [57, 63] {
                let bag = bytes(&[item(1, 3, 63), item(2, kind, size)]);
                let right = matches!((kind, size), (1 | 2, 57) | (3, 63));
                assert_eq!(read(&bag, 5).err(), (!right).then_some(19), "{kind} {size}");
            }
        }
    }
}
