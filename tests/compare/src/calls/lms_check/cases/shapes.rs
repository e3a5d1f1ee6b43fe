//! Other lengths and other type numbers.

use super::{Inputs, Made};
use auditor::lms::{one_time_type, signature_length, tree_type};
use auditor::lms::{OneTimeType, TreeType, KEY_LENGTH, N, ONE_TIME_TYPES, TREE_TYPES};

/// Type numbers next to the known ones, with the heights that would come next.
static UNKNOWN_TREES: [TreeType; 2] = [TreeType { code: 4, h: 0 }, TreeType { code: 10, h: 30 }];

/// Which of the two types is changed.
#[derive(Clone, Copy, Debug)]
enum Field {
    OneTime,
    Tree,
}

impl Inputs<'_> {
    /// Signatures and keys that are cut or go on.
    pub fn lengths(&mut self, one_time: &'static OneTimeType, tree: &'static TreeType) {
        let made = self.make_any(one_time, tree);
        let full = made.signature.len();
        let type_at = made.tree_type_at();
        let mut lengths: Vec<usize> = (0..=16).collect();
        lengths.extend([type_at - 1, type_at, type_at + 1, type_at + 3, type_at + 4, type_at + 5]);
        lengths.extend([full - N - 1, full - N, full - 2, full - 1]);
        lengths.extend([full + 1, full + 2, full + N, full + 256, full + 65536]);
        lengths.extend((0..self.count(20)).map(|_| self.random.below(full)));
        for one_time in &ONE_TIME_TYPES {
            lengths.extend(TREE_TYPES.iter().map(|tree| signature_length(one_time, tree)));
        }
        for length in lengths.into_iter().filter(|length| *length != full) {
            let mut other = made.clone();
            self.resize(&mut other.signature, length);
            self.misformed(&format!("signature of {length} bytes"), &other);
        }
        for length in (0..=60).chain([KEY_LENGTH + 256]).filter(|length| *length != KEY_LENGTH) {
            let mut other = made.clone();
            self.resize(&mut other.key, length);
            self.misformed(&format!("key of {length} bytes"), &other);
        }
        // One byte lost at the front.
        let mut other = made.clone();
        other.signature.remove(0);
        self.misformed("signature without its first byte", &other);
        let mut other = made.clone();
        other.key.remove(0);
        self.misformed("key without its first byte", &other);
        self.good("full length", &made);
    }

    /// Every length of the shortest signature, to one past its end.
    pub fn every_length(&mut self) {
        let made = self.make_any(&ONE_TIME_TYPES[3], &TREE_TYPES[0]);
        let full = made.signature.len();
        for length in 0..=full + 1 {
            let mut other = made.clone();
            self.resize(&mut other.signature, length);
            if length == full {
                self.good("full length", &other);
            } else {
                self.misformed(&format!("signature of {length} bytes"), &other);
            }
        }
    }

    /// Cut, or random bytes put after it.
    fn resize(&mut self, bytes: &mut Vec<u8>, length: usize) {
        bytes.truncate(length);
        let missing = length - bytes.len();
        bytes.extend(self.random.bytes(missing));
    }

    /// Other type numbers: all the small ones, some large, and some that end like the right one.
    pub fn types(&mut self, one_time: &'static OneTimeType, tree: &'static TreeType) {
        let made = self.make_any(one_time, tree);
        for (field, code) in [(Field::OneTime, one_time.code), (Field::Tree, tree.code)] {
            let mut numbers: Vec<u32> = (0..=16).collect();
            numbers.extend([0xffff_ffff, 0x7fff_ffff, 0xffff_fffe, 0x8000_0000, 0xe000_0001]);
            numbers.extend([8, 9, 12, 16, 20, 24, 31].map(|bit| code | 1 << bit));
            numbers.extend([code << 8, code << 16, code << 24, !code, self.random.word() as u32]);
            for number in numbers.into_iter().filter(|number| *number != code) {
                self.other_type(&made, field, number);
            }
        }
        self.good("types kept", &made);
    }

    /// The number in the key, in the signature and in both.
    fn other_type(&mut self, made: &Made, field: Field, number: u32) {
        let (key_at, signature_at) = match field {
            Field::OneTime => (4, 4),
            Field::Tree => (0, made.tree_type_at()),
        };
        for (side, in_key, in_signature) in
            [("the key", true, false), ("the signature", false, true), ("both", true, true)]
        {
            let mut other = made.clone();
            if in_key {
                other.key[key_at..key_at + 4].copy_from_slice(&number.to_be_bytes());
            }
            if in_signature {
                other.signature[signature_at..signature_at + 4]
                    .copy_from_slice(&number.to_be_bytes());
            }
            let name = format!("{field:?} type {number:#x} in {side}");
            self.misformed(&name, &other);
            self.other_layout(&name, other, field, number);
        }
    }

    /// Where the number is that of a type: the length that goes with it, then the place of the
    /// tree type also. With the number on both sides the form may then be right.
    fn other_layout(&mut self, name: &str, mut other: Made, field: Field, number: u32) {
        let types = match field {
            Field::OneTime => one_time_type(number).zip(Some(other.tree)),
            Field::Tree => Some(other.one_time).zip(tree_type(number)),
        };
        if let Some((one_time, tree)) = types {
            (other.one_time, other.tree) = (one_time, tree);
            self.resize(&mut other.signature, signature_length(one_time, tree));
            self.bad_by_types(&format!("{name}, its length"), &other);
            let type_at = other.tree_type_at();
            other.signature[type_at..type_at + 4].copy_from_slice(&tree.code.to_be_bytes());
            self.bad_by_types(&format!("{name}, its length and layout"), &other);
        }
    }

    /// Of the length of its types, and bad: by the root if key and signature have these types and
    /// the tree has the leaf, otherwise by the form.
    fn bad_by_types(&mut self, what: &str, made: &Made) {
        let (one_time, tree) = (made.one_time.code.to_be_bytes(), made.tree.code.to_be_bytes());
        let in_key = made.key[..8] == [tree, one_time].concat();
        let in_signature = made.signature[4..8] == one_time
            && made.signature[made.tree_type_at()..].starts_with(&tree);
        match in_key && in_signature && made.q < 1 << made.tree.h {
            true => self.bad(what, made),
            false => self.misformed(what, made),
        }
    }

    /// Signatures of trees one step lower and one step higher than those known.
    pub fn unknown_heights(&mut self, one_time: &'static OneTimeType) {
        for tree in &UNKNOWN_TREES {
            let made = self.make_any(one_time, tree);
            self.misformed("unknown tree type, all else right", &made);
        }
    }
}
