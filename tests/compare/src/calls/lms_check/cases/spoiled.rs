//! Good signatures, and the same with something changed.

use super::{flip, Inputs, Made, Size};
use auditor::lms::{OneTimeType, TreeType, KEY_LENGTH, N, TREE_TYPES};

impl Inputs<'_> {
    /// Good signatures, and each spoiled in several ways.
    pub fn signatures(&mut self, one_time: &'static OneTimeType, tree: &'static TreeType) {
        let count = self.count(if one_time.w == 8 { 25 } else { 60 });
        for round in 0..count {
            let q = match round {
                0 => 0,
                1 => (1 << tree.h) - 1,
                _ => self.leaf(tree),
            };
            let message = self.message();
            let made = self.make(one_time, tree, q, message);
            self.good("good", &made);
            self.spoil(&made);
        }
    }

    /// One signature, spoiled in several ways.
    fn spoil(&mut self, made: &Made) {
        let bit = self.random.below(8 * made.signature.len());
        self.flip_in_signature("bit of the signature", made, bit);
        let bit = self.random.below(8 * KEY_LENGTH);
        self.flip_in_key("bit of the key", made, bit);

        let mut other = made.clone();
        other.message.push(self.random.word() as u8);
        flip(&mut other.message, self.random.below(8 * made.message.len().max(1)));
        self.bad("other message", &other);

        // Two chains, then two nodes of the path, change places.
        let mut other = made.clone();
        let i = self.random.below(made.one_time.p - 1);
        other.signature[8 + N * (i + 1)..8 + N * (i + 3)].rotate_left(N);
        self.bad(&format!("chains {i} and next swapped"), &other);

        let mut other = made.clone();
        let i = self.random.below(made.tree.h as usize - 1);
        let path_at = made.tree_type_at() + 4;
        other.signature[path_at + N * i..path_at + N * (i + 2)].rotate_left(N);
        self.bad(&format!("nodes {i} and next swapped"), &other);

        let mut other = made.clone();
        flip(&mut other.signature, 31 - self.random.below(made.tree.h as usize));
        self.bad("other leaf of the tree", &other);
    }

    /// The signature with a bit flipped. The form is wrong then if the bit is one of a type, or one
    /// that takes the leaf number past the tree.
    pub fn flip_in_signature(&mut self, what: &str, made: &Made, bit: usize) {
        let mut other = made.clone();
        flip(&mut other.signature, bit);
        let (past_the_tree, type_at) = (0..32 - made.tree.h as usize, 8 * made.tree_type_at());
        let form = [past_the_tree, 32..64, type_at..type_at + 32];
        match form.iter().any(|bits| bits.contains(&bit)) {
            true => self.misformed(what, &other),
            false => self.bad(what, &other),
        }
    }

    /// The key with a bit flipped; the first 64 are those of the types.
    pub fn flip_in_key(&mut self, what: &str, made: &Made, bit: usize) {
        let mut other = made.clone();
        flip(&mut other.key, bit);
        match bit < 64 {
            true => self.misformed(what, &other),
            false => self.bad(what, &other),
        }
    }

    /// The first and the last bit of each field, flipped.
    pub fn field_edges(&mut self, one_time: &'static OneTimeType, tree: &'static TreeType) {
        let message_length = 1 + self.random.below(100);
        let (q, message) = (self.leaf(tree), self.random.bytes(message_length));
        let made = self.make(one_time, tree, q, message);
        self.good("before flips", &made);
        for (field, at) in made.signature_fields() {
            for bit in [8 * at.start, 8 * at.end - 1] {
                self.flip_in_signature(&format!("{field} of the signature, bit {bit}"), &made, bit);
            }
        }
        for (field, at) in made.key_fields() {
            for bit in [8 * at.start, 8 * at.end - 1] {
                self.flip_in_key(&format!("{field} of the key, bit {bit}"), &made, bit);
            }
        }
        for bit in [0, 8 * made.message.len() - 1] {
            let mut other = made.clone();
            flip(&mut other.message, bit);
            self.bad(&format!("message, bit {bit}"), &other);
        }
    }

    /// One bit of every byte (of every seventh, for many short chains), flipped.
    pub fn every_byte(&mut self, one_time: &'static OneTimeType) {
        let q = self.leaf(&TREE_TYPES[0]);
        let message = self.random.bytes(100);
        let made = self.make(one_time, &TREE_TYPES[0], q, message);
        self.good("before flips", &made);
        let step = match (self.size, one_time.w) {
            (Size::Small, _) => 41,
            (Size::Full, 1 | 2) => 7,
            (Size::Full, _) => 1,
        };
        for at in (0..made.signature.len()).step_by(step) {
            let bit = 8 * at + self.random.below(8);
            self.flip_in_signature(&format!("signature, bit {bit}"), &made, bit);
        }
        for at in 0..KEY_LENGTH {
            let bit = 8 * at + self.random.below(8);
            self.flip_in_key(&format!("key, bit {bit}"), &made, bit);
        }
        for at in 0..made.message.len() {
            let mut other = made.clone();
            let bit = 8 * at + self.random.below(8);
            flip(&mut other.message, bit);
            self.bad(&format!("message, bit {bit}"), &other);
        }
    }
}
