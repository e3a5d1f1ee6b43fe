//! Which leaf of a key signs which message: each new message takes the next leaf, unless another is
//! chosen, and keeps it.

use std::collections::HashMap;
use std::hash::Hash;

/// The leaves of one key that are taken.
#[derive(Clone, Debug)]
pub struct Leaves<M> {
    taken: HashMap<M, u32>,
    next: u32,
}

impl<M> Default for Leaves<M> {
    fn default() -> Self {
        Leaves { taken: HashMap::new(), next: 0 }
    }
}

impl<M: Eq + Hash> Leaves<M> {
    /// The message's leaf: the one it has, or the next.
    pub fn of(&mut self, message: M) -> u32 {
        *self.taken.entry(message).or_insert_with(|| {
            self.next += 1;
            self.next - 1
        })
    }

    /// Gives a new message a chosen leaf, whatever else that has signed.
    pub fn put(&mut self, message: M, leaf: u32) {
        self.taken.entry(message).or_insert(leaf);
        self.next = self.next.max(leaf + 1);
    }

    /// How many messages there are.
    pub fn messages(&self) -> usize {
        self.taken.len()
    }

    /// The message's leaf, if it has one.
    pub fn known(&self, message: &M) -> Option<u32> {
        self.taken.get(message).copied()
    }

    /// How many leaves are taken: that number is the next one's.
    pub fn count(&self) -> u32 {
        self.next
    }

    /// Each message with its leaf.
    pub fn iter(&self) -> impl Iterator<Item = (&M, u32)> {
        self.taken.iter().map(|(message, leaf)| (message, *leaf))
    }

    /// The same leaves, for messages written in another way.
    pub fn map<N: Eq + Hash>(&self, written: impl Fn(&M) -> N) -> Leaves<N> {
        Leaves { taken: self.iter().map(|(m, leaf)| (written(m), leaf)).collect(), next: self.next }
    }
}

#[cfg(test)]
mod tests {
    use super::*;

    /// Leaves go up by one; a message that comes again has its own.
    #[test]
    fn next_and_kept() {
        let mut leaves = Leaves::default();
        assert_eq!(["a", "b", "a", "c", "b"].map(|message| leaves.of(message)), [0, 1, 0, 2, 1]);
        assert_eq!((leaves.known(&"b"), leaves.known(&"d"), leaves.count()), (Some(1), None, 3));
        let mut other = leaves.map(|message| message.to_string());
        assert_eq!((other.of("c".into()), other.of("d".into())), (2, 3));
        assert_eq!(leaves.of("e"), 3, "a copy takes leaves of its own");
    }

    /// A chosen leaf may have signed another message; a message keeps the one that it has.
    #[test]
    fn chosen() {
        let mut leaves = Leaves::default();
        assert_eq!(leaves.of("a"), 0);
        leaves.put("b", 0);
        leaves.put("a", 5);
        assert_eq!((leaves.known(&"a"), leaves.known(&"b")), (Some(0), Some(0)));
        assert_eq!((leaves.messages(), leaves.of("c")), (2, 6));
    }
}
