//! Messages from no bytes to too many.

use super::{flip, pattern, Inputs, Made, Size};
use auditor::lms::{OneTimeType, MESSAGE_LIMIT, ONE_TIME_TYPES, TREE_TYPES};

impl Inputs<'_> {
    /// Messages of 0 to 300 bytes, and the same with a byte fewer and a byte more (for the longest
    /// chains, of every fifth message).
    pub fn message_lengths(&mut self, one_time: &'static OneTimeType) {
        let step = if self.size == Size::Full { 1 } else { 13 };
        for length in (0..=300).step_by(step) {
            let tree = &TREE_TYPES[self.random.below(TREE_TYPES.len())];
            let (q, message) = (self.leaf(tree), self.random.bytes(length));
            let made = self.make(one_time, tree, q, message);
            self.good(&format!("message of {length} bytes"), &made);
            if one_time.w == 8 && length % 5 != 0 {
                continue;
            }
            let mut other = made.clone();
            other.message.push(0);
            self.bad("message with a byte more", &other);
            let mut other = made.clone();
            if other.message.pop().is_some() {
                self.bad("message with a byte fewer", &other);
            }
        }
    }

    /// Each choice of parts without bytes; the comparison gives them as NULL also.
    pub fn no_bytes(&mut self, one_time: &'static OneTimeType) {
        let q = self.leaf(&TREE_TYPES[0]);
        let made = self.make(one_time, &TREE_TYPES[0], q, Vec::new());
        self.good("no message", &made);
        for choice in 1..8 {
            let mut other = made.clone();
            other.message = if choice & 1 == 0 { self.random.bytes(10) } else { Vec::new() };
            if choice & 2 != 0 {
                other.key.clear();
            }
            if choice & 4 != 0 {
                other.signature.clear();
            }
            if choice != 1 {
                self.misformed("parts without bytes", &other);
            }
        }
    }

    /// The longest message that is checked, and one byte more.
    pub fn long_messages(&mut self, one_time: &'static OneTimeType) {
        // The small set has them for one width only.
        if self.size == Size::Small && one_time.w != 8 {
            return;
        }
        let tree = &TREE_TYPES[self.random.below(TREE_TYPES.len())];
        let q = self.leaf(tree);
        let made = self.make(one_time, tree, q, pattern(MESSAGE_LIMIT));
        self.good("longest message", &made);
        let mut other = made.clone();
        flip(&mut other.signature, 64);
        self.bad("longest message, C changed", &other);
        other.signature = made.signature.clone();
        other.key.pop();
        self.misformed("longest message, short key", &other);

        let made = self.make(one_time, tree, q, pattern(MESSAGE_LIMIT + 1));
        self.long("too long", &made);
        let mut other = made.clone();
        flip(&mut other.signature, 64);
        self.long("too long, C changed", &other);
        other.signature.clear();
        self.long("too long, no signature", &other);
        other.key[4..8].fill(0xff);
        self.long("too long, unknown type", &other);
        other.key.pop();
        self.long("too long, short key", &other);
        other.key.clear();
        self.long("too long, no key and no signature", &other);
        other.signature = made.signature.clone();
        self.long("too long, no key", &other);

        // Good for the bytes that are left when the length is cut to 24 bits.
        let start = pattern(5);
        let mut made = self.make(one_time, tree, q, start);
        self.good("short message", &made);
        made.message = pattern(MESSAGE_LIMIT + 5);
        self.long("too long, the start signed", &made);
    }

    /// A length that is 5 when it is cut to 32 bits. The memory is zero and never touched.
    pub fn past_32_bits(&mut self) {
        if usize::BITS < 64 || self.size == Size::Small {
            return;
        }
        let made = self.make(&ONE_TIME_TYPES[3], &TREE_TYPES[0], 0, vec![0; 5]);
        self.good("five zero bytes", &made);
        let message = vec![0; (u32::MAX as usize) + 6];
        self.long("length past 32 bits", &Made { message, ..made });
    }
}
