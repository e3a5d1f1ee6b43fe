//! Document 02, W6: "Only rows of boards that break both change. The named set remains." The order
//! before it, 1, 2, 3, 4, 5, which is that of the rules' numbers, is written here alone.

use crate::audit::{charges, Charge, Findings};
use crate::submission::Submission;
use std::cmp::Ordering::{Equal, Greater, Less};

/// Where a report's rows begin, and the bytes of each: its rule's comes first.
const ROWS_AT: usize = 8;
const ROW_SIZE: usize = 5;

/// How many rows of the pairs that were looked at are as they were before W6, and how many are not.
#[derive(Clone, Copy, Debug, Default)]
pub struct Former {
    pub kept: usize,
    /// By where the lowest term of rule 1 is: below that of rule 2, in the same, above it.
    pub changed: [usize; 3],
}

impl Former {
    /// Looks at each row of what the two accepted submissions of a case give.
    pub fn look(&mut self, name: &str, [first, second]: [&Submission; 2], found: &Findings) {
        let (charges, report) = (charges(first, second), found.bytes());
        let mut named = 0;
        for (k, row) in (1..).zip(found.rows) {
            let own = charges.iter().filter(|(replica, _)| *replica == k);
            let own: Vec<Charge> = own.map(|(_, charge)| *charge).collect();
            let before = own.iter().min_by_key(|charge| (charge.rule, charge.term)).copied();
            named |= u16::from(before.is_some()) << (k - 1);
            let lowest = |rule| {
                let terms = own.iter().filter(|charge| charge.rule == rule).map(|c| c.term);
                terms.min()
            };
            if let (Some(votes), Some(stamps)) = (lowest(1), lowest(2)) {
                assert_eq!(before, Some(Charge { rule: 1, term: votes }), "{name}: replica {k}");
                assert_eq!(row, Some(Charge { rule: 2, term: stamps }), "{name}: replica {k}");
                assert_eq!(report[ROWS_AT + ROW_SIZE * (k as usize - 1)], 2, "{name}: replica {k}");
                let where_votes_are = match votes.cmp(&stamps) {
                    Less => 0,
                    Equal => 1,
                    Greater => 2,
                };
                self.changed[where_votes_are] += 1;
            } else {
                assert_eq!(row, before, "{name}: replica {k}");
                self.kept += usize::from(row.is_some());
            }
        }
        assert_eq!(found.named(), named, "{name}: the named set");
    }
}
