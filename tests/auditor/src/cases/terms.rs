//! Numbers 11 and 12.

use super::change::set_leaders;
use super::{whole, Cases};
use crate::build::Draft;
use crate::statement::Record;

impl Cases<'_> {
    /// Numbers 11 and 12.
    pub fn terms(&mut self) {
        let signer = self.signer(3, 5);
        let draft = whole(&signer);
        let records = draft.records.len();
        for i in 0..records {
            let below = if i == 0 { 0 } else { draft.records[i - 1].term - 1 };
            let above = draft.records.get(i + 1).map_or(0, |record| record.term + 1);
            for term in [0, below, above] {
                if term == 0 || i > 0 && term < draft.records[i - 1].term || term == above {
                    let mut other = draft.clone();
                    other.records[i].term = term;
                    let name = format!("record {} of term {term}", i + 1);
                    self.refuse(&name, &signer, &other.bytes(), 11);
                }
            }
        }
        for (name, terms) in [
            ("falls from the largest", [u32::MAX, u32::MAX, 1]),
            ("falls by one", [u32::MAX, u32::MAX, u32::MAX - 1]),
            ("comes back", [1, 2, 1]),
            ("falls across the middle", [1 << 31, (1 << 31) - 1, 1 << 31]),
            ("all zero", [0; 3]),
        ] {
            let mut other = draft.clone();
            for (record, term) in other.records.iter_mut().zip(terms) {
                record.term = term;
            }
            self.refuse(name, &signer, &other.bytes(), 11);
        }
        // Fewer and more certificates than terms; any with an empty log.
        for count in self.some(vec![0, 1, 3, 4, 5, 8, 33, 63, 64], 3) {
            let mut other = draft.clone();
            set_leaders(&mut other, count);
            self.refuse(&format!("2 terms, L {count}"), &signer, &other.bytes(), 12);
            let mut other = draft.clone();
            other.records = Vec::new();
            set_leaders(&mut other, count.max(1));
            self.refuse(&format!("no record, L {count}"), &signer, &other.bytes(), 12);
        }
        // One more or one fewer distinct term in the log.
        for terms in [[1, 1, 1], [1, 2, 3], [3, 3, 3], [1, u32::MAX - 1, u32::MAX]] {
            let mut other = draft.clone();
            for (record, term) in other.records.iter_mut().zip(terms) {
                record.term = term;
            }
            self.refuse(&format!("terms {terms:?}, L 2"), &signer, &other.bytes(), 12);
        }
        // As many records as may be, of one more term than may be, and of 4,096.
        let record = |term| Record { term, payload: [0; 32] };
        for (name, draft) in [
            ("65 terms, L 64", (1..=65).map(record).collect::<Vec<_>>()),
            ("4,096 terms, L 64", (1..=4096).map(record).collect()),
            ("4,096 records of one term, L 64", vec![record(1); 4096]),
        ]
        .map(|(name, records)| (name, Draft { records, ..draft.clone() }))
        {
            let mut other = draft;
            set_leaders(&mut other, 64);
            self.refuse_once(name, &signer, &other.bytes(), 12);
        }
    }
}
