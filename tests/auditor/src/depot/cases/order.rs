//! Several things wrong with a run at once: the first of 2, 3, 4, 17, 18 and 1 is given.

use super::{empties, found, Case, Cases, Expect};
use crate::depot::report_size;
use crate::roster::{HEAD_SIZE, KEY_SIZE};
use crate::signer::Signer;

/// The numbers of a run, in the order in which they are given.
const ORDER: [u8; 6] = [2, 3, 4, 17, 18, 1];

/// The counts of a run with number 17's fault, and of one without.
const WRONG_COUNTS: [usize; 4] = [0, 1, 10, 12];
const RIGHT_COUNTS: [usize; 4] = [2, 9, 3, 5];

/// How a fault is made: which count of four, which sum of three, and which report of two.
type Way = (usize, usize, usize);

/// What a run is called with.
struct Made {
    roster: Vec<u8>,
    buffer: Vec<u8>,
    lengths: Vec<u32>,
    report: usize,
}

/// A run over submissions of 44 bytes with each of these numbers' faults.
fn faulty(signer: &Signer, faults: &[u8], (count, sum, report): Way) -> Made {
    let has = |number: u8| faults.contains(&number);
    let mut roster = signer.roster();
    if has(4) {
        roster.copy_within(HEAD_SIZE..HEAD_SIZE + KEY_SIZE, HEAD_SIZE + KEY_SIZE);
    }
    if has(3) {
        roster[HEAD_SIZE + 2 * KEY_SIZE + 7] = 3;
    }
    if has(2) {
        roster.pop();
    }
    let count = if has(17) { WRONG_COUNTS[count] } else { RIGHT_COUNTS[count] };
    let mut buffer = empties(signer, count).concat();
    let mut lengths = vec![44; count];
    if has(18) {
        match sum {
            0 if count > 0 => drop(buffer.pop()),
            // Right modulo 2^32.
            1 if count > 1 => lengths[..2].copy_from_slice(&[u32::MAX, 89]),
            _ => buffer.push(0),
        }
    }
    let report = match (has(1), report) {
        (true, 0) => 0,
        (true, _) => report_size(count) - 1,
        (false, more) => report_size(count) + 7 * more,
    };
    Made { roster, buffer, lengths, report }
}

impl Cases<'_> {
    /// Every set of faults, each in every way.
    pub fn order(&mut self) {
        let signer = self.signer(3);
        let mut sets = Vec::new();
        for set in 0..1 << ORDER.len() {
            let faults: Vec<u8> =
                (0..ORDER.len()).filter(|i| set >> i & 1 == 1).map(|i| ORDER[i]).collect();
            for way in 0..24 {
                sets.push((faults.clone(), (way % 4, way / 4 % 3, way / 12)));
            }
        }
        for (faults, way) in self.some(sets, 100) {
            let Made { roster, buffer, lengths, report } = faulty(&signer, &faults, way);
            let expect = match faults.first() {
                Some(first) => Expect::Refused(*first),
                None => found(&vec![0; lengths.len()], 0, (0, 0)),
            };
            (self.take)(&Case {
                name: format!("faults {faults:?}, {} lengths, way {way:?}", lengths.len()),
                roster: &roster,
                buffer: &buffer,
                lengths: &lengths,
                report,
                expect,
            });
        }
    }
}
