//! Several things wrong at once: the lowest number is given, the first submission's before the
//! second's, the roster's before both.

use super::change::{set_leaders, set_signers, slots};
use super::{whole, Cases, Expect};
use crate::cluster::Cluster;
use crate::roster::{HEAD_SIZE, KEY_SIZE};
use crate::signer::Signer;

/// The numbers of a submission.
const NUMBERS: [u8; 11] = [5, 6, 7, 8, 9, 10, 11, 12, 13, 14, 15];

/// A submission with each of these numbers' faults; none of them hides a lower one.
fn faulty(signer: &Signer, numbers: &[u8]) -> Vec<u8> {
    let mut draft = whole(signer);
    let has = |number| numbers.contains(&number);
    if has(15) {
        draft.stamps[1][100] ^= 1;
    }
    if has(14) {
        draft.commit.as_mut().expect("a commit certificate").index = 0;
    }
    if has(13) {
        draft.leaders[0].vote.candidate = 0;
    }
    if has(12) {
        set_leaders(&mut draft, 1);
    }
    if has(11) {
        draft.records[0].term = 2;
    }
    if has(10) {
        let last = slots(&draft) - 1;
        set_signers(signer, &mut draft, last, 1 << 15 | 0b11);
    }
    if has(9) {
        draft.trailer.distances[2] += 1;
    }
    if has(8) {
        draft.trailer.leaders = 65;
    }
    if has(7) {
        draft.trailer.name[0] ^= 1;
    }
    if has(6) {
        draft.trailer.version = 0;
    }
    let mut bytes = draft.bytes();
    if has(5) {
        bytes = bytes.split_off(bytes.len() - 43);
    }
    bytes
}

/// A roster with this number's fault, or none.
fn faulty_roster(cluster: &Cluster, number: u8) -> Vec<u8> {
    let mut roster = cluster.roster();
    match number {
        2 => drop(roster.pop()),
        3 => roster[HEAD_SIZE + 7] = 3,
        4 => roster.copy_within(HEAD_SIZE..HEAD_SIZE + KEY_SIZE, HEAD_SIZE + KEY_SIZE),
        _ => (),
    }
    roster
}

impl Cases<'_> {
    pub fn order(&mut self) {
        let signer = self.signer(3, 5);
        let roster = signer.roster();
        // Every set of faults in one submission.
        let sets: Vec<u32> = (1..1 << NUMBERS.len()).collect();
        for set in self.some(sets, 40) {
            let numbers: Vec<u8> =
                (0..NUMBERS.len()).filter(|i| set >> i & 1 == 1).map(|i| NUMBERS[i]).collect();
            let bytes = faulty(&signer, &numbers);
            self.refuse_once(&format!("faults {numbers:?}"), &signer, &bytes, numbers[0]);
        }
        // Each fault in the first with each in the second.
        let mut both = Vec::new();
        for a in NUMBERS {
            both.extend(NUMBERS.map(|b| (a, b)));
        }
        for (a, b) in self.some(both, 12) {
            let (first, second) = (faulty(&signer, &[a]), faulty(&signer, &[b]));
            let name = format!("{a} in the first, {b} in the second");
            self.case(&name, &roster, &first, &second, Expect::Number(a, 1));
        }
        for number in NUMBERS {
            let (good, bad) = (faulty(&signer, &[]), faulty(&signer, &[number]));
            let name = format!("{number} beside a good one");
            self.case(&name, &roster, &good, &bad, Expect::Number(number, 2));
            self.case(&name, &roster, &bad, &good, Expect::Number(number, 1));
        }
        for roster_number in [2, 3, 4] {
            let roster = faulty_roster(&signer, roster_number);
            for number in NUMBERS {
                let bad = faulty(&signer, &[number]);
                let name = format!("roster {roster_number}, submissions {number}");
                self.case(&name, &roster, &bad, &bad, Expect::Number(roster_number, 0));
            }
        }
    }
}
