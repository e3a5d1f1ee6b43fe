//! Several things wrong at once: the first of 2, 3, 4, 8, 11, 19, 20 and 21 is given.

use super::scene::Scene;
use super::{log_of, Cases, Expect};
use crate::build::log_bytes;
use crate::cases::whole;
use crate::roster::{HEAD_SIZE, KEY_SIZE};
use crate::signer::Signer;

/// The numbers of a call, in the order in which they are given.
const ORDER: [u8; 8] = [2, 3, 4, 8, 11, 19, 20, 21];

/// How many ways there are to make the faults.
const WAYS: usize = 6;

/// What a call is made with.
struct Made {
    roster: Vec<u8>,
    log: Vec<u8>,
    items: Vec<u8>,
    output: usize,
}

/// A call with each of these numbers' faults; no other number applies before the first of them.
fn faulty(signer: &Signer, faults: &[u8], way: usize) -> Made {
    let has = |number: u8| faults.contains(&number);
    let draft = whole(signer);
    let mut roster = signer.roster();
    if has(4) {
        roster.copy_within(HEAD_SIZE..HEAD_SIZE + KEY_SIZE, HEAD_SIZE + KEY_SIZE);
    }
    if has(3) {
        roster[HEAD_SIZE + 2 * KEY_SIZE + 7] = 3;
    }
    if has(2) {
        roster.pop();
    }
    let mut records = draft.records.clone();
    if has(8) && way % 3 == 1 {
        records = log_of(&(1..=65).collect::<Vec<_>>());
    }
    if has(8) && way % 3 == 2 {
        records = log_of(&[1; 4097]);
    }
    if has(11) {
        match way % 2 {
            0 => records[0].term = 0,
            _ => records[1].term = u32::MAX,
        }
    }
    let mut log = log_bytes(&records);
    if has(8) && way % 3 == 0 {
        log.pop();
    }
    let mut scene = Scene::of(signer, &draft);
    if has(20) {
        // A vote of the first term, or the stamp of the last.
        let at = if way % 2 == 0 { 0 } else { 5 };
        scene.bag.remove(at);
    }
    let mut items = scene.bytes();
    if has(19) {
        match way % 3 {
            0 => drop(items.pop()),
            1 => items[2] = 4,
            _ => items.push(0),
        }
    }
    let enough = draft.bytes().len();
    let output = match (has(21), way % 2) {
        (true, 0) => enough - 1,
        (true, _) => 0,
        (false, more) => enough + 9 * more,
    };
    Made { roster, log, items, output }
}

impl Cases<'_> {
    /// Every set of faults, each in every way.
    pub fn order(&mut self) {
        let signer = self.signer(3);
        let right = whole(&signer).bytes();
        let mut sets = Vec::new();
        for set in 0..1 << ORDER.len() {
            let faults: Vec<u8> =
                (0..ORDER.len()).filter(|i| set >> i & 1 == 1).map(|i| ORDER[i]).collect();
            sets.extend((0..WAYS).map(|way| (faults.clone(), way)));
        }
        for (faults, way) in self.some(sets, 150) {
            let Made { roster, log, items, output } = faulty(&signer, &faults, way);
            let expect = match faults.first() {
                Some(first) => Expect::Refused(*first),
                None => Expect::Written(right.clone()),
            };
            let name = format!("faults {faults:?}, way {way}");
            self.call(&name, (&roster, &log, &items), output, expect);
        }
    }
}
