//! Where a commit stands: at the highest index with a quorum of receipts that fit.

use super::bags::passed_over;
use super::scene::{spoiled, Made, Scene, SPOILS};
use super::{log_of, Cases};
use crate::assemble::items::Item;
use crate::signer::Signer;
use crate::statement::{Position, Statement};

const TERMS: [u32; 4] = [1, 1, 4, 4];
const LEADERS: [(u16, u16); 2] = [(1, 0b0111), (4, 0b1110)];

/// Just a quorum of four, and one replica fewer.
const QUORUM: u16 = 0b1011;
const FEWER: u16 = 0b1001;

/// Four records of two terms with their leaders, of four replicas.
fn led(signer: &Signer) -> Scene {
    let mut scene = Scene::new(signer, &log_of(&TERMS));
    for (i, (candidate, voters)) in LEADERS.into_iter().enumerate() {
        scene.elect(i, candidate, voters);
    }
    scene
}

/// What a receipt can miss by.
const CHANGES: [(&str, fn(&mut Position)); 9] = [
    ("the next term", |at| at.term += 1),
    ("the term before", |at| at.term -= 1),
    ("a term of a higher byte", |at| at.term += 1 << 24),
    ("the index before", |at| at.index -= 1),
    ("the next index", |at| at.index += 1),
    ("an index of a higher byte", |at| at.index += 1 << 16),
    ("index 0", |at| at.index = 0),
    ("another first byte of the pointer", |at| at.pointer[0] ^= 1),
    ("another last byte of the pointer", |at| at.pointer[31] ^= 0x80),
];

impl Cases<'_> {
    pub fn commits(&mut self) {
        self.highest();
        self.one_misses();
        self.no_index();
        self.stamps_and_receipts();
        self.long_log();
        self.longest_log();
    }

    /// Each set of indexes has a quorum, and the others one receipt too few.
    fn highest(&mut self) {
        let signer = self.signer(4);
        for set in self.some((0..1 << TERMS.len()).collect::<Vec<u32>>(), 5) {
            for (full, fewer) in [(QUORUM, FEWER), (0b1111, 0b0110), (0b0111, 0)] {
                let mut scene = led(&signer);
                let has = |index: usize| set >> (index - 1) & 1 == 1;
                for index in 1..=TERMS.len() {
                    let signers = if has(index) { full } else { fewer };
                    scene.add(signers, &scene.receipt(index));
                    // One more receipt of the same replica does not make a quorum.
                    if let Some(k) = (1..=4).find(|k| signers >> (k - 1) & 1 == 1) {
                        let mut again = scene.item(k, &scene.receipt(index));
                        again.signature = scene.signer.sign_again(k, &again.statement, 1);
                        scene.bag.push(Made { item: again, good: true });
                    }
                }
                let highest = (1..=TERMS.len()).rev().find(|index| has(*index));
                let commit = highest.map(|index| (index as u32, full));
                let name = format!("quorums at {set:04b}, {full:04b} and {fewer:04b}");
                self.writes(&name, &scene, &LEADERS, commit);
                scene.shuffle(&mut self.random);
                self.writes(&format!("{name}, shuffled"), &scene, &LEADERS, commit);
            }
        }
    }

    /// One receipt at the highest index does not fit or does not count: with a quorum alone the commit
    /// is at the next lower one, with a signer more it stays without that one.
    fn one_misses(&mut self) {
        let signer = self.signer(4);
        for highest in [2, 3, 4] {
            for (signers, left) in [(QUORUM, None), (0b1111, Some(0b1101))] {
                let mut base = led(&signer);
                base.add(QUORUM, &base.receipt(highest - 1));
                base.add(signers, &base.receipt(highest));
                let commit = match left {
                    None => (highest as u32 - 1, QUORUM),
                    Some(left) => (highest as u32, left),
                };
                // Replica 2's.
                let receipt = base.receipt(highest).bytes(&signer.name);
                let at = |made: &Made| made.item.replica == 2 && made.item.statement == receipt;
                let at = base.bag.iter().position(at).expect("replica 2's receipt");
                let right = base.bag[at].item.clone();
                let mut others = passed_over(&base, &right);
                for (what, change) in CHANGES {
                    let mut position = base.at(highest);
                    change(&mut position);
                    let item = base.item(2, &Statement::Receipt(position));
                    others.push((what.to_string(), item));
                }
                let stamp = base.item(2, &Statement::Stamp(base.at(highest)));
                others.push(("a stamp's kind".into(), stamp));
                for spoil in SPOILS {
                    let bad = spoiled(&signer, &right, spoil, &mut self.random);
                    others.push((format!("spoiled, {spoil:?}"), bad));
                }
                for (what, item) in self.some(others, 4) {
                    let mut scene = base.clone();
                    scene.bag[at] = Made { item, good: false };
                    let name = format!("index {highest}, {signers:b}, one receipt {what}");
                    self.writes(&name, &scene, &LEADERS, Some(commit));
                }
                // All of them miss by the same: there is no quorum of them either.
                for (what, change) in self.some(CHANGES.to_vec(), 2) {
                    let mut scene = base.clone();
                    scene.bag.retain(|made| made.item.statement != receipt);
                    let mut position = scene.at(highest);
                    change(&mut position);
                    scene.add(0b1111, &Statement::Receipt(position));
                    let name = format!("index {highest}, every receipt with {what}");
                    let commit = Some((highest as u32 - 1, QUORUM));
                    self.writes(&name, &scene, &LEADERS, commit);
                }
            }
        }
    }

    /// Receipts for index 0, for one past the log's end, and for records of another log.
    fn no_index(&mut self) {
        let signer = self.signer(4);
        let base = led(&signer);
        let longer = Scene::new(&signer, &log_of(&[1, 1, 4, 4, 4]));
        let other = Scene::new(&signer, &log_of(&[1, 4, 4, 4]));
        for (name, at) in [
            ("index 0", base.at(0)),
            ("one past the end", longer.at(5)),
            ("one past the end, on the last pointer", Position { index: 5, ..base.at(4) }),
            ("another log's end", other.at(4)),
            ("index 2^32 - 1", Position { index: u32::MAX, ..base.at(4) }),
        ] {
            let mut scene = base.clone();
            scene.add(0b1111, &Statement::Receipt(at));
            self.writes(&format!("receipts for {name}"), &scene, &LEADERS, None);
            scene.add(QUORUM, &scene.receipt(1));
            scene.shuffle(&mut self.random);
            let name = format!("receipts for {name} and for index 1");
            self.writes(&name, &scene, &LEADERS, Some((1, QUORUM)));
        }
    }

    /// Stamps of everybody on a record are no receipts for it, and receipts no stamps.
    fn stamps_and_receipts(&mut self) {
        let signer = self.signer(4);
        for index in 1..=TERMS.len() {
            let mut scene = led(&signer);
            scene.add(0b1111, &Statement::Stamp(scene.at(index)));
            self.writes("stamps by everybody", &scene, &LEADERS, None);
        }
        let mut scene = Scene::new(&signer, &log_of(&[6]));
        scene.add(0b1111, &Statement::Vote(scene.vote(0, 1)));
        scene.add(0b1111, &scene.receipt(1));
        self.refuses("receipts and no stamp", &scene, 20);
        scene.add(0b0001, &scene.stamp(0));
        self.writes("receipts and a stamp", &scene, &[(1, 0b1111)], Some((1, 0b1111)));
    }

    /// A longer log of one term, committed at each of some indexes, round powers of two among them,
    /// with receipts of one replica for the others. All of these have one leaf: nobody looks at that.
    fn long_log(&mut self) {
        let signer = self.signer(3);
        const LENGTH: usize = 200;
        let mut base = Scene::new(&signer, &log_of(&[3; LENGTH]));
        base.elect(0, 3, 0b101);
        let leaf = signer.leaves(1).end - 1;
        for index in 1..=LENGTH {
            let statement = base.receipt(index).bytes(&signer.name);
            let signature = signer.sign_with(1, leaf, &statement);
            base.bag.push(Made { item: Item { replica: 1, statement, signature }, good: true });
        }
        let indexes = vec![1, 2, 63, 64, 65, 66, 127, 128, 129, 192, LENGTH - 1, LENGTH];
        for index in self.some(indexes, 2) {
            let mut scene = base.clone();
            scene.add(0b010, &scene.receipt(index));
            scene.shuffle(&mut self.random);
            let name = format!("{LENGTH} records, a quorum at {index} alone");
            self.writes(&name, &scene, &[(3, 0b101)], Some((index as u32, 0b011)));
        }
    }

    /// The longest log, committed at its first record.
    fn longest_log(&mut self) {
        let signer = self.signer(3);
        let mut scene = Scene::new(&signer, &log_of(&[7; 4096]));
        scene.elect(0, 2, 0b110);
        scene.add(0b101, &scene.receipt(1));
        self.writes("4,096 records, a quorum at 1 alone", &scene, &[(2, 0b110)], Some((1, 0b101)));
    }
}
