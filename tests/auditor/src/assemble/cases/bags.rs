//! Bags in every order, with repeats, and with items that do not count: bad signatures, other
//! clusters' items, and numbers that no replica has.

use super::scene::{spoiled, Made, Scene, SPOILS};
use super::Cases;
use crate::assemble::items::Item;
use crate::cases::{led, whole};
use crate::roster::MOST;
use crate::statement::Statement;

/// What may stand in a right item's place, and does not count.
pub fn passed_over(scene: &Scene, item: &Item) -> Vec<(String, Item)> {
    let (signer, n) = (&scene.signer, scene.signer.n() as u16);
    let mut items = Vec::new();
    for at in [0, 8, 15] {
        let mut other = item.clone();
        other.statement[1 + at] ^= 1;
        other.signature = signer.sign(item.replica, &other.statement);
        items.push((format!("of a cluster with another name at {at}"), other));
    }
    let k = item.replica;
    for replica in [0, n + 1, MOST as u16 + 1, 16, 17, k + 16, 256 + k, k << 8, 512 + k, u16::MAX] {
        // The signature is good for the key that the number might be taken for.
        if replica == 0 || replica > n {
            items.push((format!("of number {replica}"), Item { replica, ..item.clone() }));
        }
    }
    items
}

impl Cases<'_> {
    pub fn bags(&mut self) {
        self.shuffled();
        self.repeats();
        self.bad_copies();
        self.in_place_of_one();
        self.no_log();
        self.no_items();
    }

    /// Any order gives the same.
    fn shuffled(&mut self) {
        for n in 3..=MOST {
            let signer = self.signer(n);
            let draft = whole(&signer);
            let mut scene = Scene::of(&signer, &draft);
            for round in 0..self.count(10) {
                scene.shuffle(&mut self.random);
                self.writes_draft(&format!("shuffled, {n} replicas, {round}"), &scene, &draft);
            }
        }
    }

    /// Every item several times, with other leaves and with the same: the first counts.
    fn repeats(&mut self) {
        for n in [3, 4, 6] {
            let signer = self.signer(n);
            let draft = whole(&signer);
            let base = Scene::of(&signer, &draft);
            let leaders: Vec<(u16, u16)> = draft
                .leaders
                .iter()
                .map(|leader| (leader.vote.candidate, leader.signers))
                .collect();
            let commit = draft.commit.as_ref().map(|commit| (commit.index, commit.signers));
            let copies = |number: u8| -> Vec<Made> {
                let mut copies = base.bag.clone();
                for Made { item, .. } in &mut copies {
                    item.signature = signer.sign_again(item.replica, &item.statement, number);
                }
                copies
            };
            let [a, b, c] = [&base.bag[..], &copies(1), &copies(2)].map(<[Made]>::to_vec);
            for (name, bags) in [
                ("twice the same", vec![&a, &a]),
                ("other leaves after", vec![&a, &b]),
                ("other leaves before", vec![&b, &a]),
                ("three leaves", vec![&c, &a, &b]),
            ] {
                let mut scene = base.clone();
                scene.bag = bags.into_iter().flatten().cloned().collect();
                self.writes(&format!("{name}, {n} replicas"), &scene, &leaders, commit);
            }
            for round in 0..self.count(12) {
                let mut scene = base.clone();
                scene.bag = [&a[..], &b, &c].concat();
                scene.shuffle(&mut self.random);
                let name = format!("three leaves shuffled, {n} replicas, {round}");
                self.writes(&name, &scene, &leaders, commit);
            }
        }
    }

    /// A bad copy before or after each good item changes nothing, whatever it is that is bad.
    fn bad_copies(&mut self) {
        for n in [3, 4, 5] {
            let signer = self.signer(n);
            let draft = whole(&signer);
            let base = Scene::of(&signer, &draft);
            for spoil in self.some(SPOILS.to_vec(), 2) {
                for before in [true, false] {
                    let mut scene = Scene::new(&signer, &draft.records);
                    for made in &base.bag {
                        let bad = spoiled(&signer, &made.item, spoil, &mut self.random);
                        let mut both = vec![Made { item: bad, good: false }, made.clone()];
                        if !before {
                            both.reverse();
                        }
                        scene.bag.extend(both);
                    }
                    let name = format!("bad copies, {spoil:?}, before {before}, {n} replicas");
                    self.writes_draft(&name, &scene, &draft);
                }
            }
            // What is passed over, about every item.
            let mut scene = base.clone();
            for made in &base.bag {
                for (_, other) in passed_over(&base, &made.item) {
                    scene.add_bad(other);
                }
            }
            for round in 0..self.count(3) {
                scene.shuffle(&mut self.random);
                let name = format!("with all that is passed over, {n} replicas, {round}");
                self.writes_draft(&name, &scene, &draft);
            }
        }
    }

    /// Something that does not count in place of one item: with a signer more than a quorum the others
    /// stay, and with a quorum alone the certificate is not made.
    fn in_place_of_one(&mut self) {
        for (n, signers, fewer) in [(4, 0b1111, 0b1011), (4, 0b0111, 0), (3, 0b101, 0)] {
            let signer = self.signer(n);
            let draft = led(&signer, "ab", signers, 2);
            let base = Scene::of(&signer, &draft);
            let count = signers.count_ones() as usize;
            let third = base.bag.iter().position(|made| made.item.replica == 3).expect("3 votes");
            let receipt = third + count + 1;
            for at in [third, receipt] {
                let item = base.bag[at].item.clone();
                let mut others = passed_over(&base, &item);
                for spoil in SPOILS {
                    let bad = spoiled(&signer, &item, spoil, &mut self.random);
                    others.push((format!("spoiled, {spoil:?}"), bad));
                }
                others.push(("a copy of another signer's".into(), base.bag[at - 1].item.clone()));
                for (what, other) in self.some(others, 3) {
                    let mut scene = base.clone();
                    scene.bag[at] = Made { item: other, good: false };
                    let kind = item.kind();
                    let name = format!("{what} in place of one of {signers:b}, kind {kind}");
                    match (at == receipt, fewer) {
                        (true, 0) => self.writes(&name, &scene, &[(1, signers)], None),
                        (true, _) => self.writes(&name, &scene, &[(1, signers)], Some((2, fewer))),
                        (false, 0) => self.refuses(&name, &scene, 20),
                        (false, _) => self.writes(&name, &scene, &[(1, fewer)], Some((2, signers))),
                    }
                }
            }
        }
    }

    /// An empty log gives 44 bytes, whatever the bag holds.
    fn no_log(&mut self) {
        for n in 3..=MOST {
            let signer = self.signer(n);
            let mut scene = Scene::of(&signer, &whole(&signer));
            scene.records.clear();
            self.writes("an empty log with a full bag", &scene, &[], None);
            let at = scene.at(0);
            scene.add(signer.all(), &Statement::Receipt(at));
            scene.add(signer.all(), &Statement::Stamp(at));
            self.writes("an empty log and receipts for index 0", &scene, &[], None);
            scene.bag.clear();
            self.writes("an empty log and an empty bag", &scene, &[], None);
        }
    }

    /// No item, or none that counts: some term has no leader.
    fn no_items(&mut self) {
        let signer = self.signer(3);
        let draft = whole(&signer);
        let base = Scene::of(&signer, &draft);
        for length in 1..=draft.records.len() {
            self.refuses("no items", &Scene::new(&signer, &draft.records[..length]), 20);
        }
        let mut scene = Scene::new(&signer, &draft.records);
        for made in &base.bag {
            for (_, other) in passed_over(&base, &made.item) {
                scene.add_bad(other);
            }
        }
        self.refuses("only items that are passed over", &scene, 20);
        // Each item but one: without a vote or a stamp no leader, without a receipt no commit.
        for left_out in 0..base.bag.len() {
            let mut scene = base.clone();
            let item = scene.bag.remove(left_out).item;
            let name = format!("without item {left_out}");
            match item.kind() {
                2 => {
                    let leaders = [(1, 0b011), (3, 0b101)];
                    self.writes(&name, &scene, &leaders, None);
                }
                _ => self.refuses(&name, &scene, 20),
            }
        }
    }
}
