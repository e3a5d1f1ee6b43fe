//! A log and a bag that is being made: of each item it is known whether it counts, so that the right
//! submission is put together without a signature being checked.

use super::super::items::{self, Item};
use super::{bag_of, Commit};
use crate::build::{ends, Draft};
use crate::random::Random;
use crate::roster::replicas_of;
use crate::signer::Signer;
use crate::statement::{pointers, position, Position, Record, Statement, Vote};
use crate::submission::runs;

#[derive(Clone)]
pub struct Scene {
    pub signer: Signer,
    pub records: Vec<Record>,
    pub bag: Vec<Made>,
}

/// An item, and whether its number, its cluster's name and its signature are right.
#[derive(Clone)]
pub struct Made {
    pub item: Item,
    pub good: bool,
}

impl Scene {
    /// A log and an empty bag.
    pub fn new(signer: &Signer, records: &[Record]) -> Scene {
        Scene { signer: signer.clone(), records: records.to_vec(), bag: Vec::new() }
    }

    /// A submission that is right, taken apart.
    pub fn of(signer: &Signer, draft: &Draft) -> Scene {
        let mut scene = Scene::new(signer, &draft.records);
        scene.bag =
            bag_of(signer, draft).into_iter().map(|item| Made { item, good: true }).collect();
        scene
    }

    /// The bag's bytes.
    pub fn bytes(&self) -> Vec<u8> {
        let items: Vec<Item> = self.bag.iter().map(|made| made.item.clone()).collect();
        items::bytes(&items)
    }

    /// Where the log's first so many records end.
    pub fn at(&self, index: usize) -> Position {
        position(&self.records, &pointers(&self.records), index)
    }

    /// The same for every number of records, from none on.
    pub fn positions(&self) -> Vec<Position> {
        let pointers = pointers(&self.records);
        (0..pointers.len()).map(|index| position(&self.records, &pointers, index)).collect()
    }

    /// The vote for a candidate that the i-th term of the log asks for, from 0.
    pub fn vote(&self, i: usize, candidate: u16) -> Vote {
        let run = runs(&self.records)[i];
        Vote::on(&self.at(run.first - 1), candidate, run.term)
    }

    /// The stamp that the i-th term of the log asks for.
    pub fn stamp(&self, i: usize) -> Statement {
        Statement::Stamp(self.at(ends(&self.records)[i]))
    }

    /// The receipt for the record at an index.
    pub fn receipt(&self, index: usize) -> Statement {
        Statement::Receipt(self.at(index))
    }

    /// The replica's item.
    pub fn item(&self, replica: u16, statement: &Statement) -> Item {
        let statement = statement.bytes(&self.signer.name);
        let signature = self.signer.sign(replica, &statement);
        Item { replica, statement, signature }
    }

    /// Adds an item of each signer.
    pub fn add(&mut self, signers: u16, statement: &Statement) {
        for replica in replicas_of(signers) {
            let item = self.item(replica, statement);
            self.bag.push(Made { item, good: true });
        }
    }

    /// Adds votes for a candidate of the i-th term, and the candidate's stamp.
    pub fn elect(&mut self, i: usize, candidate: u16, voters: u16) {
        self.add(voters, &Statement::Vote(self.vote(i, candidate)));
        self.add(1 << (candidate - 1), &self.stamp(i));
    }

    /// Adds an item that does not count.
    pub fn add_bad(&mut self, item: Item) {
        self.bag.push(Made { item, good: false });
    }

    pub fn shuffle(&mut self, random: &mut Random) {
        crate::district::shuffle(&mut self.bag, random);
    }

    /// The submission with these leaders and this commit; each signature is the first that counts.
    pub fn right(&self, leaders: &[(u16, u16)], commit: Commit) -> Draft {
        let name = &self.signer.name;
        let mut draft = Draft::unsigned(*name, &self.records, leaders, commit);
        assert_eq!(draft.leaders.len(), ends(&self.records).len(), "a leader for each term");
        for (i, leader) in draft.leaders.iter_mut().enumerate() {
            leader.signatures = self.first_of(leader.signers, &Statement::Vote(leader.vote));
            draft.stamps[i] = self.first(leader.vote.candidate, &self.stamp(i));
        }
        if let Some(commit) = &mut draft.commit {
            let receipt = self.receipt(commit.index as usize);
            commit.signatures = self.first_of(commit.signers, &receipt);
        }
        draft.lay_out();
        draft
    }

    fn first_of(&self, signers: u16, statement: &Statement) -> Vec<Vec<u8>> {
        replicas_of(signers).into_iter().map(|replica| self.first(replica, statement)).collect()
    }

    /// The replica's first signature of the statement that counts.
    fn first(&self, replica: u16, statement: &Statement) -> Vec<u8> {
        let bytes = statement.bytes(&self.signer.name);
        let mut own = self.bag.iter().filter(|made| {
            made.good && made.item.replica == replica && made.item.statement == bytes
        });
        let first = own.next().unwrap_or_else(|| panic!("no {statement:?} of {replica} counts"));
        first.item.signature.clone()
    }
}

/// How a signature is made bad.
#[derive(Clone, Copy, Debug)]
pub enum Spoil {
    /// A bit of it is changed.
    Bit,
    /// It is all zeros.
    Zeros,
    /// Another replica has made it.
    Replica,
    /// It is the replica's own on another statement.
    Statement,
    /// It has another tree type.
    TreeType,
    /// It names another leaf.
    Leaf,
    /// It names a leaf that no tree has.
    NoLeaf,
}

pub const SPOILS: [Spoil; 7] = [
    Spoil::Bit,
    Spoil::Zeros,
    Spoil::Replica,
    Spoil::Statement,
    Spoil::TreeType,
    Spoil::Leaf,
    Spoil::NoLeaf,
];

/// A copy of a good item with a bad signature.
pub fn spoiled(signer: &Signer, item: &Item, spoil: Spoil, random: &mut Random) -> Item {
    let mut bad = item.clone();
    let size = bad.signature.len();
    match spoil {
        Spoil::Bit => bad.signature[random.below(size)] ^= 1 << random.below(8),
        Spoil::Zeros => bad.signature.fill(0),
        Spoil::Replica => {
            let other = item.replica % signer.n() as u16 + 1;
            bad.signature = signer.sign(other, &item.statement);
        }
        Spoil::Statement => bad.signature = signer.sign(item.replica, b"another statement"),
        Spoil::TreeType => {
            // After the leaf and the one-time signature: type, C and 34 chains.
            let at = 4 + 4 + 32 + 34 * 32;
            bad.signature[at + 3] ^= 3;
        }
        Spoil::Leaf => bad.signature[3] ^= 1,
        Spoil::NoLeaf => bad.signature[0] |= 0x80,
    }
    bad
}
