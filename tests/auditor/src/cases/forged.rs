//! Number 15: every signature spoiled, or good for something else.

use super::{small, whole, Cases};
use crate::build::Draft;
use crate::cluster::Cluster;
use crate::roster::{replicas_of, Name};
use crate::signer::Signer;
use crate::statement::{self, pointers, Position};

/// Which signature: a vote's by certificate and signer, each counted from 0, a stamp or a receipt.
#[derive(Clone, Copy, Debug)]
enum Slot {
    Vote(usize, usize),
    Stamp(usize),
    Receipt(usize),
}

/// Writes a stamp or a receipt.
type Statement = fn(&Name, &Position) -> Vec<u8>;

impl Cases<'_> {
    pub fn forged(&mut self) {
        for (n, tree) in [(3, 5), (5, 5), (3, 7), (3, 9)] {
            let signer = self.signer(n, tree);
            let draft = whole(&signer);
            for slot in slots(&draft) {
                self.spoiled(&signer, &draft, slot);
            }
        }
        let signer = self.signer(3, 5);
        self.other_statements(&signer);
        self.other_signers(&signer);
    }

    /// One signature with a bit changed, another type or leaf, another signer's, or none at all.
    fn spoiled(&mut self, cluster: &Cluster, draft: &Draft, slot: Slot) {
        let s = cluster.signature_size();
        let type_at = s - 4 - 32 * ((s - 1132) / 32);
        for at in [0, 3, 4, 7, 8, type_at - 1, type_at + 3, type_at + 4, s - 1] {
            let mut other = draft.clone();
            signature(&mut other, slot)[at] ^= 1 << self.random.below(8);
            let name = format!("{slot:?}, byte {at}");
            self.forgery(&name, cluster, &other);
        }
        let mut other = draft.clone();
        signature(&mut other, slot)[..4].copy_from_slice(&u32::MAX.to_be_bytes());
        self.forgery(&format!("{slot:?}, leaf number past the tree"), cluster, &other);
        for tree in 4..=10 {
            let mut other = draft.clone();
            let field = &mut signature(&mut other, slot)[type_at + 3];
            if *field != tree {
                *field = tree;
                self.forgery(&format!("{slot:?}, tree type {tree}"), cluster, &other);
            }
        }
        let mut other = draft.clone();
        signature(&mut other, slot).fill(0);
        self.forgery(&format!("{slot:?}, zero bytes"), cluster, &other);
        for source in slots(draft) {
            let mut other = draft.clone();
            let copy = signature(&mut other, source).clone();
            if *signature(&mut other, slot) != copy {
                *signature(&mut other, slot) = copy;
                self.forgery(&format!("{slot:?} from {source:?}"), cluster, &other);
            }
        }
    }

    fn forgery(&mut self, name: &str, cluster: &Cluster, draft: &Draft) {
        if self.size == super::Size::Full || self.random.below(16) == 0 {
            self.refuse_once(name, cluster, &draft.bytes(), 15);
        }
    }

    /// Good signatures of the right replica, on a statement that is not the right one.
    fn other_statements(&mut self, signer: &Signer) {
        let draft = whole(signer);
        let right = pointers(&draft.records);
        let at = |index: usize| Position {
            term: draft.records[index - 1].term,
            index: index as u32,
            pointer: right[index],
        };
        let mut name = signer.name;
        name[15] ^= 1;
        for (slot, index) in [(Slot::Stamp(0), 2), (Slot::Stamp(1), 3), (Slot::Receipt(0), 2)] {
            let (replica, of): (u16, Statement) = match slot {
                Slot::Stamp(i) => (draft.leaders[i].vote.candidate, statement::stamp),
                _ => (1, statement::receipt),
            };
            let mut messages = vec![("another cluster", of(&name, &at(index)))];
            for other in (1..=3).filter(|other| *other != index) {
                messages.push(("another record", of(&signer.name, &at(other))));
                let pointer = right[other];
                let mixed = Position { pointer, ..at(index) };
                messages.push(("another record's pointer", of(&signer.name, &mixed)));
            }
            for term in [0, 1, 3, u32::MAX].into_iter().filter(|term| *term != at(index).term) {
                let moved = Position { term, ..at(index) };
                messages.push(("another term", of(&signer.name, &moved)));
            }
            for other in [0, 1, 3, u32::MAX].into_iter().filter(|i| *i != index as u32) {
                let moved = Position { index: other, ..at(index) };
                messages.push(("another index", of(&signer.name, &moved)));
            }
            for kind in [0, 1, 2, 3, 255] {
                let mut message = of(&signer.name, &at(index));
                if message[0] != kind {
                    message[0] = kind;
                    messages.push(("another kind", message));
                }
            }
            let mut longer = of(&signer.name, &at(index));
            longer.push(0);
            messages.push(("one byte more", longer));
            let shorter = of(&signer.name, &at(index))[..56].to_vec();
            messages.push(("one byte less", shorter));
            for (what, message) in messages {
                let mut other = draft.clone();
                *signature(&mut other, slot) = signer.clone().sign(replica, &message);
                self.forgery(&format!("{slot:?} on {what}"), signer, &other);
            }
        }
        for slot in [0, 1] {
            let vote = draft.leaders[slot].vote;
            let mut messages = vec![("another cluster", statement::vote(&name, &vote))];
            for candidate in (0..=4).filter(|candidate| *candidate != vote.candidate) {
                let changed = statement::Vote { candidate, ..vote };
                messages.push(("another candidate", statement::vote(&signer.name, &changed)));
            }
            let changed = statement::Vote { term: vote.term + 1, ..vote };
            messages.push(("another term", statement::vote(&signer.name, &changed)));
            let changed = statement::Vote { last_term: vote.last_term + 1, ..vote };
            messages.push(("another last term", statement::vote(&signer.name, &changed)));
            let changed = statement::Vote { last_index: vote.last_index + 1, ..vote };
            messages.push(("another last index", statement::vote(&signer.name, &changed)));
            let changed = statement::Vote { last_pointer: right[1], ..vote };
            messages.push(("another last pointer", statement::vote(&signer.name, &changed)));
            let mut kind = statement::vote(&signer.name, &vote);
            kind[0] = 1;
            messages.push(("another kind", kind));
            for (what, message) in messages {
                for (i, replica) in replicas_of(draft.leaders[slot].signers).iter().enumerate() {
                    let mut other = draft.clone();
                    *signature(&mut other, Slot::Vote(slot, i)) =
                        signer.clone().sign(*replica, &message);
                    self.forgery(&format!("vote {slot} {i} on {what}"), signer, &other);
                }
            }
        }
    }

    /// Right signatures by another replica or in another order.
    fn other_signers(&mut self, signer: &Signer) {
        let draft = whole(signer);
        for slot in 0..2 {
            let mut other = draft.clone();
            other.leaders[slot].signatures.swap(0, 1);
            self.forgery("votes in falling order", signer, &other);
            // The certificate names other signers than those who signed.
            let mut other = draft.clone();
            other.leaders[slot].signers = signer.all() & !(other.leaders[slot].signers)
                | 1 << (other.leaders[slot].vote.candidate - 1);
            self.forgery("another signer named", signer, &other);
            for replica in 1..=signer.n() as u16 {
                if replica != draft.leaders[slot].vote.candidate {
                    let mut other = draft.clone();
                    let end = [2, 3][slot];
                    let at = Position {
                        term: draft.records[end - 1].term,
                        index: end as u32,
                        pointer: pointers(&draft.records)[end],
                    };
                    other.stamps[slot] =
                        signer.clone().sign(replica, &statement::stamp(&signer.name, &at));
                    self.forgery("stamp by another replica", signer, &other);
                }
            }
        }
        let mut other = draft.clone();
        other.stamps.swap(0, 1);
        self.forgery("stamps exchanged", signer, &other);
        let mut other = draft.clone();
        other.commit.as_mut().expect("a commit certificate").signatures.swap(0, 1);
        self.forgery("receipts in falling order", signer, &other);
        for index in [1, 3] {
            let mut other = draft.clone();
            other.commit.as_mut().expect("a commit certificate").index = index;
            self.forgery("receipts for another record", signer, &other);
        }
        // A last record that nothing but the stamp is made on.
        for base in [small(&signer.clone()), draft] {
            let mut other = base;
            other.records.last_mut().expect("a record").payload[0] ^= 1;
            self.forgery("another last payload", signer, &other);
        }
    }
}

/// Every signature of the draft.
fn slots(draft: &Draft) -> Vec<Slot> {
    let mut slots = Vec::new();
    for (i, leader) in draft.leaders.iter().enumerate() {
        slots.extend((0..leader.signatures.len()).map(|signer| Slot::Vote(i, signer)));
    }
    slots.extend((0..draft.stamps.len()).map(Slot::Stamp));
    let receipts = draft.commit.as_ref().map_or(0, |commit| commit.signatures.len());
    slots.extend((0..receipts).map(Slot::Receipt));
    slots
}

fn signature(draft: &mut Draft, slot: Slot) -> &mut Vec<u8> {
    match slot {
        Slot::Vote(i, signer) => &mut draft.leaders[i].signatures[signer],
        Slot::Stamp(i) => &mut draft.stamps[i],
        Slot::Receipt(signer) => {
            &mut draft.commit.as_mut().expect("a commit certificate").signatures[signer]
        }
    }
}
