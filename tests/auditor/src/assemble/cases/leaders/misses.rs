//! What may stand in the place of a vote for a candidate or of its stamp, so that it does not lead.

use super::super::bags::passed_over;
use super::super::scene::{spoiled, Made, Scene, SPOILS};
use crate::assemble::items::Item;
use crate::random::Random;
use crate::statement::{Position, Statement, Vote};

/// In words, and the item that comes in the other's place, if one does.
pub type Miss = (String, Option<Made>);

/// Of four replicas the candidate, a higher one, and one that votes for the higher one alone.
pub const LOWER: u16 = 2;
pub const HIGHER: u16 = 3;
const FOURTH: u16 = 4;

/// Votes that do not fit.
const VOTES: [(&str, fn(&mut Vote)); 14] = [
    ("candidate 0", |vote| vote.candidate = 0),
    ("candidate 1", |vote| vote.candidate = 1),
    ("the higher candidate", |vote| vote.candidate = HIGHER),
    ("candidate n + 1", |vote| vote.candidate = FOURTH + 1),
    ("candidate 256 + k", |vote| vote.candidate += 256),
    ("the term before", |vote| vote.term -= 1),
    ("a term of a higher byte", |vote| vote.term += 1 << 24),
    ("the next last term", |vote| vote.last_term += 1),
    ("a last term of a higher byte", |vote| vote.last_term += 1 << 24),
    ("the next last index", |vote| vote.last_index += 1),
    ("a last index of a higher byte", |vote| vote.last_index += 1 << 24),
    ("another first byte of the pointer", |vote| vote.last_pointer[0] ^= 1),
    ("another last byte of the pointer", |vote| vote.last_pointer[31] ^= 0x80),
    ("the next term, on an empty log", |vote| {
        *vote = Vote { last_term: 0, last_index: 0, last_pointer: [0; 32], ..*vote };
        vote.term += 1;
    }),
];

/// Stamps that do not fit; the position is that of the term's last record.
const STAMPS: [(&str, fn(&Scene, &mut Position)); 8] = [
    ("on another record of the term", |scene, at| *at = scene.at(at.index as usize - 1)),
    ("with the next term", |_, at| at.term += 1),
    ("with a term of a higher byte", |_, at| at.term += 1 << 24),
    ("with the next index", |_, at| at.index += 1),
    ("with an index of a higher byte", |_, at| at.index += 1 << 16),
    ("with another first byte of the pointer", |_, at| at.pointer[0] ^= 0x80),
    ("with another last byte of the pointer", |_, at| at.pointer[31] ^= 1),
    ("with the pointer before", |scene, at| at.pointer = scene.at(at.index as usize - 1).pointer),
];

/// An item that counts, if it fits: each is signed as if alone.
fn signed(scene: &Scene, replica: u16, statement: &Statement) -> Option<Made> {
    Some(Made { item: scene.clone().item(replica, statement), good: true })
}

/// In place of replica k's vote for the lower candidate of the i-th term.
pub fn of_vote(scene: &Scene, i: usize, k: u16, random: &mut Random) -> Vec<Miss> {
    let vote = scene.vote(i, LOWER);
    let right = scene.clone().item(k, &Statement::Vote(vote));
    let mut misses = of_any(scene, &right, random);
    for (what, change) in VOTES {
        let mut other = vote;
        change(&mut other);
        misses.push((what.into(), signed(scene, k, &Statement::Vote(other))));
    }
    // Replicas are counted, and not items.
    let other = if k == 1 { 3 } else { 1 };
    let signature = scene.clone().signer.sign_again(other, &right.statement, 1);
    let again = Item { replica: other, signature, ..right };
    misses.push((format!("a second vote of {other}"), Some(Made { item: again, good: true })));
    if k == LOWER {
        // A quorum is left, and the candidate's own vote is not among it.
        let fourth = signed(scene, FOURTH, &Statement::Vote(vote));
        misses.push((format!("a vote of {FOURTH}"), fourth));
    }
    misses.into_iter().map(|(what, made)| (format!("vote of {k}: {what}"), made)).collect()
}

/// In place of the lower candidate's stamp of the i-th term.
pub fn of_stamp(scene: &Scene, i: usize, random: &mut Random) -> Vec<Miss> {
    let stamp = scene.stamp(i);
    let Statement::Stamp(last) = stamp else { unreachable!("a stamp") };
    let mut misses = of_any(scene, &scene.clone().item(LOWER, &stamp), random);
    for (what, change) in STAMPS {
        let mut at = last;
        change(scene, &mut at);
        misses.push((what.into(), signed(scene, LOWER, &Statement::Stamp(at))));
    }
    let before = scene.at(scene.vote(i, LOWER).last_index as usize);
    let before = signed(scene, LOWER, &Statement::Stamp(before));
    misses.push(("on the record before the term".into(), before));
    for other in [1, HIGHER, FOURTH] {
        misses.push((format!("by replica {other}"), signed(scene, other, &stamp)));
    }
    let receipt = signed(scene, LOWER, &Statement::Receipt(last));
    misses.push(("a receipt".into(), receipt));
    misses.into_iter().map(|(what, made)| (format!("stamp: {what}"), made)).collect()
}

/// In place of any item: nothing, a bad signature, and what is passed over.
fn of_any(scene: &Scene, right: &Item, random: &mut Random) -> Vec<Miss> {
    let mut misses = vec![("none".into(), None)];
    let bad = |item| Some(Made { item, good: false });
    for spoil in SPOILS {
        let item = spoiled(&scene.clone().signer, right, spoil, random);
        misses.push((format!("spoiled, {spoil:?}"), bad(item)));
    }
    let passed_over = passed_over(&scene.clone(), right).into_iter();
    misses.extend(passed_over.map(|(what, item)| (what, bad(item))));
    misses
}
