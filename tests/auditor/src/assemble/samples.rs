//! The calls that make_cases writes: the sample of the folder samples, more that are tested, and the
//! largest bag, for the measurement of speed. All of them follow from fixed labels, so they are always
//! the same.

use super::cases::scene::{spoiled, Scene, Spoil};
use super::items::{self, Item};
use crate::build::{ends, log, log_bytes};
use crate::cases::accepted::{largest, largest_log, LARGEST_LEAVES};
use crate::cases::{empty, whole};
use crate::cluster::{Cluster, Keys};
use crate::district::shuffle;
use crate::random::Random;
use crate::signer::Signer;
use crate::statement::Statement;
use std::rc::Rc;

/// A roster, a log and a bag.
pub struct Files {
    pub folder: &'static str,
    pub roster: Vec<u8>,
    pub log: Vec<u8>,
    pub items: Vec<u8>,
}

impl Files {
    fn of(folder: &'static str, scene: &Scene) -> Files {
        Files {
            folder,
            roster: scene.signer.roster(),
            log: log_bytes(&scene.records),
            items: scene.bytes(),
        }
    }
}

/// The cluster of the sample: four replicas, trees of height 5.
fn four() -> Rc<Cluster> {
    Keys::new("samples").cluster_with(4, 12)
}

/// What stands in samples/assemble: four replicas, three records and two terms. In term 1 replica 1
/// leads. In term 3 replica 2 has stamped and has too few votes, and replica 4 leads. There are enough
/// receipts for record 2, and too few for record 3, for one that would do is of another cluster. Of
/// replica 2's vote in term 1 a damaged copy comes before the good one.
pub fn sample() -> Files {
    let signer = Signer::new(&four());
    let mut scene = Scene::new(&signer, &log(&[(1, "a"), (1, "b"), (3, "c")]));
    scene.add(0b1011, &scene.receipt(2));
    let vote = Statement::Vote(scene.vote(0, 1));
    let second = scene.item(2, &vote);
    let damaged = spoiled(&scene.signer, &second, Spoil::Bit, &mut Random::new(7));
    scene.add_bad(damaged);
    let mut elsewhere = scene.item(3, &scene.receipt(3));
    elsewhere.statement[1] ^= 1;
    elsewhere.signature = scene.signer.sign(3, &elsewhere.statement);
    scene.add_bad(elsewhere);
    scene.add(0b0111, &vote);
    scene.add(0b0110, &Statement::Vote(scene.vote(1, 2)));
    scene.add(0b0010, &scene.stamp(1));
    scene.add(0b0001, &scene.stamp(0));
    scene.add(0b1101, &Statement::Vote(scene.vote(1, 4)));
    scene.add(0b1000, &scene.stamp(1));
    scene.add(0b1001, &scene.receipt(3));
    Files::of("assemble", &scene)
}

/// More calls: some for each number, empty ones, and the largest.
pub fn more(cluster: &Rc<Cluster>, keys: &Keys) -> Vec<Files> {
    let signer = Signer::new(cluster);
    let right = Scene::of(&signer, &whole(&signer));
    let whole = || Files::of("whole", &right);
    let changed = |folder, change: fn(&mut Files)| {
        let mut files = Files { folder, ..whole() };
        change(&mut files);
        files
    };
    let tall = Signer::new(&keys.cluster_from_0(9, 9, LARGEST_LEAVES));
    let mut shuffled = right.clone();
    shuffled.shuffle(&mut Random::new(3));
    vec![
        whole(),
        Files::of("shuffled", &shuffled),
        Files::of("empty_log", &Scene::of(&signer, &empty(cluster))),
        changed("empty_log_full_bag", |files| files.log.clear()),
        Files::of("largest", &Scene::of(&tall, &largest(&tall))),
        changed("n02", |files| files.roster.truncate(files.roster.len() - 1)),
        changed("n02_no_roster", |files| files.roster.clear()),
        changed("n03", |files| files.roster[18 + 7] = 3),
        changed("n04", |files| files.roster.copy_within(18..18 + 56, 18 + 56)),
        changed("n08_cut", |files| files.log.truncate(files.log.len() - 1)),
        changed("n08_more", |files| files.log.push(0)),
        changed("n08_terms", |files| {
            let record = |term: u32| [&term.to_be_bytes()[..], &[7; 32]].concat();
            files.log = (1..=65).flat_map(record).collect();
        }),
        changed("n08_records", |files| files.log = [0, 0, 0, 1].repeat(9 * 4097)),
        changed("n11_zero", |files| files.log[3] = 0),
        changed("n11_falls", |files| files.log[2] = 1),
        changed("n19_cut", |files| files.items.truncate(files.items.len() - 1)),
        changed("n19_more", |files| files.items.push(0)),
        changed("n19_kind", |files| files.items[2] = 0),
        changed("n20_no_items", |files| files.items.clear()),
        changed("n20_bad_vote", |files| files.items[100] ^= 1),
    ]
}

/// The files of the largest bag, and the same shuffled: of nine replicas, 64 terms and 4,096 records
/// the votes of all for each term, its leader's stamp, and the receipts of all for each record, in the
/// order of a submission. All are good; a replica has but few leaves, for keys take long to make.
pub fn all_receipts() -> [Files; 2] {
    const LEAVES: u32 = 4;
    let cluster = Keys::new("all receipts").cluster_from_0(9, 9, LEAVES);
    let scene = Scene::new(&Signer::new(&cluster), &largest_log());
    let item = |replica: u16, statement: &Statement| {
        let statement = statement.bytes(&cluster.name);
        let leaf = statement.iter().map(|byte| u32::from(*byte)).sum::<u32>() % LEAVES;
        let signature = cluster.sign_with(replica, leaf, &statement);
        Item { replica, statement, signature }
    };
    let by_all = |statement: Statement| (1..=9).map(|k| item(k, &statement)).collect::<Vec<_>>();
    let terms = ends(&scene.records).len();
    let leader = |term: usize| term as u16 % 9 + 1;
    let mut bag = Vec::new();
    for term in 0..terms {
        bag.extend(by_all(Statement::Vote(scene.vote(term, leader(term)))));
    }
    for term in 0..terms {
        bag.push(item(leader(term), &scene.stamp(term)));
    }
    let positions = scene.positions();
    for at in &positions[1..] {
        bag.extend(by_all(Statement::Receipt(*at)));
    }
    let files = |folder, bag: &[Item]| Files {
        folder,
        roster: cluster.roster(),
        log: log_bytes(&scene.records),
        items: items::bytes(bag),
    };
    let in_order = files("all_receipts", &bag);
    shuffle(&mut bag, &mut Random::new(5));
    [in_order, files("all_receipts_shuffled", &bag)]
}

#[cfg(test)]
mod tests {
    use super::*;
    use crate::assemble::{assembled, lines, LONGEST};
    use crate::bytes::{u16_at, u32_at};
    use crate::roster::{signature_size, Roster};
    use crate::samples::{cluster, large_keys};
    use crate::submission::Submission;
    use crate::verdicts::Verdicts;

    /// The sample's leaders and commit.
    #[test]
    fn sample_is_telling() {
        let (files, mut verdicts) = (sample(), Verdicts::default());
        let Files { roster, log, items, .. } = &files;
        let written = assembled(roster, log, items, LONGEST, &mut verdicts).expect("a submission");
        let roster = Roster::read(roster).expect("a roster");
        let read = Submission::read(&roster, &written, &mut verdicts).expect("it is accepted");
        let leaders: Vec<(u16, u16)> =
            read.leaders.iter().map(|leader| (leader.vote.candidate, leader.signers)).collect();
        assert_eq!(leaders, [(1, 0b0111), (4, 0b1101)]);
        let commit = read.commit.expect("a commit");
        assert_eq!((commit.index, commit.signers), (2, 0b1011));
        let expected = "refusal 0\nlength 14466\nrecords 3\nterm 1 board 1 signers 1 2 3\n\
            term 3 board 4 signers 1 3 4\ncommit 2 signers 1 2 4\n";
        assert_eq!(lines(&files.roster, &Ok(written), &mut verdicts), expected);
        // The damaged copy stands before the good one, and the other cluster's item among them.
        let bag = items::read(items, roster.signature_size()).expect("items");
        let copies: Vec<&Item> =
            bag.iter().filter(|i| i.replica == 2 && i.statement == bag[3].statement).collect();
        assert_eq!(copies.len(), 2);
        let good: Vec<bool> = copies
            .iter()
            .map(|i| verdicts.good(roster.key(2), &i.statement, &i.signature))
            .collect();
        assert_eq!(good, [false, true]);
        let elsewhere = bag.iter().filter(|i| i.statement[1..17] != roster.name).count();
        assert_eq!((elsewhere, bag.len()), (1, 18));
    }

    /// What each is made for: the number that its folder's name has, or 0.
    #[test]
    fn numbers() {
        let mut verdicts = Verdicts::default();
        for Files { folder, roster, log, items } in more(&cluster(), &large_keys()) {
            let named = folder.strip_prefix('n').and_then(|rest| rest.get(..2));
            let right = named.map_or(0, |digits| digits.parse().expect("a number"));
            let found = assembled(&roster, &log, &items, LONGEST, &mut verdicts);
            assert_eq!(found.as_ref().err().copied().unwrap_or(0), right, "{folder}");
            let length = found.map_or(0, |written| written.len());
            assert_eq!(length == LONGEST, folder == "largest", "{folder}");
            assert_eq!(length == 44, folder.starts_with("empty_log"), "{folder}");
        }
    }

    /// The items in an order that does not hang on the bag's.
    fn sorted(bag: &[Item]) -> Vec<(u16, &[u8], &[u8])> {
        let mut items: Vec<(u16, &[u8], &[u8])> = bag
            .iter()
            .map(|item| (item.replica, &item.statement[..], &item.signature[..]))
            .collect();
        items.sort();
        items
    }

    /// After votes and stamps the receipts stand by index, then by replica; nine replicas lead; what is
    /// assembled is the longest, by 649 checks; and shuffled it is the same bag.
    #[test]
    fn largest_bag() {
        let [files, shuffled] = all_receipts();
        let size = signature_size(25);
        let bag = items::read(&files.items, size).expect("items");
        assert_eq!(bag.len(), 64 * 10 + 4096 * 9);
        assert_eq!(files.log.len(), 4096 * 36);
        for (i, item) in bag[640..].iter().enumerate() {
            let right = (2, i as u32 / 9 + 1, i as u16 % 9 + 1);
            assert_eq!((item.kind(), u32_at(&item.statement, 21), item.replica), right);
        }
        let mut leaders: Vec<u16> =
            bag[..576].iter().map(|item| u16_at(&item.statement, 17)).collect();
        leaders.sort();
        leaders.dedup();
        assert_eq!(leaders, (1..=9).collect::<Vec<u16>>());
        let mut verdicts = Verdicts::default();
        let Files { roster, log, items, .. } = &files;
        let written = assembled(roster, log, items, LONGEST, &mut verdicts).expect("a submission");
        assert_eq!((written.len(), verdicts.made()), (LONGEST, 649));
        let roster = Roster::read(roster).expect("a roster");
        for item in bag[640..].iter().step_by(401) {
            assert!(verdicts.good(roster.key(item.replica), &item.statement, &item.signature));
        }
        let other = items::read(&shuffled.items, size).expect("items");
        assert!(bag != other);
        assert!(sorted(&bag) == sorted(&other));
    }
}
