//! Who leads a term: candidates that miss by one thing, for each term of a log, alone and beside a
//! higher candidate who then leads.

mod misses;

use super::scene::{Made, Scene};
use super::{log_of, Cases};
use crate::statement::Statement;
use misses::{of_stamp, of_vote, Miss, HIGHER, LOWER};

/// The terms of the log: each has several records, so that it has one that is not its last.
const TERMS: [u32; 7] = [2, 2, 2, 5, 5, 9, 9];
const RUNS: usize = 3;

/// Who elects the lower candidate, just a quorum, and who the higher one.
const VOTERS: u16 = 0b0111;
const OTHERS: u16 = 0b1110;

/// The scene with something else, or nothing, in the place of an item.
fn with(scene: &Scene, at: usize, made: &Option<Made>) -> Scene {
    let mut scene = scene.clone();
    match made {
        Some(made) => scene.bag[at] = made.clone(),
        None => drop(scene.bag.remove(at)),
    }
    scene
}

impl Cases<'_> {
    pub fn leaders(&mut self) {
        self.lower_misses();
        self.several_candidates();
        self.numbers_of_nobody();
    }

    /// The lower candidate misses by one thing in one term: alone there is no leader, and beside a
    /// higher candidate that one leads.
    fn lower_misses(&mut self) {
        let signer = self.signer(4);
        let commit = Some((4, 0b1101));
        for i in 0..RUNS {
            let mut base = Scene::new(&signer, &log_of(&TERMS));
            // The items of the term that is looked at come first: votes of 1 to 3, and the stamp.
            for run in (0..RUNS).map(|run| (run + i) % RUNS) {
                base.elect(run, LOWER, VOTERS);
            }
            base.add(0b1101, &base.receipt(4));
            let mut both = base.clone();
            both.elect(i, HIGHER, OTHERS);
            self.writes("nothing misses", &base, &[(LOWER, VOTERS); RUNS], commit);
            self.writes("two candidates", &both, &[(LOWER, VOTERS); RUNS], commit);
            let mut misses: Vec<(usize, Miss)> = Vec::new();
            for (at, k) in [1, LOWER].into_iter().enumerate() {
                let votes = of_vote(&base, i, k, &mut self.random);
                misses.extend(votes.into_iter().map(|miss| (at, miss)));
            }
            let stamps = of_stamp(&base, i, &mut self.random);
            misses.extend(stamps.into_iter().map(|miss| (3, miss)));
            for (at, (what, made)) in self.some(misses, 8) {
                let mut alone = with(&base, at, &made);
                alone.shuffle(&mut self.random);
                self.refuses(&format!("term {i}, {what}"), &alone, 20);
                let mut higher = with(&both, at, &made);
                higher.shuffle(&mut self.random);
                let mut leaders = [(LOWER, VOTERS); RUNS];
                leaders[i] = (HIGHER, voters(&higher, i, HIGHER));
                let name = format!("term {i}, {what}, and a higher candidate");
                self.writes(&name, &higher, &leaders, commit);
            }
        }
    }

    /// Some candidates have all that is needed: the lowest leads, in whatever order the items are.
    fn several_candidates(&mut self) {
        let signer = self.signer(5);
        let sets: Vec<u16> = (0..1 << 5).collect();
        for set in self.some(sets, 5) {
            let mut scene = Scene::new(&signer, &log_of(&[3, 3]));
            let voters = |candidate: u16| 0b00111 | 1 << (candidate - 1);
            for candidate in (1..=5).rev() {
                let vote = Statement::Vote(scene.vote(0, candidate));
                scene.add(voters(candidate), &vote);
                if set >> (candidate - 1) & 1 == 1 {
                    scene.add(1 << (candidate - 1), &scene.stamp(0));
                }
            }
            let name = format!("stamps of {set:05b}");
            match (1..=5).find(|candidate| set >> (candidate - 1) & 1 == 1) {
                Some(lowest) => {
                    self.writes(&name, &scene, &[(lowest, voters(lowest))], None);
                    scene.shuffle(&mut self.random);
                    self.writes(&name, &scene, &[(lowest, voters(lowest))], None);
                }
                None => self.refuses(&name, &scene, 20),
            }
        }
        // The same with everybody's stamp, and quorums for some candidates alone.
        for set in self.some((0..1 << 5).collect(), 5) {
            let mut scene = Scene::new(&signer, &log_of(&[3, 3]));
            scene.add(0b11111, &scene.stamp(0));
            let has = |candidate: u16| set >> (candidate - 1) & 1 == 1;
            for candidate in 1..=5 {
                let others = 0b11111 & !(1 << (candidate - 1));
                let vote = Statement::Vote(scene.vote(0, candidate));
                // Just a quorum with the candidate's own; or all but the candidate.
                let own = 1 << (candidate - 1) | 1 << (candidate % 5) | 1 << ((candidate + 1) % 5);
                scene.add(if has(candidate) { own } else { others }, &vote);
            }
            scene.shuffle(&mut self.random);
            let name = format!("own votes of {set:05b}");
            match (1..=5).find(|candidate| has(*candidate)) {
                Some(lowest) => {
                    let own = 1 << (lowest - 1) | 1 << (lowest % 5) | 1 << ((lowest + 1) % 5);
                    self.writes(&name, &scene, &[(lowest, own)], None);
                }
                None => self.refuses(&name, &scene, 20),
            }
        }
    }

    /// Everybody votes for a candidate that no replica has, and stamps.
    fn numbers_of_nobody(&mut self) {
        for n in [3, 9] {
            let signer = self.signer(n);
            let n = n as u16;
            for candidate in [0, n + 1, 16, 17, 256, 257, 256 + n, 1 << 15, u16::MAX] {
                let mut scene = Scene::new(&signer, &log_of(&[1]));
                let vote = Statement::Vote(scene.vote(0, candidate));
                scene.add(signer.all(), &vote);
                scene.add(signer.all(), &scene.stamp(0));
                self.refuses(&format!("votes for {candidate} of {n}"), &scene, 20);
                scene.elect(0, n, signer.all());
                let name = format!("votes for {candidate}, and for {n}");
                self.writes(&name, &scene, &[(n, signer.all())], None);
            }
        }
    }
}

/// Whose votes for a candidate of the i-th term count; one that was put in another's place may too.
fn voters(scene: &Scene, i: usize, candidate: u16) -> u16 {
    let vote = Statement::Vote(scene.vote(i, candidate)).bytes(&scene.signer.name);
    let votes = scene.bag.iter().filter(|made| made.good && made.item.statement == vote);
    votes.fold(0, |mask, made| mask | 1 << (made.item.replica - 1))
}
