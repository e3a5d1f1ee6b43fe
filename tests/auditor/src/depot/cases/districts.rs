//! Simulated districts: what their replicas can submit, in any number and order, with submissions
//! refused in every pattern.

use super::refused::{number_in_turn, refused};
use super::{Cases, Expect};
use crate::build::Draft;
use crate::cases::Size;
use crate::depot::{FEWEST, MOST};
use crate::district::{shuffle, two_of, Claim, District};
use crate::random::Random;

/// Which submissions of a list are refused.
#[derive(Clone, Copy, Debug)]
enum Pattern {
    None,
    First,
    Middle,
    Last,
    Any,
    AllButTwo,
    AllButOne,
    All,
}

const PATTERNS: [Pattern; 8] = [
    Pattern::None,
    Pattern::First,
    Pattern::Middle,
    Pattern::Last,
    Pattern::Any,
    Pattern::AllButTwo,
    Pattern::AllButOne,
    Pattern::All,
];

impl Pattern {
    /// Whether each of so many submissions is refused.
    fn of(self, count: usize, random: &mut Random) -> Vec<bool> {
        let at: Vec<usize> = match self {
            Pattern::None => Vec::new(),
            Pattern::First => vec![0],
            Pattern::Middle => vec![count / 2],
            Pattern::Last => vec![count - 1],
            Pattern::Any => (0..count).filter(|_| random.below(3) == 0).collect(),
            Pattern::AllButTwo | Pattern::AllButOne | Pattern::All => {
                let mut places: Vec<usize> = (0..count).collect();
                shuffle(&mut places, random);
                places.split_off(match self {
                    Pattern::AllButTwo => 2,
                    Pattern::AllButOne => 1,
                    _ => 0,
                })
            }
        };
        (0..count).map(|i| at.contains(&i)).collect()
    }
}

/// So many of the claims, more often than not two among them with commits whose logs part.
fn chosen<'a>(claims: &'a [Claim], count: usize, random: &mut Random) -> Vec<&'a Claim> {
    let Some((a, b)) = two_of(claims, random) else {
        return Vec::new();
    };
    let mut chosen = vec![a, b];
    chosen.extend((2..count).map(|_| &claims[random.below(claims.len())]));
    shuffle(&mut chosen, random);
    chosen
}

impl Cases<'_> {
    /// Districts of every size with no cheat, some, and cheats only.
    pub fn districts(&mut self) {
        let mut turn = self.random.below(PATTERNS.len());
        for n in 3..=9 {
            for round in 0..self.count(if n < 6 { 32 } else { 16 }) {
                let cheats = match self.size {
                    Size::Full => round % (n + 1),
                    Size::Small => self.random.below(n + 1),
                };
                let district = District::simulate(n, cheats, &mut self.random);
                let claims = district.claims(&mut self.random);
                let cluster = self.keys.cluster_with(n, district.leaves());
                let (roster, signer) = (cluster.roster(), district.signer(&cluster));
                for _ in 0..3 {
                    let count = FEWEST + self.random.below(MOST - FEWEST + 1);
                    let list = chosen(&claims, count, &mut self.random);
                    let drafts: Vec<Draft> =
                        list.into_iter().map(|claim| claim.draft(&signer)).collect();
                    if drafts.is_empty() {
                        break;
                    }
                    turn += 1;
                    let pattern = PATTERNS[turn % PATTERNS.len()];
                    let mut numbers = Vec::new();
                    let mut submissions = Vec::new();
                    let bad = pattern.of(count, &mut self.random);
                    for (i, (draft, bad)) in drafts.iter().zip(bad).enumerate() {
                        let number = if bad { number_in_turn(turn + i) } else { 0 };
                        numbers.push(number);
                        submissions.push(match bad {
                            true => refused(&cluster, draft, number),
                            false => draft.bytes(),
                        });
                    }
                    let name = format!(
                        "district {round} of {n} with {cheats} cheats, {count} submissions, \
                         refused {pattern:?}"
                    );
                    let expect = Expect::Honest(numbers, district.honest);
                    self.run(&name, &roster, &submissions, expect);
                }
            }
        }
    }
}
