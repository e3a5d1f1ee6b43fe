//! The order for choosing a row (document 02, W6): 2, 1, 3, 4, 5. Replicas that break several
//! rules, and what their rows have, which was found by hand but for those of `drawn`.

mod drawn;
mod fixed;

use super::leaves::{sign_by, By};
use super::Cases;
use crate::build::{log, Draft};
use crate::roster::mask_of;
use crate::signer::Signer;

pub use fixed::PAIRS;

/// One submission: its records by term and payload, each term's candidate and signers, and the
/// commit's index and signers.
struct Side(&'static [(u32, &'static str)], &'static [(u16, u16)], Option<(u32, u16)>);

/// Two submissions of n replicas, what they show, and what of that stands in the rows.
pub struct Pair {
    name: &'static str,
    pub n: usize,
    first: Side,
    second: Side,
    /// Signatures by chosen leaves.
    uses: &'static [By],
    /// Every charge: the replica, the rule, and the term or leaf number. Where the submissions are
    /// exchanged, rule 3 is rule 4, and rule 4 is rule 3.
    charges: &'static [(u16, u8, u32)],
    pub fork: u32,
    /// The lines of the rows, in this order and exchanged.
    rows: [&'static str; 2],
}

impl Pair {
    /// What it is called in a set; a leaf that is used twice is said first.
    pub fn title(&self) -> String {
        let leaves = if self.uses.is_empty() { "" } else { "leaves: " };
        format!("{leaves}row order, {}", self.name)
    }

    pub fn drafts(&self, signer: &Signer) -> [Draft; 2] {
        let mut two = [&self.first, &self.second].map(|Side(records, leaders, commit)| {
            signer.submission(&log(records), leaders, *commit)
        });
        sign_by(signer, &mut two, self.uses);
        two
    }

    /// Whoever is charged, by whichever rule, as bits.
    pub fn named(&self) -> u16 {
        self.charges.iter().fold(0, |named, (replica, ..)| named | mask_of(&[*replica]))
    }
}

impl Cases<'_> {
    pub fn precedence(&mut self) {
        for pair in PAIRS {
            let signer = self.signer(pair.n, 5);
            let [a, b] = &pair.drafts(&signer);
            let (name, fork, [rows, exchanged]) = (pair.title(), pair.fork, pair.rows);
            self.lines(&name, &signer, a, b, &format!("fork {fork}\n{rows}"));
            let name = format!("{name}, exchanged");
            self.lines(&name, &signer, b, a, &format!("fork {fork}\n{exchanged}"));
        }
        self.everybody_votes();
        self.drawn_precedence();
    }

    /// Logs that part at index 1, and everybody votes in each term of both. So all have voted for
    /// two requests in terms 2 and 3, and whoever led a term has stamped two logs in it: the last
    /// replica in term 1, where rule 1 is not broken, one between in term 2, and replica 1 in term
    /// 3.
    fn everybody_votes(&mut self) {
        for n in 3..=9u16 {
            let signer = self.signer(n.into(), 5);
            let (all, between) = (signer.all(), n.div_ceil(2));
            let leaders = [(n, all), (between, all), (1, all)];
            let [a, b] = &["a", "b"].map(|payload| {
                signer.submission(&log(&[(1, payload), (2, "y"), (3, "z")]), &leaders, None)
            });
            let row = |k: u16| match k {
                1 => "board 1 rule 2 term 3\n".into(),
                k if k == between => format!("board {k} rule 2 term 2\n"),
                k if k == n => format!("board {k} rule 2 term 1\n"),
                k => format!("board {k} rule 1 term 2\n"),
            };
            let rest = format!("fork 0\n{}", (1..=n).map(row).collect::<String>());
            let name = format!("row order, everybody of {n} votes twice");
            self.lines(&name, &signer, a, b, &rest);
            self.lines(&format!("{name}, exchanged"), &signer, b, a, &rest);
        }
    }
}

#[cfg(test)]
mod tests;
