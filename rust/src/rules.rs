//! The rules that two statements of one replica can break (document 01, The report; for rule 5
//! document 02, W5), in one table, and the order in which a charge is chosen among them (W6).

use crate::Charge;

/// A rule, what a replica did that broke it, and what to do then.
#[derive(Clone, Copy, Debug, PartialEq, Eq)]
pub struct Rule {
    pub rule: u8,
    /// A sentence with `{board}` and `{term}` where the charge's numbers belong.
    meaning: &'static str,
    /// What to do beside what every rule asks for: nothing, or a sentence.
    besides: &'static str,
}

/// All rules, from 1 on.
pub const RULES: &[Rule] = &[
    Rule {
        rule: 1,
        meaning: "Board {board} cast two different votes in term {term}: for two candidates, or \
            for one candidate, but not with the same last term, last index and last pointer.",
        besides: "",
    },
    Rule {
        rule: 2,
        meaning: "Board {board} stamped two logs as leader of term {term}, and they differ in a \
            record that both stamps cover.",
        besides: "",
    },
    Rule {
        rule: 3,
        meaning: "Board {board} gave a receipt for a record, which the first submission has, and \
            later, in term {term}, voted for a candidate whose log was staler than that record: \
            the second submission has the vote.",
        besides: "",
    },
    Rule {
        rule: 4,
        meaning: "Board {board} gave a receipt for a record, which the second submission has, and \
            later, in term {term}, voted for a candidate whose log was staler than that record: \
            the first submission has the vote.",
        besides: "",
    },
    Rule {
        rule: 5,
        meaning: "Board {board} signed two different messages with leaf {term} of its key, which \
            is for one: both signatures are in the first submission, both in the second, or one \
            in each. The number in the line is this leaf's, not a term's.",
        besides: "Trust no signature under its key any more: it needs a new one.",
    },
];

/// The order of the rules (document 02, W6): a charge has the first that its replica broke.
pub const ORDER: [u8; 5] = [2, 1, 3, 4, 5];

impl Rule {
    /// The row of this rule, if there is one.
    pub fn of(rule: u8) -> Option<&'static Rule> {
        RULES.iter().find(|row| row.rule == rule)
    }
}

impl Charge {
    /// What the replica did, in a sentence; output says board for replica, as document 01 does.
    pub fn sentence(&self, replica: usize) -> String {
        let Some(row) = Rule::of(self.rule) else {
            return format!("Board {replica} broke rule {} in term {}.", self.rule, self.term);
        };
        let told = row.meaning.replace("{board}", &replica.to_string());
        told.replace("{term}", &self.term.to_string())
    }

    /// What the charge leaves open: which other rules the replica may have broken too. It did not
    /// break those that come before in the order, for else it would be charged with one of them.
    /// Nothing for a number that is no rule's.
    pub fn others(&self, replica: usize) -> Option<String> {
        let place = ORDER.iter().position(|rule| *rule == self.rule)?;
        let not_broken = one_of(&ORDER[..place]).map(|rules| format!("did not break rule {rules}"));
        let untold =
            one_of(&ORDER[place + 1..]).map(|rules| format!("may have broken rule {rules} too"));
        let clauses: Vec<String> = not_broken.into_iter().chain(untold).collect();
        Some(format!(
            "Of the rules that a board broke its line has the first in the order {}. In these \
             submissions, first and second as given, board {replica} {}.",
            ORDER.map(|rule| rule.to_string()).join(", "),
            clauses.join(", and ")
        ))
    }

    /// What to do about it, after an audit of two submissions.
    pub fn advice(&self, replica: usize) -> String {
        let advice = format!(
            "Have board {replica} taken out of use and looked at. Keep the roster and both \
             submissions as they are: they are the proof."
        );
        match Rule::of(self.rule).map_or("", |row| row.besides) {
            "" => advice,
            besides => format!("{advice} {besides}"),
        }
    }
}

/// Rules as a sentence lists them, as in `3, 4 or 5`; nothing if there are none.
fn one_of(rules: &[u8]) -> Option<String> {
    let (last, before) = rules.split_last()?;
    let before: Vec<String> = before.iter().map(u8::to_string).collect();
    Some(match before.is_empty() {
        true => last.to_string(),
        false => format!("{} or {last}", before.join(", ")),
    })
}

#[cfg(test)]
mod tests {
    use super::*;
    use crate::sys::{
        RULE_ONE_LEAF, RULE_STALE_VOTE, RULE_STALE_VOTE_EXCHANGED, RULE_TWO_STAMPS, RULE_TWO_VOTES,
    };

    /// Each rule from 1 to 5 has a row, at its place, and its sentence says both numbers, that of
    /// rule 5 as a leaf's.
    #[test]
    fn rows() {
        assert_eq!(RULES.len(), 5);
        for (rule, row) in (1..).zip(RULES) {
            assert_eq!((row.rule, Rule::of(rule)), (rule, Some(row)));
            let told = Charge { rule, term: 4711 }.sentence(8);
            let second = if rule == RULE_ONE_LEAF { "leaf 4711" } else { "term 4711" };
            assert!(told.starts_with("Board 8 ") && told.contains(second), "{told}");
            assert!(told.ends_with('.') && !told.contains(['{', '}']), "{told}");
        }
        assert_eq!(Rule::of(6), None);
        assert!(Charge { rule: 9, term: 1 }.sentence(2).contains("rule 9"));
    }

    /// The order has each rule of the table once, stamps before votes and leaves last.
    #[test]
    fn order() {
        let mut sorted = ORDER;
        sorted.sort_unstable();
        assert_eq!(sorted.as_slice(), RULES.iter().map(|row| row.rule).collect::<Vec<_>>());
        assert_eq!(ORDER[..2], [RULE_TWO_STAMPS, RULE_TWO_VOTES]);
        assert_eq!(ORDER[2..], [RULE_STALE_VOTE, RULE_STALE_VOTE_EXCHANGED, RULE_ONE_LEAF]);
    }

    /// Each rule's sentence names the replica, as not broken exactly the earlier rules, and as open
    /// exactly the later ones.
    #[test]
    fn others() {
        let rules_in = |text: &str| -> Vec<u8> {
            text.chars().filter_map(|c| c.to_digit(10)).map(|digit| digit as u8).collect()
        };
        for (rule, earlier, later) in [
            (2, &[][..], &[1, 3, 4, 5][..]),
            (1, &[2], &[3, 4, 5]),
            (3, &[2, 1], &[4, 5]),
            (4, &[2, 1, 3], &[5]),
            (5, &[2, 1, 3, 4], &[]),
        ] {
            let told = Charge { rule, term: 4711 }.others(8).expect("a sentence");
            let (why, what) = told
                .split_once(". In these submissions, first and second as given, board 8 ")
                .expect("two parts");
            assert_eq!(rules_in(why), [2, 1, 3, 4, 5], "{told}");
            let at = what.find("may have broken").unwrap_or(what.len());
            assert_eq!(rules_in(&what[..at]), earlier, "{told}");
            assert_eq!(rules_in(&what[at..]), later, "{told}");
            assert_eq!(what.contains("did not break rule "), !earlier.is_empty(), "{told}");
        }
        let told = Charge { rule: 1, term: 1 }.others(3).expect("a sentence");
        let end = "board 3 did not break rule 2, and may have broken rule 3, 4 or 5 too.";
        assert!(told.ends_with(end), "{told}");
        for rule in [0, 6, 9] {
            assert_eq!(Charge { rule, term: 1 }.others(3), None);
        }
    }

    /// What to do names the replica; after a leaf was used twice its key is to be given up, too.
    #[test]
    fn advice() {
        for rule in 1..10 {
            let advice = Charge { rule, term: 0 }.advice(3);
            assert!(advice.starts_with("Have board 3 ") && advice.ends_with('.'), "{advice}");
            assert_eq!(advice.contains("it needs a new one"), rule == RULE_ONE_LEAF, "{advice}");
        }
    }
}
