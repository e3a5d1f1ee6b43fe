//! Examples as a file of the proof language.

use super::{Act, Example, Group, Message, State};
use crate::sha256::Digest;
use crate::statement::{Record, Vote};

/// The widest line, in characters.
const WIDTH: usize = 110;

const HEAD: &str = "\
-- Acts on many states, and the state after each, or none where the board rules forbid it: \
   by the separately
-- written auditor's own rules. Made by `replica_acts` of tests/auditor; \
   the gate makes it anew and compares.
-- Assumes nothing.
use mathlib.Core.List.{List, [], ◌∷◌, ◌++◌}
use mathlib.Core.Option.{some, none}
use Rattle.replica.specs.Replica.{raise, vote, run, add, stamp, receipt, decline, restart}
use Rattle.replica.proofs.Case.{Case, given, state, ballot, of, used, voted, stamped, received}
";

/// A list for each group, and one of them all.
pub fn file(groups: &[Group]) -> String {
    let mut text = HEAD.to_string();
    for group in groups {
        let Group { name, about, .. } = group;
        text += &format!("\n-- {about}\nunfoldable pub {name} : List Case\n{name} =\n");
        for (i, example) in group.examples.iter().enumerate() {
            text += &lines_of(example, if i == 0 { "" } else { "∷ " });
        }
        text += "    ∷ []\n";
    }
    let names: Vec<&str> = groups.iter().map(|group| group.name).collect();
    let all = names.join(" ++ ");
    text + &format!("\n-- all of them\nunfoldable pub cases : List Case\ncases = {all}\n")
}

/// The lines of an example: one for the state, one for the act and one for the state after it.
fn lines_of(example: &Example, before: &str) -> String {
    let mut given = vec![format!("{before}given"), example.n.to_string()];
    given.extend(words_of_state(&example.state, ")"));
    filled(&given) + &filled(&words_of_act(&example.act)) + &filled(&words_of_after(example))
}

/// The words one space apart, broken before a word where the line would be too wide; every line
/// stands four to the right, as the formatter of the proof language wants it.
fn filled(words: &[String]) -> String {
    let mut text = String::new();
    let mut line = format!("    {}", words[0]);
    for word in &words[1..] {
        if line.chars().count() + 1 + word.chars().count() > WIDTH {
            text += &format!("{line}\n");
            line = format!("    {word}");
        } else {
            line += &format!(" {word}");
        }
    }
    text + &line + "\n"
}

/// A state's words, with what closes it and what it stands in.
fn words_of_state(state: &State, close: &str) -> Vec<String> {
    vec![
        "(state".to_string(),
        state.term.to_string(),
        state.last_vote.map_or("none".to_string(), |vote| format!("(some {})", ballot(&vote))),
        state.last_stamp.map_or("none".to_string(), |term| format!("(some {term})")),
        log(&state.log),
        leaves(&state.used) + close,
    ]
}

fn words_of_act(act: &Act) -> Vec<String> {
    match act {
        Act::Raise(term) => vec![format!("(raise {term})")],
        Act::Vote(leaf, vote) => vec![format!("(vote {leaf} {})", ballot(vote))],
        Act::Take(keep, run) => vec!["(run".to_string(), keep.to_string(), log(run) + ")"],
        Act::Add(record) => vec![format!("(add ({}))", of(record))],
        Act::Stamp(leaf) => vec![format!("(stamp {leaf})")],
        Act::Receipt(leaf, index) => vec![format!("(receipt {leaf} {index})")],
        Act::Decline => vec!["decline".to_string()],
        Act::Restart => vec!["restart".to_string()],
    }
}

fn words_of_after(example: &Example) -> Vec<String> {
    let Some(after) = &example.after else {
        return vec!["none".to_string()];
    };
    let mut words = vec!["(some".to_string()];
    words.extend(words_of_state(after, "))"));
    words
}

fn ballot(vote: &Vote) -> String {
    let Vote { candidate, term, last_term, last_index, last_pointer } = vote;
    format!("(ballot {candidate} {term} {last_term} {last_index} {})", first_byte(last_pointer))
}

fn log(records: &[Record]) -> String {
    list(records.iter().map(of).collect())
}

/// Leaves that are used, each with what it has signed.
fn leaves(used: &[(u32, Message)]) -> String {
    let one = |(leaf, message): &(u32, Message)| {
        let message = match message {
            Message::Vote(vote) => format!("voted {}", ballot(vote)),
            Message::Stamp(records) => format!("stamped {}", log(records)),
            Message::Receipt(records) => format!("received {}", log(records)),
        };
        format!("used {leaf} ({message})")
    };
    list(used.iter().map(one).collect())
}

fn list(elements: Vec<String>) -> String {
    match elements[..] {
        [] => "[]".to_string(),
        _ => format!("({} ∷ [])", elements.join(" ∷ ")),
    }
}

fn of(record: &Record) -> String {
    format!("of {} {}", record.term, first_byte(&record.payload))
}

/// The one byte of a digest that is written.
fn first_byte(digest: &Digest) -> u8 {
    assert_eq!(digest[1..], [0; 31], "the file has a digest's first byte only");
    digest[0]
}
