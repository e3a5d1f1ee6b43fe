//! hirelog audit: two submissions against a roster.

use crate::answer::{Answer, Failure, RefusedFile, Remark, Status};
use crate::files::{grouped, in_folder, read_all, Input};
use crate::usage::{wrong_count, Command, Run};
use crate::{assemble, district, hints, json};
use hirelog::numbers::Number;
use hirelog::{Findings, Place, Refusal, Refused, SUBMISSION_MAX, SUBMISSION_MIN};
use std::path::PathBuf;

pub const COMMAND: Command = Command {
    name: "audit",
    forms: &["FOLDER", "ROSTER FIRST SECOND"],
    purpose: "audits two submissions: where they part, and which boards are named",
    help: "\
Audits two submissions against the roster of their district. FOLDER has the
files roster, first and second; or name the three files. It prints the lines of
document 01's program:

  refusal N in P         N: 0 if nothing was refused, else the number that says
                         why. P: 1 or 2 for the submission that was refused,
                         else 0
  fork I                 the first index at which both submissions committed
                         different records, 0 if there is none
  board K rule R term T  for each board named: of the rules that it broke the
                         first in the order 2, 1, 3, 4, 5, and the lowest term
                         for that rule; with rule 5 T is no term, but the
                         lowest leaf number of the board's key that it used for
                         two messages

Which submission is named first matters for rules 3 and 4 alone, which are one
rule with the submissions exchanged; and where both would be refused, for then
the first is told.
",
    statuses: &[
        (Status::NothingFound, "nothing found: both submissions accepted, no board named"),
        (Status::Named, "a board is named"),
        (Status::Refused, "the roster or a submission was refused"),
    ],
    run: Run::Reads(run),
};

/// The files of an audit, as the folder has them.
pub const FILES: [&str; 3] = ["roster", "first", "second"];

/// What each of them is, for a sentence.
const SUBJECTS: [&str; 3] = ["roster", "first submission", "second submission"];

/// What can be done about a folder that has not these files.
const INSTEAD: &str = "name the three files (hirelog audit ROSTER FIRST SECOND)";

/// Audits a folder, or three files. Whatever is longer than a submission may be gets the number of
/// its size: 2 for the roster, 5 for a submission.
fn run(operands: &[PathBuf]) -> Result<Answer, Failure> {
    let paths = match operands {
        [folder] => in_folder(folder, FILES, INSTEAD).map_err(|mut failure| {
            failure.messages.extend(hints::other_folder(folder, &district::FILES, "district"));
            failure.messages.extend(hints::other_folder(folder, &assemble::FILES, "assemble"));
            failure
        })?,
        [roster, first, second] => [roster.clone(), first.clone(), second.clone()],
        _ => return Err(wrong_count(&COMMAND, operands.len())),
    };
    let files = read_all(paths, SUBMISSION_MAX)?;
    let [roster, first, second] = &files;
    Ok(match hirelog::audit(&roster.bytes, &first.bytes, &second.bytes) {
        Ok(found) => accepted(&files, &found),
        Err(refused) => refusal(&files, &refused),
    })
}

/// The answer where both submissions were accepted.
fn accepted(files: &[Input; 3], found: &Findings) -> Answer {
    let named = found.named().next().is_some();
    let mut lines = vec!["refusal 0 in 0".into(), format!("fork {}", found.fork.unwrap_or(0))];
    let mut remarks = vec![number_remark(&lines[0], 0), fork_remark(&lines[1], found.fork, named)];
    for (replica, charge) in found.named() {
        let line = format!("board {replica} rule {} term {}", charge.rule, charge.term);
        let mut meaning = charge.sentence(replica);
        if let Some(others) = charge.others(replica) {
            meaning += &format!(" {others}");
        }
        remarks.push(Remark { line: line.clone(), meaning, advice: charge.advice(replica) });
        lines.push(line);
    }
    Answer {
        status: if named { Status::Named } else { Status::NothingFound },
        lines: joined(&lines),
        members: members(files, 0, Place::Roster, Some(found)),
        remarks,
        refused: Vec::new(),
        hints: hints::same_bytes(&files[1..]),
    }
}

/// The answer where the roster or a submission was refused.
fn refusal(files: &[Input; 3], refused: &Refused) -> Answer {
    let (number, place) = (u32::from(refused.refusal.number()), refused.place);
    let lines = [format!("refusal {number} in {}", place as u8), "fork 0".into()];
    let mut about_number = number_remark(&lines[0], number);
    let file = &files[place as usize];
    let mut why = about_number.meaning;
    if refused.refusal == Refusal::Size {
        why += &which_side(file);
    }
    let told = format!(
        "{} {} was refused: number {number}, {}",
        SUBJECTS[place as usize],
        file.described(),
        refused.refusal.word()
    );
    about_number.meaning = format!("The {told}. {why}");
    let about_fork = Remark {
        line: lines[1].clone(),
        meaning: "After a refusal nothing is compared, so that this 0 says nothing of the logs. \
            Nor does a refusal say anything of a board: whoever sent the file can have changed it."
            .into(),
        advice: "Audit again when what was refused is mended.".into(),
    };
    Answer {
        status: Status::Refused,
        lines: joined(&lines),
        members: members(files, number, place, None),
        remarks: vec![about_number, about_fork],
        refused: vec![RefusedFile { told: format!("the {told}"), why }],
        hints: hints::refused_audit(files, refused),
    }
}

/// Which of the two limits of number 5 a submission does not keep.
pub fn which_side(submission: &Input) -> String {
    if submission.is_long() {
        format!(" This one has more than {}.", grouped(SUBMISSION_MAX))
    } else {
        format!(" This one has fewer than {SUBMISSION_MIN}.")
    }
}

/// Lines as they are printed.
pub fn joined(lines: &[String]) -> Vec<u8> {
    (lines.join("\n") + "\n").into_bytes()
}

/// What the table says of a number.
pub fn number_remark(line: &str, number: u32) -> Remark {
    let row = Number::of(number).expect("a row for each number");
    Remark { line: line.into(), meaning: row.meaning.into(), advice: row.advice.into() }
}

/// What the fork index says, and whether nobody is named.
fn fork_remark(line: &str, fork: Option<u32>, named: bool) -> Remark {
    let (mut meaning, mut advice) = match fork {
        Some(index) => (
            format!("Both submissions committed a record at index {index}, and not the same one."),
            format!("Rely on neither log from index {index} on until it is known which is right."),
        ),
        None => (
            "There is no index at which both submissions committed different records.".into(),
            "Nothing.".into(),
        ),
    };
    if !named {
        meaning += " No board is named: nothing in the one contradicts the other, and no leaf of \
            a board's key was used for two messages.";
        advice += " Other submissions of the district may still show something.";
    }
    Remark { line: line.into(), meaning, advice }
}

/// The answer as members of an object.
fn members(
    files: &[Input; 3],
    number: u32,
    place: Place,
    found: Option<&Findings>,
) -> Vec<(&'static str, String)> {
    let row = Number::of(number).expect("a row for each number");
    let fork = found.and_then(|found| found.fork).unwrap_or(0);
    let named = found.into_iter().flat_map(Findings::named).map(|(replica, charge)| {
        json::object(&[
            ("board", replica.to_string()),
            ("rule", charge.rule.to_string()),
            ("term", charge.term.to_string()),
        ])
    });
    vec![
        ("number", number.to_string()),
        ("word", json::string(row.word)),
        ("place", (place as u8).to_string()),
        ("fork", fork.to_string()),
        ("named", json::array(named)),
        ("files", json::files(FILES, files)),
    ]
}
