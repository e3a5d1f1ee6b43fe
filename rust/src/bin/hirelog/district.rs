//! hirelog district: two to nine submissions of a district at once.

use crate::answer::{Answer, Failure, RefusedFile, Remark, Status};
use crate::audit::{self, joined, number_remark, which_side};
use crate::files::{in_folder, list, read_each, unreadable, Input};
use crate::usage::{written, wrong_count, Command, Run};
use crate::{assemble, hints, json};
use hirelog::numbers::Number;
use hirelog::{District, DistrictRefused, Refusal, DISTRICT_MAX, SUBMISSION_MAX};
use std::io;
use std::path::{Path, PathBuf};

pub const COMMAND: Command = Command {
    name: "district",
    forms: &["FOLDER", "ROSTER FILE.."],
    purpose: "goes through two to nine submissions of a district at once",
    help: "\
Judges two to nine submissions of a district, each by itself, and audits every
two of those that are accepted. FOLDER has the files roster, 1, 2 and so on, up
to 9; or name the roster and each submission. It prints

  refusal N              0 if the run was made, else the number that says why
                         not, and no other line: 2 to 4 for the roster, 17 for
                         fewer than two or more than nine submissions
  submission I number M  for each submission, I from 1 in their order. M: 0 if
                         it was accepted, else the number that says why not;
                         then it is left out of what follows
  fork A B               the first two submissions, by their I, that committed
                         different records at one index; 0 0 if there are none
  board K                for each board named: it signed statements, in two of
                         the submissions, that contradict each other, or two
                         messages with one leaf of its key

Which rule a board broke, in which term or with which leaf, and at which index
two logs part says hirelog audit of the two; --explain gives a command line to
begin with. A message says why a submission was refused, also where a board is
named.
",
    statuses: &[
        (Status::NothingFound, "nothing found: all submissions accepted, no board named"),
        (Status::Named, "a board is named, also where a submission was refused"),
        (Status::Refused, "no board is named, and the run or a submission was refused"),
    ],
    run: Run::Reads(run),
};

/// The first files of a run, as the folder has them; the submissions go on with 3.
pub const FILES: [&str; 3] = ["roster", "1", "2"];

/// What can be done about a folder that has not these files.
const INSTEAD: &str = "name the files (hirelog district ROSTER FILE..)";

/// The highest number that counts as a submission's: a file 2026 is none that follows on 9.
const HIGHEST: usize = 99;

/// The files of a run: the roster, then the submissions, by their positions.
struct Files {
    /// All that were named.
    paths: Vec<PathBuf>,
    /// Those that were read: of too many submissions one too many.
    read: Vec<Input>,
    /// Names in the folder that begin with a digit and are no submission's.
    passed_by: Vec<String>,
}

impl Files {
    fn roster(&self) -> &Input {
        &self.read[0]
    }

    fn submissions(&self) -> &[Input] {
        &self.read[1..]
    }
}

/// Makes the run of a folder, or of a roster and submissions. How many submissions a run takes is
/// the library's to say. Whatever is longer than a submission may be gets the number of its size: 2
/// for the roster, 5 for a submission.
fn run(operands: &[PathBuf]) -> Result<Answer, Failure> {
    let (paths, passed_by) = match operands {
        [] => return Err(wrong_count(&COMMAND, 0)),
        [folder] => numbered(folder)?,
        _ => (operands.to_vec(), Vec::new()),
    };
    let taken = paths.iter().take(1 + DISTRICT_MAX + 1).cloned();
    let files = Files { read: read_each(taken, SUBMISSION_MAX)?, paths, passed_by };
    let bytes: Vec<&[u8]> = files.submissions().iter().map(|file| &file.bytes[..]).collect();
    Ok(match hirelog::district(&files.roster().bytes, &bytes) {
        Ok(found) => made(&files, &found),
        Err(refused) => refusal(&files, &refused),
    })
}

/// The folder's roster, and its submissions 1, 2, .. as far as they go, with the names that are
/// passed by; or says what is missing.
fn numbered(folder: &Path) -> Result<(Vec<PathBuf>, Vec<String>), Failure> {
    let [roster, ..] = in_folder(folder, FILES, INSTEAD).map_err(|mut failure| {
        if folder.join(FILES[0]).exists() {
            failure.messages.push("a run takes two submissions at least, 1 and 2".into());
        }
        failure.messages.extend(hints::other_folder(folder, &audit::FILES, "audit"));
        failure.messages.extend(hints::other_folder(folder, &assemble::FILES, "assemble"));
        failure
    })?;
    let failure = |message: String| Failure { status: Status::Unreadable, messages: vec![message] };
    let told = |error: io::Error| failure(format!("the folder {}", unreadable(folder, &error)));
    let (mut numbers, mut passed_by) = (Vec::new(), Vec::new());
    for entry in folder.read_dir().map_err(told)? {
        let name = entry.map_err(told)?.file_name();
        let name = name.to_string_lossy();
        match submission_number(&name) {
            Some(number) => numbers.push(number),
            None if name.starts_with(|c: char| c.is_ascii_digit()) => {
                passed_by.push(format!("{name:?}"))
            }
            None => {}
        }
    }
    numbers.sort_unstable();
    passed_by.sort_unstable();
    match (1..).zip(&numbers).find(|(place, number)| place != *number) {
        Some((place, number)) => Err(failure(format!(
            "the folder {folder:?} has a file {number}, and no file {place}: name the submissions \
             1, 2 and so on without a gap, or {INSTEAD}"
        ))),
        None => {
            let submissions = numbers.iter().map(|number| folder.join(number.to_string()));
            Ok(([roster].into_iter().chain(submissions).collect(), passed_by))
        }
    }
}

/// The position of the submission that a file of this name is: 1, 2 and so on, written plainly.
fn submission_number(name: &str) -> Option<usize> {
    let number = name.parse().ok().filter(|number| (1..=HIGHEST).contains(number))?;
    (number.to_string() == name).then_some(number)
}

/// The hint that a folder has more, which may have been meant as submissions.
fn passed_by(files: &Files) -> impl Iterator<Item = String> {
    let told = format!(
        "the folder also has {}, which the run passes by: submissions are named 1, 2 and so on",
        list(&files.passed_by, "and")
    );
    (!files.passed_by.is_empty()).then_some(told).into_iter()
}

/// The answer where the whole run was refused.
fn refusal(files: &Files, refused: &DistrictRefused) -> Answer {
    let number = refused.number();
    let lines = [format!("refusal {number}")];
    let mut remark = number_remark(&lines[0], number);
    let (subject, mut why) = (subject(files, refused), remark.meaning);
    if *refused == DistrictRefused::LengthCount {
        why += &match files.paths.len() - 1 {
            1 => " Here there was 1.".into(),
            count => format!(" Here there were {count}."),
        };
    }
    let told = format!("{subject} was refused: number {number}, {}", refused.word());
    remark.meaning = format!("T{}. {why} Nothing was judged or compared.", &told[1..]);
    Answer {
        status: Status::Refused,
        lines: joined(&lines),
        members: members(files, number, None),
        remarks: vec![remark],
        refused: vec![RefusedFile { told, why }],
        hints: passed_by(files).chain(hints::refused_district(&files.read, refused)).collect(),
    }
}

/// What was refused, for a sentence.
fn subject(files: &Files, refused: &DistrictRefused) -> String {
    match refused {
        DistrictRefused::Roster(_) => format!("the roster {}", files.roster().described()),
        DistrictRefused::LengthCount | DistrictRefused::LengthSum => "the run".into(),
    }
}

/// The answer where the run was made.
fn made(files: &Files, found: &District) -> Answer {
    let mut lines = vec!["refusal 0".to_string()];
    let mut remarks = vec![run_remark(&lines[0], found)];
    let mut refused = Vec::new();
    for ((position, file), &own) in (1..).zip(files.submissions()).zip(&found.refusals) {
        let number = own.map_or(0, Refusal::number);
        let line = format!("submission {position} number {number}");
        remarks.push(match own {
            None => accepted_remark(&line, position, file),
            Some(refusal) => {
                let about = refused_submission(position, file, refusal);
                let remark = refused_remark(&line, &about, refusal);
                refused.push(about);
                remark
            }
        });
        lines.push(line);
    }
    let (lower, higher) = found.fork.unwrap_or((0, 0));
    lines.push(format!("fork {lower} {higher}"));
    remarks.push(fork_remark(&lines[lines.len() - 1], files, found));
    for &replica in &found.named {
        let line = format!("board {replica}");
        remarks.push(board_remark(&line, replica, files, found));
        lines.push(line);
    }
    let status = match (found.named.is_empty(), refused.is_empty()) {
        (false, _) => Status::Named,
        (true, false) => Status::Refused,
        (true, true) => Status::NothingFound,
    };
    Answer {
        status,
        lines: joined(&lines),
        members: members(files, 0, Some(found)),
        remarks,
        refused,
        hints: passed_by(files).chain(hints::district(&files.read, found)).collect(),
    }
}

/// The positions of the submissions that were accepted.
fn accepted(found: &District) -> Vec<usize> {
    let numbered = (1..).zip(&found.refusals);
    numbered.filter(|(_, refusal)| refusal.is_none()).map(|(position, _)| position).collect()
}

/// Positions in a row.
fn positions(positions: &[usize]) -> String {
    list(&positions.iter().map(usize::to_string).collect::<Vec<_>>(), "and")
}

fn run_remark(line: &str, found: &District) -> Remark {
    let compared = match accepted(found).len() {
        0 => "None was accepted, so that nothing was compared.".into(),
        1 => "Only one was accepted, so that nothing was compared.".into(),
        count => format!("{count} were accepted, and every two of these were compared."),
    };
    Remark {
        line: line.into(),
        meaning: format!(
            "The roster was accepted, and {} submissions were judged, each by itself. {compared}",
            found.refusals.len()
        ),
        advice: "Read the other lines: they say what was found.".into(),
    }
}

fn accepted_remark(line: &str, position: usize, file: &Input) -> Remark {
    Remark {
        line: line.into(),
        meaning: format!(
            "Submission {position}, {}, is accepted: it is whole, and all its signatures are good.",
            file.described()
        ),
        advice: "Nothing.".into(),
    }
}

/// Which submission was refused, and why.
fn refused_submission(position: usize, file: &Input, refusal: Refusal) -> RefusedFile {
    let row = Number::of(refusal.number().into()).expect("a row for each number");
    let told = format!(
        "submission {position}, {}, was refused: number {}, {}",
        file.described(),
        row.number,
        row.word
    );
    let side = if refusal == Refusal::Size { which_side(file) } else { String::new() };
    RefusedFile { told, why: format!("{}{side}", row.meaning) }
}

fn refused_remark(line: &str, about: &RefusedFile, refusal: Refusal) -> Remark {
    let row = Number::of(refusal.number().into()).expect("a row for each number");
    Remark {
        line: line.into(),
        meaning: format!(
            "S{} It was left out of what was compared. This says nothing of a board: whoever sent \
             the file can have changed it.",
            &about.whole()[1..]
        ),
        advice: format!("{} Run again when it is mended.", row.advice),
    }
}

/// What the pair says, and whether nobody is named.
fn fork_remark(line: &str, files: &Files, found: &District) -> Remark {
    let accepted = accepted(found).len();
    let (mut meaning, mut advice) = match found.fork {
        Some((lower, higher)) => (
            format!(
                "Submissions {lower} and {higher} both committed a record at one index, and not \
                 the same one. They are the first two of which this is so, and other pairs may \
                 part too."
            ),
            format!(
                "For the index, audit the two: {}. Rely on neither log from that index on until \
                 it is known which is right.",
                audit_line(files, lower, higher)
            ),
        ),
        None if accepted < 2 => (
            "Nothing could be compared, so that these zeros say nothing of the logs.".into(),
            "Run again when at least two submissions are accepted.".into(),
        ),
        None => (
            "No two of the accepted submissions committed different records at one index.".into(),
            if accepted == found.refusals.len() {
                "Nothing.".into()
            } else {
                "Run again when what was refused is mended: what it shows is missing.".into()
            },
        ),
    };
    if found.named.is_empty() && accepted >= 2 {
        meaning += " No board is named: nothing in one of them contradicts another, and no leaf \
            of a board's key was used for two messages.";
        advice += " Other submissions of the district may still show something.";
    }
    Remark { line: line.into(), meaning, advice }
}

fn board_remark(line: &str, replica: usize, files: &Files, found: &District) -> Remark {
    let accepted = accepted(found);
    let which = match (found.fork, &accepted[..]) {
        (_, &[lower, higher]) => format!("audit the two: {}", audit_line(files, lower, higher)),
        (Some((lower, higher)), _) => format!(
            "audit the two that part first: {}. If board {replica} is not named there, audit \
             every other two of the accepted submissions {} in the same way",
            audit_line(files, lower, higher),
            positions(&accepted)
        ),
        (None, accepted) => format!(
            "audit every two of the accepted submissions {}, beginning with {}",
            positions(accepted),
            audit_line(files, accepted[0], accepted[1])
        ),
    };
    Remark {
        line: line.into(),
        meaning: format!(
            "Board {replica} signed two statements that contradict each other, or two with one \
             leaf of its key, and the accepted submissions have them."
        ),
        advice: format!(
            "Have board {replica} taken out of use and looked at. Keep the roster and all \
             submissions as they are: they are the proof. For the rule that it broke, and the \
             term or leaf, {which}."
        ),
    }
}

/// The command line that audits the submissions of two positions, in backquotes.
fn audit_line(files: &Files, lower: usize, higher: usize) -> String {
    let paths = [0, lower, higher].map(|place| files.paths[place].as_os_str());
    let dashed = paths.iter().any(|path| path.as_encoded_bytes().starts_with(b"-"));
    let names = paths.map(written).join(" ");
    format!("`hirelog audit {}{names}`", if dashed { "-- " } else { "" })
}

/// The answer as members of an object.
fn members(files: &Files, number: u32, found: Option<&District>) -> Vec<(&'static str, String)> {
    let word = |number: u32| {
        let row = Number::of(number).expect("a row for each number");
        json::string(row.word)
    };
    let own = |refusal: &Option<Refusal>| {
        let number = u32::from(refusal.map_or(0, Refusal::number));
        json::object(&[("number", number.to_string()), ("word", word(number))])
    };
    let (lower, higher) = found.and_then(|found| found.fork).unwrap_or((0, 0));
    let named = found.into_iter().flat_map(|found| &found.named);
    let mut names = files.paths.iter().map(|path| json::string(&path.to_string_lossy()));
    let roster = names.next().expect("a roster");
    vec![
        ("number", number.to_string()),
        ("word", word(number)),
        ("submissions", json::array(found.into_iter().flat_map(|found| &found.refusals).map(own))),
        ("fork", json::array([lower, higher].iter().map(usize::to_string))),
        ("named", json::array(named.map(|k| json::object(&[("board", k.to_string())])))),
        ("files", json::object(&[("roster", roster), ("submissions", json::array(names))])),
    ]
}

#[cfg(test)]
mod tests {
    use super::*;

    /// A board that is named without a fork: all pairs of accepted submissions are to be audited, by
    /// a command line that can be typed.
    #[test]
    fn named_without_a_fork() {
        let paths = ["r", "-a", "x", "b c", "d"].map(PathBuf::from).to_vec();
        let files = Files { paths, read: Vec::new(), passed_by: Vec::new() };
        let refusals = vec![None, Some(Refusal::Size), None, None];
        let mut found = District { refusals, named: vec![2], fork: None };
        let remark = board_remark("board 2", 2, &files, &found);
        let told =
            "For the rule that it broke, and the term or leaf, audit every two of the accepted \
            submissions 1, 3 and 4, beginning with `hirelog audit -- r -a 'b c'`.";
        assert!(remark.advice.ends_with(told), "{}", remark.advice);
        assert!(fork_remark("fork 0 0", &files, &found).advice.starts_with("Run again when"));
        found.refusals[0] = Some(Refusal::Size);
        let remark = board_remark("board 2", 2, &files, &found);
        let told = "the term or leaf, audit the two: `hirelog audit r 'b c' d`.";
        assert!(remark.advice.ends_with(told), "{}", remark.advice);
    }

    /// The names that are submissions of a folder, and those that are not.
    #[test]
    fn names_of_submissions() {
        for (name, number) in [("1", Some(1)), ("9", Some(9)), ("10", Some(10)), ("99", Some(99))] {
            assert_eq!(submission_number(name), number);
        }
        for name in ["", "0", "01", "+1", "-1", "1 ", "1.bin", "x", "100", "2026", "roster"] {
            assert_eq!(submission_number(name), None, "{name}");
        }
    }
}
