//! hirelog assemble: a submission of a log, and of the signatures for it that items have.

mod refused;
mod written;

use crate::answer::{Answer, Failure, Status};
use crate::files::{in_folder, one_file, read_all, write_whole, Input};
use crate::formats::{self, Items};
use crate::usage::{wrong_count, wrong_use, Command, Run};
use crate::{audit, district, hints, json};
use hirelog::numbers::Number;
use hirelog::{Contents, Leader, RECORD_SIZE};
use std::path::{Path, PathBuf};

pub const COMMAND: Command = Command {
    name: "assemble",
    forms: &["FOLDER -o FILE", "ROSTER LOG ITEMS -o FILE"],
    purpose: "makes a submission of a log and a bag of votes, stamps and receipts",
    help: "\
Makes a submission of a log (records of 36 bytes, one after the other) and of
the good signatures for it among ITEMS, and writes it to FILE. FOLDER has the
files roster, log and items; or name the three files. An item is the number of a
board (2 bytes), the statement that it signed (a vote, stamp or receipt, as
document 01 has them; docs/C.md has their bytes) and the signature; the next one
follows at once. Items of another district, with a bad signature or on another
log are passed over. It prints

  refusal N                 0 if FILE was written, else the number that says why
                            not: 2 to 4 for the roster, 8 or 11 for the log, 19
                            or 20 for the items. Then FILE is left as it was
  length B                  the bytes of the submission
  records H                 the records of the log
  term T board K signers S  for each term of the log, in its order: the board
                            that led it, and those that voted for it. With
                            number 20, after the first line, `term T board 0`:
                            the first term for which no leader is shown
  commit I signers S        the highest record for which a quorum has given
                            receipts, and the boards that have; `commit 0` if
                            there is none
",
    statuses: &[
        (Status::NothingFound, "the submission is written"),
        (Status::Refused, "the roster, the log or the items were refused; nothing is written"),
    ],
    run: Run::Writes(run),
};

/// The files that are read, as the folder has them.
pub const FILES: [&str; 3] = ["roster", "log", "items"];

/// What can be done about a folder that has not these files.
const INSTEAD: &str = "name the three files (hirelog assemble ROSTER LOG ITEMS -o FILE)";

/// The most bytes that are read of a file. Nine boards have fewer for all votes, stamps and receipts
/// that can fit a log, with the longest signatures. The library has no limit for items.
const READ_MAX: usize = 268_435_456;

/// The records of one term in a log, by the indexes of its first and its last.
struct TermRecords {
    term: u32,
    first: usize,
    last: usize,
}

/// Assembles what a folder has, or three files, and writes it to the output.
fn run(operands: &[PathBuf], output: &Path) -> Result<Answer, Failure> {
    let paths = match operands {
        [folder] => in_folder(folder, FILES, INSTEAD).map_err(|mut failure| {
            failure.messages.extend(hints::other_folder(folder, &audit::FILES, "audit"));
            failure.messages.extend(hints::other_folder(folder, &district::FILES, "district"));
            failure
        })?,
        [roster, log, items] => [roster.clone(), log.clone(), items.clone()],
        _ => return Err(wrong_count(&COMMAND, operands.len())),
    };
    let files = read_all(paths, READ_MAX)?;
    let [roster, log, items] = &files;
    if items.is_long() {
        let why = format!(
            "the items {} are more than are read here: leave out those of other districts, and \
             repeats",
            items.described()
        );
        return Err(Failure { status: Status::Unreadable, messages: vec![why] });
    }
    if let Some((name, _)) =
        FILES.iter().zip(&files).find(|(_, file)| one_file(file.path(), output))
    {
        let why =
            format!("{output:?} is the file of the {name}, which would be lost: name another");
        return Err(wrong_use(&COMMAND, why));
    }
    match hirelog::assemble(&roster.bytes, &log.bytes, &items.bytes) {
        Ok(submission) => {
            write_whole(output, &submission)?;
            Ok(written::written(&files, output, &submission))
        }
        Err(refused) => Ok(refused::refusal(&files, output, &refused)),
    }
}

/// The terms of a log, in its order, as far as it has whole records.
fn terms(log: &[u8]) -> Vec<TermRecords> {
    let mut terms: Vec<TermRecords> = Vec::new();
    for (index, record) in (1..).zip(log.chunks_exact(RECORD_SIZE)) {
        let term = u32::from_be_bytes([record[0], record[1], record[2], record[3]]);
        match terms.last_mut().filter(|before| before.term == term) {
            Some(before) => before.last = index,
            None => terms.push(TermRecords { term, first: index, last: index }),
        }
    }
    terms
}

/// The items, as far as they can be read under the roster's keys.
fn items_of([roster, _, items]: &[Input; 3]) -> Option<Items<'_>> {
    Some(formats::items(&items.bytes, formats::roster_signature_size(&roster.bytes)?))
}

/// The records of a term, in words.
fn span(records: &TermRecords) -> String {
    match records.first == records.last {
        true => format!("record {}", records.first),
        false => format!("records {} to {}", records.first, records.last),
    }
}

/// Numbers of boards at the end of a line.
fn signers(replicas: &[usize]) -> String {
    replicas.iter().map(|replica| format!(" {replica}")).collect()
}

fn leader_line(leader: &Leader) -> String {
    match leader.candidate {
        0 => format!("term {} board 0", leader.term),
        k => format!("term {} board {k} signers{}", leader.term, signers(&leader.signers)),
    }
}

/// The answer as members of an object.
fn members(
    files: &[Input; 3],
    output: &Path,
    number: u32,
    length: usize,
    contents: &Contents,
) -> Vec<(&'static str, String)> {
    let row = Number::of(number).expect("a row for each number");
    let signers = |replicas: &[usize]| json::array(replicas.iter().map(usize::to_string));
    let leader = |leader: &Leader| {
        json::object(&[
            ("term", leader.term.to_string()),
            ("board", leader.candidate.to_string()),
            ("signers", signers(&leader.signers)),
        ])
    };
    let (index, committed) = match &contents.commit {
        Some(commit) => (commit.index, &commit.signers[..]),
        None => (0, &[][..]),
    };
    let commit = [("index", index.to_string()), ("signers", signers(committed))];
    let names = files.iter().map(Input::path).chain([output]);
    let names = names.map(|path| json::string(&path.to_string_lossy()));
    let roles = FILES.into_iter().chain(["submission"]);
    vec![
        ("number", number.to_string()),
        ("word", json::string(row.word)),
        ("length", length.to_string()),
        ("records", contents.records.to_string()),
        ("terms", json::array(contents.leaders.iter().map(leader))),
        ("commit", json::object(&commit)),
        ("files", json::object(&roles.zip(names).collect::<Vec<_>>())),
    ]
}

#[cfg(test)]
mod tests {
    use super::*;

    /// A log of records with these terms.
    pub fn log(terms: &[u32]) -> Vec<u8> {
        terms.iter().flat_map(|term| [&term.to_be_bytes()[..], &[0; 32]].concat()).collect()
    }

    /// Terms are told apart where they change, and a cut record is none.
    #[test]
    fn terms_of_a_log() {
        let mut bytes = log(&[1, 1, 5, 7, 7, 7]);
        bytes.extend([0; 35]);
        let found: Vec<_> = terms(&bytes).iter().map(|t| (t.term, t.first, t.last)).collect();
        assert_eq!(found, [(1, 1, 2), (5, 3, 3), (7, 4, 6)]);
        assert!(terms(&[]).is_empty());
    }
}
