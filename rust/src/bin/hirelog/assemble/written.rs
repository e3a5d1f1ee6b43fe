//! The answer of hirelog assemble where the submission is written.

use super::{items_of, leader_line, members, signers, span, terms, TermRecords};
use crate::answer::{Answer, Remark, Status};
use crate::audit::joined;
use crate::files::{counted, list, Input};
use crate::formats::Items;
use hirelog::{read_submission, Commit, Contents, Leader};
use std::path::Path;

/// The answer where the submission is written.
pub fn written(files: &[Input; 3], output: &Path, submission: &[u8]) -> Answer {
    let contents = read_submission(submission).expect("what was assembled");
    let mut lines = vec![
        "refusal 0".to_string(),
        format!("length {}", submission.len()),
        format!("records {}", contents.records),
    ];
    let mut remarks = vec![
        Remark {
            line: lines[0].clone(),
            meaning: format!(
                "A submission was assembled, and is written to {output:?}. It has the log's \
                 records, and is accepted against this roster."
            ),
            advice: "Use it as any other: hirelog audit and hirelog district take it.".into(),
        },
        length_remark(&lines[1], submission.len(), &contents, items_of(files)),
        records_remark(&lines[2], &contents),
    ];
    for (leader, records) in contents.leaders.iter().zip(terms(&files[1].bytes)) {
        let line = leader_line(leader);
        remarks.push(leader_remark(&line, leader, &records));
        lines.push(line);
    }
    let line = commit_line(contents.commit.as_ref());
    remarks.push(commit_remark(&line, &contents));
    lines.push(line);
    Answer {
        status: Status::NothingFound,
        lines: joined(&lines),
        members: members(files, output, 0, submission.len(), &contents),
        remarks,
        refused: Vec::new(),
        hints: empty_log(&files[1], output, submission.len()).into_iter().collect(),
    }
}

fn commit_line(commit: Option<&Commit>) -> String {
    match commit {
        Some(commit) => format!("commit {} signers{}", commit.index, signers(&commit.signers)),
        None => "commit 0".into(),
    }
}

/// Boards in words.
fn boards(replicas: &[usize]) -> String {
    match replicas {
        [] => "no board".into(),
        [replica] => format!("board {replica}"),
        _ => {
            let numbers: Vec<String> = replicas.iter().map(usize::to_string).collect();
            format!("boards {}", list(&numbers, "and"))
        }
    }
}

fn length_remark(line: &str, length: usize, contents: &Contents, items: Option<Items>) -> Remark {
    let votes: usize = contents.leaders.iter().map(|leader| leader.signers.len()).sum();
    let receipts = contents.commit.as_ref().map_or(0, |commit| commit.signers.len());
    let used = votes + contents.leaders.len() + receipts;
    let given = items.map_or(0, |items| items.whole.len());
    Remark {
        line: line.into(),
        meaning: format!(
            "The submission has {}. Of {} it took in {used}: {}, {} and {}.",
            counted(length, "byte"),
            counted(given, "item"),
            counted(votes, "vote"),
            counted(contents.leaders.len(), "stamp"),
            counted(receipts, "receipt")
        ),
        advice: match given == used {
            true => "Nothing.".into(),
            false => "Nothing. The other items are repeats, are not needed, do not fit the log, \
                are bad, or are of another district."
                .into(),
        },
    }
}

fn records_remark(line: &str, contents: &Contents) -> Remark {
    Remark {
        line: line.into(),
        meaning: format!(
            "The log has {}, of {}.",
            counted(contents.records, "record"),
            counted(contents.leaders.len(), "term")
        ),
        advice: "See that these are as many as you meant.".into(),
    }
}

fn leader_remark(line: &str, leader: &Leader, records: &TermRecords) -> Remark {
    Remark {
        line: line.into(),
        meaning: format!(
            "Board {} led term {}, in which {} of the log {} added: it has votes of {}, and it \
             stamped record {}.",
            leader.candidate,
            leader.term,
            span(records),
            if records.first == records.last { "was" } else { "were" },
            boards(&leader.signers),
            records.last
        ),
        advice: "Nothing.".into(),
    }
}

fn commit_remark(line: &str, contents: &Contents) -> Remark {
    const MORE: &str = "bring in more receipts, and assemble again: an audit finds forks among \
        committed records alone.";
    let (meaning, advice) = match &contents.commit {
        Some(commit) => (
            format!(
                "The records up to {} are committed: {} gave receipts for it.",
                commit.index,
                boards(&commit.signers)
            ),
            match contents.records - commit.index as usize {
                0 => "Nothing.".into(),
                1 => format!("If the one after it was committed too, {MORE}"),
                more => format!("If any of the {more} after it was committed too, {MORE}"),
            },
        ),
        None if contents.records == 0 => {
            ("There is nothing to commit in an empty log.".into(), "Nothing.".into())
        }
        None => (
            "No record is committed: for none are there good receipts of a quorum that fit the \
             log."
                .into(),
            format!("If one was committed, {MORE}"),
        ),
    };
    Remark { line: line.into(), meaning, advice }
}

fn empty_log(log: &Input, output: &Path, length: usize) -> Option<String> {
    let told = format!(
        "{} is empty, so {output:?} is now the submission of an empty log, of {}: if that was not \
         meant, copy the log again and assemble again",
        log.name(),
        counted(length, "byte")
    );
    log.bytes.is_empty().then_some(told)
}
