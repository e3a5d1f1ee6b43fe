//! The answer of hirelog assemble where nothing is written.

use super::{items_of, leader_line, members, span, terms, TermRecords};
use crate::answer::{Answer, RefusedFile, Remark, Status};
use crate::audit::{joined, number_remark};
use crate::files::{counted, grouped, list, Input};
use crate::formats::{self, Item, STAMP};
use crate::hints;
use crate::usage::written as written_name;
use hirelog::{assemble_into, sys, AssembleRefused, Contents, Leader, Refusal, RECORD_SIZE};
use std::collections::BTreeSet;
use std::path::Path;

/// The most records and terms of a log.
const RECORDS_MAX: usize = 4096;
const TERMS_MAX: usize = 64;

/// The answer where nothing is assembled.
pub fn refusal(files: &[Input; 3], output: &Path, refused: &AssembleRefused) -> Answer {
    let [roster, log, items] = files;
    let number = refused.number();
    let mut lines = vec![format!("refusal {number}")];
    let mut remark = number_remark(&lines[0], number);
    let mut contents = Contents { records: 0, leaders: Vec::new(), commit: None };
    let mut more = Vec::new();
    let subject = match refused {
        AssembleRefused::Roster(_) => format!("the roster {} was", roster.described()),
        AssembleRefused::Log(refusal) => {
            (remark.meaning, remark.advice) = about_log(*refusal, &log.bytes);
            format!("the log {} was", log.described())
        }
        AssembleRefused::NoLeader => {
            let records = leaderless(files);
            let none = Leader { term: records.term, candidate: 0, signers: Vec::new() };
            more.push(leaderless_remark(&leader_line(&none), &records, files));
            lines.push(leader_line(&none));
            contents.leaders.push(none);
            remark.meaning += &format!(" The first such term is {}.", records.term);
            format!("the items {} were", items.described())
        }
        AssembleRefused::Item | AssembleRefused::ShortOutput => {
            format!("the items {} were", items.described())
        }
    };
    let told = format!("{subject} refused: number {number}, {}", refused.word());
    let why = remark.meaning;
    remark.meaning =
        format!("T{}. {why} Nothing was written: {output:?} is left as it was.", &told[1..]);
    Answer {
        status: Status::Refused,
        lines: joined(&lines),
        members: members(files, output, number, 0, &contents),
        remarks: [remark].into_iter().chain(more).collect(),
        refused: vec![RefusedFile { told, why }],
        hints: hints::refused_assembling(files, refused),
    }
}

/// What number 8 or 11 means of a log, and what to do.
fn about_log(refusal: Refusal, log: &[u8]) -> (String, String) {
    let (records, left) = (log.len() / RECORD_SIZE, log.len() % RECORD_SIZE);
    let terms = terms(log);
    if refusal == Refusal::Counts {
        let most = grouped(RECORDS_MAX);
        let here = match (records, left) {
            (..=RECORDS_MAX, 0) => format!("more than {TERMS_MAX} terms"),
            (..=RECORDS_MAX, _) => {
                format!("{}, and {} more", counted(records, "record"), counted(left, "byte"))
            }
            _ => format!("more than {most} records"),
        };
        let meaning = format!(
            "The log ends inside a record of {RECORD_SIZE} bytes, or has more than {most} records \
             or {TERMS_MAX} terms. This one has {here}."
        );
        let advice = "See that it is a log, whole, and nothing else. One that is too long can be \
            assembled up to the end of one of its terms.";
        return (meaning, advice.into());
    }
    let meaning = "The term of a record in the log is 0, or below that of the record before.";
    let zero = terms.first().filter(|first| first.term == 0).map(|first| (first, None));
    let falls = || terms.windows(2).find(|pair| pair[1].term < pair[0].term);
    let wrong = zero.or_else(|| falls().map(|pair| (&pair[1], Some(pair[0].term))));
    let here = wrong.map_or(String::new(), |(records, before)| {
        let after = before.map_or(String::new(), |term| format!(" after {term}"));
        format!(" Record {} has term {}{after}.", grouped(records.first), records.term)
    });
    let advice = "Copy it again from where it came. If that does not help, ask the board whose \
        log it is for another.";
    (format!("{meaning}{here}"), advice.into())
}

/// The first term without a leader, of a log that has one. Whether all terms up to one have leaders
/// is the library's to say, of the log up to that term's end: without an output it answers 20 if not.
fn leaderless([roster, log, items]: &[Input; 3]) -> TermRecords {
    let mut terms = terms(&log.bytes);
    let place = first_leaderless(&terms, |records| {
        let beginning = &log.bytes[..RECORD_SIZE * records.last];
        let found = assemble_into(&roster.bytes, beginning, &items.bytes, &mut []);
        found.number != sys::NO_LEADER
    });
    terms.swap_remove(place)
}

/// The place of the first term without a leader, where not all have one: by halves, asking of a term
/// whether all up to it have leaders.
fn first_leaderless(terms: &[TermRecords], mut led: impl FnMut(&TermRecords) -> bool) -> usize {
    let (mut low, mut high) = (0, terms.len() - 1);
    while low < high {
        let middle = (low + high) / 2;
        match led(&terms[middle]) {
            true => low = middle + 1,
            false => high = middle,
        }
    }
    low
}

/// What the first term without a leader needs, and what the items have for it by their fields.
fn leaderless_remark(line: &str, records: &TermRecords, files: &[Input; 3]) -> Remark {
    let replicas = formats::replica_count(&files[0].bytes).unwrap_or(0);
    let (end, shorter) = match records.first - 1 {
        0 => ("an empty log".into(), String::new()),
        before => (
            format!("a log that ends with record {before}"),
            format!(
                ", or assemble the log's first {}: `head -c {} {} > SHORTER`",
                counted(before, "record"),
                RECORD_SIZE * before,
                written_name(files[1].path().as_os_str())
            ),
        ),
    };
    Remark {
        line: line.into(),
        meaning: format!(
            "The items do not show who led term {} ({}). Its leader needs the votes of {} of \
             the {replicas} boards, its own among them, each on {end}, and its stamp on record {}.",
            records.term,
            span(records),
            formats::quorum(replicas),
            records.last
        ),
        advice: format!(
            "Bring in what is missing{shorter}. Of this term the items have (whether or not they \
             are good and fit the log) {}. If these are enough, then the log or roster is not the \
             one they were signed for, or a signature is damaged: copy log, roster and items again.",
            given(records.term, replicas, files)
        ),
    }
}

/// What the items have for each board that may have led a term of so many boards, by their fields.
fn given(term: u32, replicas: usize, files: &[Input; 3]) -> String {
    let name = formats::roster_name(&files[0].bytes);
    let known = 1..=replicas;
    let of_term = |item: &Item| {
        item.term() == term && Some(item.name()) == name && known.contains(&item.replica)
    };
    let items = items_of(files).map_or(Vec::new(), |items| items.whole);
    let items: Vec<Item> = items.into_iter().filter(of_term).collect();
    let for_board = |board: usize| {
        let votes = items.iter().filter(|item| item.candidate() == Some(board));
        let voters: BTreeSet<usize> = votes.map(|item| item.replica).collect();
        let stamped = items.iter().any(|item| item.kind() == STAMP && item.replica == board);
        let numbers: Vec<String> = voters.iter().map(usize::to_string).collect();
        let votes = match numbers.len() {
            0 => "no votes".into(),
            1 => format!("vote of {}", numbers[0]),
            _ => format!("votes of {}", list(&numbers, "and")),
        };
        let stamp = if stamped { "stamp" } else { "no stamp" };
        let told = format!("for board {board}: {votes}, {stamp}");
        (stamped || !voters.is_empty()).then_some(told)
    };
    let told: Vec<String> = known.clone().filter_map(for_board).collect();
    match told.is_empty() {
        true => "no vote and no stamp".into(),
        false => told.join("; "),
    }
}

#[cfg(test)]
mod tests {
    use super::*;
    use crate::assemble::tests::log;

    /// The first of up to 64 terms that has no leader, whichever it is, in six questions at most.
    #[test]
    fn search() {
        for count in 1..=TERMS_MAX {
            let terms = terms(&log(&(1..=count as u32).collect::<Vec<_>>()));
            for first in 0..count {
                let mut asked = 0;
                let found = first_leaderless(&terms, |records| {
                    asked += 1;
                    records.last <= first
                });
                assert_eq!(found, first);
                assert!(asked <= 6, "{asked} of {count}");
            }
        }
    }

    /// What is wrong with a log is said of this very one.
    #[test]
    fn logs() {
        let counts = |bytes: &[u8]| about_log(Refusal::Counts, bytes).0;
        let order = |bytes: &[u8]| about_log(Refusal::TermOrder, bytes).0;
        let many: Vec<u32> = (1..=65).collect();
        for (told, end) in [
            (counts(&log(&[1, 2])[1..]), "This one has 1 record, and 35 bytes more."),
            (counts(&log(&[1; 4097])), "This one has more than 4,096 records."),
            (counts(&log(&many)), "This one has more than 64 terms."),
            (order(&log(&[0, 1])), "the record before. Record 1 has term 0."),
            (order(&log(&[1, 7, 7, 5])), "the record before. Record 4 has term 5 after 7."),
            (order(&log(&[2, 0])), "the record before. Record 2 has term 0 after 2."),
        ] {
            assert!(told.ends_with(end), "{told}");
        }
    }
}
