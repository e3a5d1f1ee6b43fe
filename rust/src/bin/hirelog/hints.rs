//! What may have gone wrong with the files: empty, in each other's places, of different districts,
//! the same twice, broken off.
//! A hint is a sentence without its full stop.

use crate::answer::once;
use crate::assemble;
use crate::files::{counted, grouped, list, one_file, Input};
use crate::formats::{self, looks_like_roster, looks_like_submission, Broken, REPLICA_COUNTS};
use hirelog::{read_submission, sys, AssembleRefused, District, DistrictRefused, Place, Refusal};
use hirelog::{Refused, RECORD_SIZE, REPLICAS, SUBMISSION_MIN};
use std::path::Path;

/// Which of the files are empty.
pub fn empty(files: &[Input]) -> Option<String> {
    let empty = files.iter().filter(|file| file.bytes.is_empty());
    let names = once(empty.map(Input::name).collect());
    match &names[..] {
        [] => None,
        [name] => Some(format!("{name} is empty: copy it again from where it came")),
        _ => {
            Some(format!("{} are empty: copy them again from where they came", list(&names, "and")))
        }
    }
}

/// Three files in each order but their own.
pub fn in_other_orders(files: &[Input; 3]) -> impl Iterator<Item = [&Input; 3]> {
    let orders = [[0, 2, 1], [1, 0, 2], [1, 2, 0], [2, 0, 1], [2, 1, 0]];
    orders.into_iter().map(|order| order.map(|place| &files[place]))
}

/// For an audit that was refused: roster, first and second as they were given.
pub fn refused_audit(files: &[Input; 3], refused: &Refused) -> Vec<String> {
    let [roster, first, second] = files;
    let mut hints = places(files, refused.refusal == Refusal::RosterSize);
    if refused.refusal == Refusal::Signature && refused.place == Place::First {
        hints.extend(both_fail(files));
    }
    if refused.refusal == Refusal::Cluster {
        let (refused, other) =
            if refused.place == Place::First { (first, second) } else { (second, first) };
        hints.extend(other_district(roster, refused, &[other]));
    }
    hints
}

/// For a district's run that was refused.
pub fn refused_district(files: &[Input], refused: &DistrictRefused) -> Vec<String> {
    places(files, *refused == DistrictRefused::Roster(Refusal::RosterSize))
}

/// For a district's run that was made, whatever became of its submissions.
pub fn district(files: &[Input], found: &District) -> Vec<String> {
    let (roster, submissions) = files.split_first().expect("a roster");
    let refused_with = |refusal: Refusal| {
        let refusals = found.refusals.iter().zip(submissions);
        let so = refusals.filter(|(found, _)| **found == Some(refusal)).map(|(_, file)| file);
        so.collect::<Vec<&Input>>()
    };
    let mut hints = places(files, false);
    let bad = refused_with(Refusal::Signature);
    let differ = bad.iter().any(|file| file.bytes != bad[0].bytes);
    let signed = submissions.iter().filter(|file| file.bytes.len() > SUBMISSION_MIN).count();
    if bad.len() == signed && differ {
        let which = if signed == submissions.len() { "" } else { " that are no empty log" };
        hints.push(format!(
            "all submissions{which} fail: look at the roster {} first",
            roster.name()
        ));
    }
    let mut strangers = refused_with(Refusal::Cluster);
    if strangers.len() == submissions.len() && one_name(&strangers) {
        strangers.truncate(1); // the others are told with it
    }
    for file in strangers {
        let others: Vec<&Input> =
            submissions.iter().filter(|other| !std::ptr::eq(*other, file)).collect();
        hints.extend(other_district(roster, file, &others));
    }
    hints.extend(same_bytes(submissions));
    hints
}

/// For a submission that was not assembled: roster, log and items as they were given. Files in
/// another order, or one in two places, are certain, and then the only hint.
pub fn refused_assembling(files: &[Input; 3], refused: &AssembleRefused) -> Vec<String> {
    let [roster, log, items] = files;
    if let Some(twice) = named_twice(files) {
        return vec![twice];
    }
    if *refused != AssembleRefused::NoLeader {
        if let Some(order) = assembling_order(files) {
            return vec![order];
        }
    }
    let mut hints: Vec<String> = empty(files).into_iter().collect();
    match refused {
        AssembleRefused::Roster(Refusal::RosterSize) => {
            match looks_like_submission(&roster.bytes) {
                true => hints.extend(misplaced(roster, &[])),
                false => hints.extend(roster_count(roster)),
            }
        }
        AssembleRefused::Log(_) => hints.extend(submission_as_log(log)),
        AssembleRefused::Item | AssembleRefused::NoLeader
            if looks_like_submission(&items.bytes) =>
        {
            hints.push(format!("{} looks like a submission, not items", items.name()));
        }
        AssembleRefused::Item => hints.extend(broken_item(roster, items)),
        AssembleRefused::NoLeader => hints.extend(strange_items(roster, items)),
        AssembleRefused::Roster(_) | AssembleRefused::ShortOutput => {}
    }
    hints
}

/// A file that was named in two places, or in all three.
fn named_twice(files: &[Input; 3]) -> Option<String> {
    let places = |file: &Input| {
        let same = files.iter().zip(assemble::FILES);
        let same = same.filter(|(other, _)| one_file(file.path(), other.path()));
        same.map(|(_, place)| format!("as {place}")).collect::<Vec<String>>()
    };
    let told = |file: &Input| match &places(file)[..] {
        [] | [_] => None,
        places => Some(format!("{} is named {}", file.name(), list(places, "and"))),
    };
    files.iter().find_map(told)
}

/// The order of roster, log and items in which none of them is refused by itself, if it is another.
fn assembling_order(files: &[Input; 3]) -> Option<String> {
    let readable = |[roster, log, items]: &[&Input; 3]| {
        let found = hirelog::assemble_into(&roster.bytes, &log.bytes, &items.bytes, &mut []);
        [sys::NO_LEADER, sys::SHORT_OUTPUT].contains(&found.number)
    };
    let [roster, log, items] = in_other_orders(files).find(readable)?.map(Input::name);
    Some(format!(
        "the files are in the wrong order: they can be read with the roster {roster}, the log \
         {log} and the items {items}"
    ))
}

/// A submission in the place of a log, which it begins with.
fn submission_as_log(log: &Input) -> Option<String> {
    let contents = read_submission(&log.bytes)?;
    Some(format!(
        "{} looks like a submission: its log is its first {} alone",
        log.name(),
        counted(RECORD_SIZE * contents.records, "byte")
    ))
}

/// Where the items break off, and why.
fn broken_item(roster: &Input, items: &Input) -> Option<String> {
    let found = formats::items(&items.bytes, formats::roster_signature_size(&roster.bytes)?);
    let (name, left) = (items.name(), items.bytes.len() - found.end);
    let (number, before) = (found.whole.len() + 1, counted(found.end, "byte"));
    let item = format!("item {number} in {name}, which begins after {before},");
    Some(match found.broken? {
        Broken::Kind(kind) => format!("{item} has kind {kind}"),
        Broken::Cut { size } => format!(
            "{item} would have {} bytes, and {} left: it seems to be cut short",
            grouped(size),
            if left == 1 { "1 is".into() } else { format!("{} are", grouped(left)) }
        ),
        Broken::Begun => format!(
            "after {} and {before} {name} has {} more, too few for an item",
            counted(found.whole.len(), "item"),
            counted(left, "byte")
        ),
    })
}

/// Items that are all of other districts than the roster.
fn strange_items(roster: &Input, items: &Input) -> Option<String> {
    let name = formats::roster_name(&roster.bytes)?;
    let found = formats::items(&items.bytes, formats::roster_signature_size(&roster.bytes)?);
    let first = found.whole.first()?;
    let told = format!(
        "no item in {} has the roster's cluster name {}; the first has {}: look for the roster of \
         that district",
        items.name(),
        formats::hex(name),
        formats::hex(first.name())
    );
    found.whole.iter().all(|item| item.name() != name).then_some(told)
}

/// Whether all have one cluster name.
fn one_name(submissions: &[&Input]) -> bool {
    let mut names = submissions.iter().map(|file| formats::submission_name(&file.bytes));
    let first = names.next();
    names.all(|name| Some(name) == first)
}

/// What can be seen of the places that a roster and submissions were given in: empty files, and
/// others than belong there. Where the roster was refused for its size and is none of these, what
/// is wrong with it.
fn places(files: &[Input], roster_refused: bool) -> Vec<String> {
    let (roster, submissions) = files.split_first().expect("a roster");
    let misplaced = misplaced(roster, submissions);
    let mut hints: Vec<String> = empty(files).into_iter().collect();
    if roster_refused && misplaced.is_empty() {
        hints.extend(roster_count(roster));
    }
    hints.extend(misplaced);
    hints
}

/// A folder that has not the files that belong there, but those of another command.
pub fn other_folder(folder: &Path, names: &[&str], command: &str) -> Option<String> {
    let told = format!(
        "the folder {folder:?} has the files {}: hirelog {command} takes such a folder",
        names.join(", ")
    );
    names.iter().all(|name| folder.join(name).exists()).then_some(told)
}

/// A roster where a submission belongs, or the other way round.
fn misplaced(roster: &Input, submissions: &[Input]) -> Vec<String> {
    let rosters: Vec<&Input> =
        submissions.iter().filter(|file| looks_like_roster(&file.bytes)).collect();
    if looks_like_roster(&roster.bytes) {
        let told = |file: &&Input| {
            format!("{} looks like a roster, and a submission belongs there", file.name())
        };
        return rosters.iter().map(told).collect();
    }
    let Some(found) = rosters.first() else {
        let told =
            format!("{} looks like a submission, and the roster belongs there", roster.name());
        return if looks_like_submission(&roster.bytes) { vec![told] } else { Vec::new() };
    };
    let told = format!("{} looks like a roster, and {} does not", found.name(), roster.name());
    vec![match submissions.len() {
        ..=2 => format!("{told}: they seem to be exchanged, so give them in each other's place"),
        _ => format!("{told}: name the roster first, and then the submissions in their order"),
    }]
}

/// A roster whose size does not go with the replicas that it says it has.
fn roster_count(roster: &Input) -> Option<String> {
    let (name, size) = (roster.name(), roster.bytes.len());
    if size == 0 {
        return None;
    }
    let Some(count) = formats::replica_count(&roster.bytes) else {
        let least = formats::roster_size(*REPLICA_COUNTS.start());
        let told = format!("{name} has {}, and a roster {least} at least", roster.size());
        return Some(format!("{told}: it seems to be cut short, or to be another file"));
    };
    let told = format!("{name} says that it has {}", counted(count, "board"));
    if REPLICA_COUNTS.contains(&count) {
        let right = formats::roster_size(count);
        let fault =
            if size < right { "it seems to be cut short" } else { "bytes seem to be added" };
        return Some(format!(
            "{told}, and would then have {right} bytes, but it has {}: {fault}, or that number is \
             damaged",
            roster.size()
        ));
    }
    let told = format!("{told}, and a roster has {} to {}", REPLICA_COUNTS.start(), REPLICAS);
    Some(match REPLICA_COUNTS.into_iter().find(|&other| formats::roster_size(other) == size) {
        Some(fitting) => {
            format!("{told}: its size goes with {fitting}, so that number seems to be damaged")
        }
        None => format!("{told}: it seems to be another file, or that number is damaged"),
    })
}

/// Whether a bad signature is in both submissions, where the first was refused for one.
fn both_fail([roster, first, second]: &[Input; 3]) -> Option<String> {
    let exchanged = hirelog::audit(&roster.bytes, &second.bytes, &first.bytes);
    let second_fails =
        matches!(exchanged, Err(Refused { refusal: Refusal::Signature, place: Place::First, .. }));
    let told = format!("both submissions fail: look at the roster {} first", roster.name());
    (second_fails && first.bytes != second.bytes).then_some(told)
}

/// A signature that is longer or shorter than one under this key.
pub fn signature_size(key: &Input, signature: &Input) -> Option<String> {
    let size = formats::signature_size(&key.bytes)?;
    let told = format!(
        "{} has {}, and a signature under this key has {}",
        signature.name(),
        signature.size(),
        grouped(size)
    );
    (signature.bytes.len() != size && !signature.bytes.is_empty()).then_some(told)
}

/// Which of the files does not go with the others, where a submission was refused as one of another
/// district.
fn other_district(roster: &Input, refused: &Input, others: &[&Input]) -> Option<String> {
    let name = formats::roster_name(&roster.bytes)?;
    let refused_name = formats::submission_name(&refused.bytes)?;
    let named = |other: &Input, name: &[u8]| formats::submission_name(&other.bytes) == Some(name);
    let told = format!(
        "the cluster name in {} is {}, and the roster's is {}",
        refused.name(),
        formats::hex(refused_name),
        formats::hex(name)
    );
    if let Some(other) = others.iter().find(|other| named(other, name)) {
        return Some(format!("{told}; {} goes with the roster", other.name()));
    }
    if others.is_empty() || !others.iter().all(|other| named(other, refused_name)) {
        return Some(told);
    }
    let names: Vec<String> = others.iter().map(|other| other.name()).collect();
    let have = if names.len() == 1 { "has" } else { "have" };
    Some(format!(
        "{told}; {} {have} that name too, so look for the roster of that district",
        list(&names, "and")
    ))
}

/// Submissions that are one: nothing can be found between them but a leaf used twice (rule 5). Empty
/// logs of a district have the same bytes by right.
pub fn same_bytes(submissions: &[Input]) -> Vec<String> {
    let alike = |place: usize| {
        let same = submissions[place..].iter().filter(|s| s.bytes == submissions[place].bytes);
        same.map(Input::name).collect::<Vec<_>>()
    };
    let first = |place: &usize| {
        let bytes = &submissions[*place].bytes;
        let told = submissions[..*place].iter().any(|before| before.bytes == *bytes);
        !told && bytes.len() > SUBMISSION_MIN && !submissions[*place].is_long()
    };
    let groups = (0..submissions.len()).filter(first).map(alike).filter(|names| names.len() > 1);
    let told = |names: Vec<String>| {
        format!(
            "{} have the same bytes, and a submission does not contradict itself, unless by a leaf \
             that was used twice: see that they are the {} that you meant",
            list(&names, "and"),
            if names.len() == 2 { "two".into() } else { names.len().to_string() }
        )
    };
    groups.map(told).collect()
}
