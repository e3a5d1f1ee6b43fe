//! hirelog audit: its lines, its explanations and its JSON, for each sample and each number.

use crate::asked::{wrong_rosters, Asked};
use crate::json::Value;
use crate::*;
use hirelog::numbers::{Number, NUMBERS};

/// The lines that an object says.
fn lines_of(object: &Value) -> String {
    let [number, place, fork] = ["number", "place", "fork"].map(|name| object.get(name).number());
    let mut lines = format!("refusal {number} in {place}\nfork {fork}\n");
    for named in object.get("named").list() {
        let [board, rule, term] = ["board", "rule", "term"].map(|name| named.get(name).number());
        lines += &format!("board {board} rule {rule} term {term}\n");
    }
    lines
}

/// All ways to ask for an audit give these lines and this status, with the number's texts; the plain
/// run is given.
fn expect(files: &[PathBuf; 3], lines: &str, status: i32) -> Run {
    let plain = with_options("audit", &[], files);
    assert_eq!((plain.out.as_str(), plain.status), (lines, status), "{plain:?}");
    let refused = usize::from(status == 2);
    let asked = Asked { command: "audit", files, plain: &plain, refused };
    let names = ["command", "number", "word", "place", "fork", "named", "files", "hints"];
    let object = asked.object(&names);
    assert_eq!(lines_of(&object), lines);
    assert_eq!(object.get("files").names(), ["roster", "first", "second"]);
    for (name, file) in ["roster", "first", "second"].into_iter().zip(files) {
        assert_eq!(object.get("files").get(name).text(), file.to_string_lossy());
    }
    let text = asked.explanation(&object);
    let number = Number::of(object.get("number").number() as u32).expect("a row");
    assert!(text.contains(number.meaning) && text.contains(number.advice), "{text}");
    plain
}

/// Each sample gives its lines, by its folder and by its files.
#[test]
fn samples() {
    for name in PAIRS {
        let folder = repository("samples").join(name);
        let lines = fs::read_to_string(folder.join("expected")).expect("lines");
        let status = i32::from(lines.contains("board"));
        let plain = expect(&sample(name), &lines, status);
        let whole = with_options("audit", &[], &[folder]);
        assert_eq!((&whole.out, whole.status, &whole.err), (&plain.out, status, &plain.err));
        assert_eq!(plain.err, "", "two empty logs may have the same bytes");
    }
}

/// What the rules' lines mean: rules 1 to 3 in the samples, 4 with the submissions exchanged (5 is in
/// `one_leaf`).
#[test]
fn rules() {
    let [roster, first, second] = sample("stale_leader");
    let exchanged = [roster, second, first];
    expect(&exchanged, "refusal 0 in 0\nfork 1\nboard 2 rule 4 term 2\n", 1);
    let told = |files: &[PathBuf; 3]| with_options("audit", &["--explain"], files).unfolded();
    let one =
        "What \"board 2 rule 1 term 2\" says: Board 2 cast two different votes in term 2: for \
        two candidates, or for one candidate";
    assert!(told(&sample("two_requests")).contains(one));
    let two = "Board 1 stamped two logs as leader of term 1";
    assert!(told(&sample("one_leader")).contains(two));
    let three = "receipt for a record, which the first submission has, and later, in term 2,";
    assert!(told(&sample("stale_leader")).contains(three));
    let four = "receipt for a record, which the second submission has, and later, in term 2,";
    assert!(told(&exchanged).contains(four));
    assert!(told(&sample("empty")).contains("No board is named"));
}

/// A board that broke rules 1 and 2 has rule 2 and its term in its line, also with the submissions
/// exchanged, and --explain says that it may have broken rule 1 too. A board beside it that broke
/// rule 1 has that rule, and is said not to have broken rule 2.
#[test]
fn stamps_before_votes() {
    let (stamped, voted) = ("board 1 rule 2 term 2\n", "board 2 rule 1 term 2\n");
    let order =
        "Of the rules that a board broke its line has the first in the order 2, 1, 3, 4, 5. \
        In these submissions, first and second as given, board";
    let one = format!("{order} 1 may have broken rule 1, 3, 4 or 5 too.\n");
    let two = format!("{order} 2 did not break rule 2, and may have broken rule 3, 4 or 5 too.\n");
    for (name, voter) in [("votes_and_stamps", ""), ("two_requests", voted)] {
        let [roster, first, second] = sample(name);
        let [r, f, s] = [&roster, &first, &second];
        for files in [[r, f, s], [r, s, f]].map(|files| files.map(PathBuf::clone)) {
            expect(&files, &format!("refusal 0 in 0\nfork 1\n{stamped}{voter}"), 1);
            let told = with_options("audit", &["--explain"], &files).unfolded();
            assert!(told.contains("Board 1 stamped two logs as leader of term 2,"), "{told}");
            assert!(told.contains(&one), "{told}");
            assert_eq!(told.contains(&two), !voter.is_empty(), "{told}");
        }
    }
}

/// Rule 5, whose line has a leaf's number and needs no fork: the same line with the submissions
/// exchanged, and what it means and asks for. Each submission beside itself has one of the two
/// messages only.
#[test]
fn one_leaf() {
    let [roster, first, second] = sample("one_leaf");
    let [r, f, s] = [&roster, &first, &second];
    for files in [[r, f, s], [r, s, f]].map(|files| files.map(PathBuf::clone)) {
        expect(&files, "refusal 0 in 0\nfork 0\nboard 2 rule 5 term 7\n", 1);
        let told = with_options("audit", &["--explain"], &files).unfolded();
        for text in [
            "\nWhat \"board 2 rule 5 term 7\" says: Board 2 signed two different messages with leaf 7 \
             of its key, which is for one",
            "The number in the line is this leaf's, not a term's.",
            "In these submissions, first and second as given, board 2 did not break rule 2, 1, 3 \
             or 4.\n",
            "\nWhat to do: Have board 2 taken out of use",
            "Trust no signature under its key any more: it needs a new one.",
        ] {
            assert!(told.contains(text), "{text}: {told}");
        }
        assert!(!told.contains("No board is named"), "{told}");
    }
    for file in [f, s] {
        let run = expect(&[r, file, file].map(PathBuf::clone), "refusal 0 in 0\nfork 0\n", 0);
        run.tells(&["have the same bytes", "unless by a leaf that was used twice"]);
    }
}

/// Each number of a submission, in both places; the message names the file and the number's word.
#[test]
fn submission_numbers() {
    let data = repository("crates/test_submission/data");
    let [roster, accepted] = ["roster", "n00"].map(|name| data.join(name));
    for number in 5..=15 {
        let file = data.join(format!("n{number:02}"));
        let row = Number::of(number).expect("a row");
        let told = format!("number {number}, {}. {}", row.word, row.meaning);
        let copied = row.advice.starts_with("Copy ") || number == 7;
        assert!(copied && row.advice.contains(" again from where "), "{}", row.advice);
        let both = row.advice.contains("Copy the submission and the roster again");
        assert_eq!(both, row.advice.contains("roster is the district's present one"));
        assert_eq!(both, [9, 15].contains(&number), "{}", row.advice);
        let places =
            [(1, "first", [&roster, &file, &accepted]), (2, "second", [&roster, &accepted, &file])];
        for (place, name, files) in places {
            let lines = format!("refusal {number} in {place}\nfork 0\n");
            let run = expect(&files.map(PathBuf::clone), &lines, 2);
            run.tells(&[&format!("the {name} submission {} ", quoted(&file)), &told]);
        }
    }
    expect(&[roster, accepted.clone(), accepted], "refusal 0 in 0\nfork 0\n", 0);
}

/// The numbers of a roster.
#[test]
fn roster_numbers() {
    let folder = Folder::new("roster_numbers");
    let [roster, first, second] = sample("one_leader");
    for (number, bytes) in wrong_rosters(&fs::read(&roster).expect("a roster")) {
        let roster = folder.put("roster", &bytes);
        let word = NUMBERS[number].word;
        assert!(NUMBERS[number].advice.to_lowercase().contains("copy it again from where it came"));
        let run = expect(
            &[roster.clone(), first.clone(), second.clone()],
            &format!("refusal {number} in 0\nfork 0\n"),
            2,
        );
        run.tells(&[
            &format!("the roster {} ", quoted(&roster)),
            &format!("number {number}, {word}."),
        ]);
    }
}

/// A roster whose size does not go with what it says: cut, lengthened, or with a damaged count.
#[test]
fn roster_counts() {
    let folder = Folder::new("roster_counts");
    let [roster, first, second] = sample("one_leader");
    let bytes = fs::read(roster).expect("a roster");
    let counting = |count: u8, size: usize| {
        let mut bytes = bytes.clone();
        bytes[17] = count;
        bytes.resize(size, b'\n');
        bytes
    };
    let damaged = ", or that number is damaged\n";
    for (bytes, told) in [
        (
            counting(3, 187),
            ["would then have 186 bytes, but it has 187 bytes: bytes seem", damaged],
        ),
        (counting(3, 100), ["186 bytes, but it has 100 bytes: it seems to be cut short", damaged]),
        (counting(5, 186), ["298 bytes, but it has 186 bytes: it seems to be cut short", damaged]),
        (counting(2, 186), ["it has 2 boards, and a roster has 3 to 9", "its size goes with 3, "]),
        (
            counting(10, 522),
            ["it has 10 boards, and", "its size goes with 9, so that number seems"],
        ),
        (
            counting(1, 200),
            ["it has 1 board, and", ": it seems to be another file, or that number"],
        ),
        (counting(3, 17), ["has 17 bytes, and a roster 186 at least", "it seems to be cut short"]),
    ] {
        let roster = folder.put("roster", &bytes);
        let files = [roster, first.clone(), second.clone()];
        let run = expect(&files, "refusal 2 in 0\nfork 0\n", 2);
        run.tells(&told);
        run.tells(&["roster size. Its size does not go with the number of boards"]);
        assert_eq!(run.err.lines().count(), 3, "one hint: {run:?}");
    }
}

/// A damaged key of the roster shows as a bad signature in both submissions; a bad signature in one
/// of them, or in one that was given twice, says nothing of the roster.
#[test]
fn damaged_key() {
    let folder = Folder::new("damaged_key");
    let [roster, first, second] = sample("one_leader");
    let damaged = |name: &str, file: &Path, place: usize| {
        let mut bytes = fs::read(file).expect("a sample");
        bytes[place] ^= 1;
        folder.put(name, &bytes)
    };
    let key = damaged("roster", &roster, 18 + 40);
    let bad = damaged("bad", &first, 36 + 48 + 100);
    let lines = "refusal 15 in 1\nfork 0\n";
    let told = format!("both submissions fail: look at the roster {} first", quoted(&key));
    expect(&[key.clone(), first.clone(), second.clone()], lines, 2).tells(&[&told]);
    expect(&[key.clone(), second.clone(), first.clone()], lines, 2).tells(&[&told]);
    for files in [[roster, bad, second], [key, first.clone(), first]] {
        let run = expect(&files, lines, 2);
        assert!(!run.err.contains("both submissions"), "{run:?}");
    }
}

/// Number 5 says on which side, 6 that the file may be no submission, 7 that a name may be damaged.
#[test]
fn said_of_a_submission() {
    let folder = Folder::new("said_of_a_submission");
    let [roster, first, second] = sample("one_leader");
    let short = folder.put("short", &[0; 43]);
    let text = folder.put("text", &[b'a'; 44]);
    let mut bytes = fs::read(&first).expect("a sample");
    let name = bytes.len() - 44;
    bytes[name] ^= 1;
    let renamed = folder.put("renamed", &bytes);
    for (file, number, told) in [
        (&short, 5, "2,097,152 bytes. This one has fewer than 44.\n"),
        (&PathBuf::from("/dev/zero"), 5, "2,097,152 bytes. This one has more than 2,097,152.\n"),
        (&text, 6, "or it is no submission at all"),
        (&renamed, 7, "or a byte of the name was damaged"),
    ] {
        let lines = format!("refusal {number} in 1\nfork 0\n");
        expect(&[roster.clone(), file.clone(), second.clone()], &lines, 2).tells(&[told]);
    }
}

/// Files in each other's places.
#[test]
fn exchanged() {
    let [roster, first, second] = sample("one_leader");
    let [r, f, s] = [&roster, &first, &second];
    let lines = "refusal 2 in 0\nfork 0\n";
    for files in [[f, r, s], [s, r, f], [f, s, r], [s, f, r]] {
        let told = format!("{} looks like a roster, and {} does not", quoted(r), quoted(files[0]));
        let run = expect(&files.map(PathBuf::clone), lines, 2);
        run.tells(&[&told, "they seem to be exchanged"]);
        assert_eq!(run.err.lines().count(), 3, "no hint of counts: {run:?}");
    }
    let told = format!("{} looks like a submission, and the roster belongs there", quoted(f));
    expect(&[f, f, s].map(PathBuf::clone), lines, 2).tells(&[&told]);
    let told = format!("{} looks like a roster, and a submission belongs there", quoted(r));
    expect(&[r, r, s].map(PathBuf::clone), "refusal 6 in 1\nfork 0\n", 2).tells(&[&told]);
    expect(&[r, f, r].map(PathBuf::clone), "refusal 6 in 2\nfork 0\n", 2).tells(&[&told]);
}

/// Files of two districts: the message says which of the three is the odd one.
#[test]
fn districts() {
    let [roster, first, second] = sample("one_leader");
    let [_, other_first, other_second] = sample("large");
    let [r, f, s, f2, s2] = [&roster, &first, &second, &other_first, &other_second];
    let names =
        "is 58df3590f0b0571c00e04d557e7ed2d5, and the roster's is b31290f3aebcc8a81aabbb5d3df112b8";
    let goes = |file: &Path| format!("{} goes with the roster", quoted(file));
    let run = expect(&[r, f, s2].map(PathBuf::clone), "refusal 7 in 2\nfork 0\n", 2);
    run.tells(&[&format!("{} {names}", quoted(s2)), &goes(f)]);
    let run = expect(&[r, f2, s].map(PathBuf::clone), "refusal 7 in 1\nfork 0\n", 2);
    run.tells(&[&format!("{} {names}", quoted(f2)), &goes(s)]);
    let run = expect(&[r, f2, s2].map(PathBuf::clone), "refusal 7 in 1\nfork 0\n", 2);
    run.tells(&[&format!("{} has that name too", quoted(s2)), "look for the roster"]);
}

/// One submission given twice: nothing is found, and why is said.
#[test]
fn same_twice() {
    let [roster, first, _] = sample("one_leader");
    let run = expect(&[roster, first.clone(), first], "refusal 0 in 0\nfork 0\n", 0);
    run.tells(&["have the same bytes"]);
}
