//! hirelog assemble: its lines, its explanations and its JSON, and the file that it writes, for the
//! sample, for submissions that were taken apart, and for each number.

use crate::apart::Apart;
use crate::asked::{wrong_rosters, Asked};
use crate::json::Value;
use crate::*;
use hirelog::numbers::Number;
use std::os::unix::fs::PermissionsExt;

/// The lines that an object says.
fn lines_of(object: &Value) -> String {
    let number = object.get("number").number();
    let signers = |value: &Value| {
        let replicas = value.get("signers").list().iter();
        replicas.map(|replica| format!(" {}", replica.number())).collect::<String>()
    };
    let mut lines = format!("refusal {number}\n");
    if number == 0 {
        lines += &format!("length {}\n", object.get("length").number());
        lines += &format!("records {}\n", object.get("records").number());
    }
    for leader in object.get("terms").list() {
        assert_eq!(leader.names(), ["term", "board", "signers"]);
        let [term, board] = ["term", "board"].map(|name| leader.get(name).number());
        lines += &format!("term {term} board {board}");
        lines += &if board == 0 { "\n".into() } else { format!(" signers{}\n", signers(leader)) };
    }
    let commit = object.get("commit");
    match commit.get("index").number() {
        0 if number == 0 => lines + "commit 0\n",
        0 => lines,
        index => lines + &format!("commit {index} signers{}\n", signers(commit)),
    }
}

/// All ways to ask give these lines; with number 0 the file is then this one, and with any other it
/// is as it was. The plain run is given.
fn expect(files: &[&Path], output: &Path, lines: &str, submission: Option<&[u8]>) -> Run {
    let arguments = [files, &[Path::new("-o"), output]].concat();
    let before: &[u8] = b"as it was";
    fs::write(output, before).expect("written");
    let plain = with_options("assemble", &[], &arguments);
    let status = if submission.is_some() { 0 } else { 2 };
    assert_eq!((plain.out.as_str(), plain.status), (lines, status), "{plain:?}");
    let asked = Asked {
        command: "assemble",
        files: &arguments,
        plain: &plain,
        refused: usize::from(submission.is_none()),
    };
    let names =
        ["command", "number", "word", "length", "records", "terms", "commit", "files", "hints"];
    let object = asked.object(&names);
    assert_eq!(lines_of(&object), lines);
    assert_eq!(object.get("length").number() as usize, submission.map_or(0, <[u8]>::len));
    let named = object.get("files");
    assert_eq!(named.names(), ["roster", "log", "items", "submission"]);
    assert_eq!(named.get("submission").text(), output.to_string_lossy());
    if let [roster, log, items] = files {
        let told = ["roster", "log", "items"].map(|name| named.get(name).text());
        assert_eq!(told.map(Path::new), [*roster, *log, *items]);
    }
    let text = asked.explanation(&object);
    assert!(fs::read(output).expect("a file") == submission.unwrap_or(before), "{plain:?}");
    if submission.is_none() {
        let number = Number::of(object.get("number").number() as u32).expect("a row");
        plain.tells(&[&format!(" refused: number {}, {}. ", number.number, number.word)]);
        assert!(text.contains("Nothing was written: "), "{text}");
        fs::remove_file(output).expect("removed");
        assert_eq!(with_options("assemble", &[], &arguments).out, lines);
        assert!(!output.exists());
    }
    plain
}

/// What was taken apart: roster, log and items as files, the items one by one, and the submission.
struct Parts {
    folder: Folder,
    roster: PathBuf,
    log: PathBuf,
    items: Vec<Vec<u8>>,
    submission: Vec<u8>,
}

impl Parts {
    /// Of the first submission of a sample.
    fn new(test: &str, name: &str) -> Parts {
        let folder = Folder::new(test);
        let [roster, first, _] = sample(name).map(|file| fs::read(file).expect("a sample"));
        let Apart { log, items } = Apart::of(&roster, &first);
        let (roster, log) = (folder.put("roster", &roster), folder.put("log", &log));
        Parts { folder, roster, log, items, submission: first }
    }

    fn output(&self) -> PathBuf {
        self.folder.0.join("submission")
    }

    /// With these items: the lines, and what is to be written.
    fn expect(&self, items: &[Vec<u8>], lines: &str, submission: Option<&[u8]>) -> Run {
        let items = self.folder.put("items", &items.concat());
        expect(&[&self.roster, &self.log, &items], &self.output(), lines, submission)
    }

    /// The lines and the whole explanation, unfolded.
    fn explained(&self) -> String {
        let items = self.folder.0.join("items");
        let files = [&self.roster, &self.log, &items, Path::new("-o"), &self.output()];
        with_options("assemble", &["--explain"], &files).unfolded()
    }
}

const LARGE: &str = "refusal 0\nlength 28662\nrecords 182\nterm 4 board 1 signers 1 2 3 4 5\n\
    term 5 board 2 signers 2 3 4 5 6\ncommit 182 signers 3 4 5 6 7\n";

/// The sample gives its lines and its submission, by its folder and by its files.
#[test]
fn the_samples_lines() {
    let (folder, sample) = (Folder::new("assemble_sample"), repository("samples/assemble"));
    let output = folder.0.join("written");
    let lines = fs::read_to_string(sample.join("expected")).expect("lines");
    let submission = fs::read(sample.join("submission")).expect("a submission");
    let files = ["roster", "log", "items"].map(|file| sample.join(file));
    let by_files =
        expect(&files.each_ref().map(PathBuf::as_path), &output, &lines, Some(&submission));
    let by_folder = expect(&[&sample], &output, &lines, Some(&submission));
    assert_eq!((by_files.err.as_str(), by_folder.err.as_str()), ("", ""));
    let audit = with_options("audit", &[], &[&files[0], &output, &output]);
    assert!(audit.status == 0 && audit.out.starts_with("refusal 0 in 0\n"), "{audit:?}");
}

/// A submission that was taken apart comes together again, in any order and with every item twice;
/// who signed is told, and how many items went in.
#[test]
fn taken_apart() {
    let large = Parts::new("assemble_taken_apart", "large");
    let whole = Some(&large.submission[..]);
    assert_eq!(large.expect(&large.items, LARGE, whole).err, "");
    assert!(large.explained().contains("Of 17 items it took in 17: 10 votes, 2 stamps and 5 rec"));
    let twice: Vec<_> = large.items.iter().rev().chain(&large.items).cloned().collect();
    assert_eq!(large.expect(&twice, LARGE, whole).err, "");
    let text = large.explained();
    assert!(text.contains("Of 34 items it took in 17: "), "{text}");
    assert!(text.contains("Board 1 led term 4, in which records 1 to 100 of the log"), "{text}");
    assert!(text.contains("votes of boards 2, 3, 4, 5 and 6, and it stamped record 182"), "{text}");

    let signature = large.items[0].len() - 2 - 63;
    let uncommitted = [
        &large.submission[..large.submission.len() - 44 - 6 - 5 * signature],
        &large.submission[large.submission.len() - 44..],
    ]
    .concat();
    let without: Vec<_> = large.items.iter().filter(|item| item[2] != 2).cloned().collect();
    let lines = "refusal 0\nlength 22196\nrecords 182\nterm 4 board 1 signers 1 2 3 4 5\n\
        term 5 board 2 signers 2 3 4 5 6\ncommit 0\n";
    let shorter = uncommitted_trailer(uncommitted, 6 + 5 * signature);
    large.expect(&without, lines, Some(&shorter));
    assert!(large.explained().contains("No record is committed: "));
}

/// The submission without its commit certificate: each distance is shorter by that, and the fourth 0.
fn uncommitted_trailer(mut submission: Vec<u8>, shorter: usize) -> Vec<u8> {
    let trailer = submission.len() - 44;
    for place in 0..4 {
        let field = &mut submission[trailer + 24 + 4 * place..][..4];
        let distance = u32::from_be_bytes([field[0], field[1], field[2], field[3]]);
        field.copy_from_slice(&(distance - shorter as u32).to_be_bytes());
    }
    submission
}

/// The numbers of the roster and of the log, which say what is wrong with this log.
#[test]
fn roster_and_log() {
    let parts = Parts::new("assemble_roster_and_log", "one_leader");
    let items = parts.folder.put("items", &parts.items.concat());
    let bytes = fs::read(&parts.roster).expect("a roster");
    for (number, wrong) in wrong_rosters(&bytes) {
        let roster = parts.folder.put("wrong", &wrong);
        let lines = format!("refusal {number}\n");
        let run = expect(&[&roster, &parts.log, &items], &parts.output(), &lines, None);
        run.tells(&[&format!("the roster {} (", quoted(&roster))]);
    }
    let cut = parts.folder.put("cut", &bytes[..100]);
    expect(&[&cut, &parts.log, &items], &parts.output(), "refusal 2\n", None)
        .tells(&["186 bytes, but it has 100 bytes: it seems to be cut short"]);

    let record = |term: u32| [&term.to_be_bytes()[..], &[0; 32]].concat();
    let terms: Vec<u8> = (1..=65).flat_map(record).collect();
    let logs: [(u32, Vec<u8>, &str); 5] = [
        (8, record(1)[1..].to_vec(), "This one has 0 records, and 35 bytes more."),
        (8, record(1).repeat(4097), "This one has more than 4,096 records."),
        (8, terms, "This one has more than 64 terms."),
        (11, [record(5), record(4)].concat(), "Record 2 has term 4 after 5."),
        (11, record(0), "Record 1 has term 0."),
    ];
    for (number, bytes, told) in logs {
        let log = parts.folder.put("other", &bytes);
        let lines = format!("refusal {number}\n");
        let run = expect(&[&parts.roster, &log, &items], &parts.output(), &lines, None);
        run.tells(&[&format!("the log {} (", quoted(&log)), " was refused: number ", told]);
    }
    let whole = parts.folder.put("whole", &parts.submission);
    let run = expect(&[&parts.roster, &whole, &items], &parts.output(), "refusal 8\n", None);
    let told = format!("{} looks like a submission: its log is its first 36 bytes", quoted(&whole));
    run.tells(&[&told]);
}

/// A number of four digits, with its comma.
fn grouped(number: usize) -> String {
    format!("{},{:03}", number / 1000, number % 1000)
}

/// Items that break off, and items of no known kind: where, and why.
#[test]
fn broken_items() {
    let parts = Parts::new("assemble_broken_items", "one_leader");
    let size = parts.items[0].len();
    let mut kind = parts.items[2].clone(); // the stamp
    kind[2] = 4;
    let first = &parts.items[0];
    let of = |number: usize, before: &str| {
        let name = quoted(&parts.folder.0.join("items"));
        format!("item {number} in {name}, which begins after {before} bytes, ")
    };
    let two = grouped(2 * size);
    let cases = [
        (vec![first[..2].to_vec()], "after 0 items and 0 bytes ".into()),
        (vec![first.clone(), vec![0]], format!("after 1 item and {} bytes ", grouped(size))),
        (vec![first[..3].to_vec()], of(1, "0") + "would have 1,357 bytes, and 3 are left"),
        (vec![first[..size - 1].to_vec()], of(1, "0") + "would have 1,357 bytes, and 1,356 are"),
        (vec![kind.clone(), first.clone()], of(1, "0") + "has kind 4\n"),
        (vec![first.clone(), first.clone(), kind], of(3, &two) + "has kind 4\n"),
    ];
    for (items, told) in cases {
        let run = parts.expect(&items, "refusal 19\n", None);
        run.tells(&["the items ", " were refused: number 19, item. ", &told]);
    }
}

/// The first term that has no leader is named, with what it needs and what the items have for it.
#[test]
fn no_leader() {
    let large = Parts::new("assemble_no_leader", "large");
    let without = |kind: u8, replica: u8, term: u8| {
        let at = 2 + 17 + if kind == 3 { 2 } else { 0 } + 3;
        let left_out = |item: &&Vec<u8>| (item[2], item[1], item[at]) != (kind, replica, term);
        let left: Vec<Vec<u8>> = large.items.iter().filter(left_out).cloned().collect();
        assert_eq!(left.len(), large.items.len() - 1);
        left
    };
    // Changed by a byte, so that its signature is bad: the vote of board 3, for board 7, of which
    // there is a stamp too; and for board 10, which the roster does not have.
    let is = |item: &&Vec<u8>, kind: u8, term_at: usize| item[2] == kind && item[term_at] == 4;
    let mut stamp = large.items.iter().find(|item| is(item, 1, 22)).expect("a stamp").clone();
    stamp[1] = 7;
    let votes = large.items.iter().filter(|item| is(item, 3, 24));
    let [mut other, mut unknown] = [(); 2]
        .map(|()| votes.clone().find(|item| item[1] == 3).expect("a vote of board 3").clone());
    (other[20], unknown[20]) = (7, 10);
    let two = [without(3, 3, 4), vec![other.clone(), unknown]].concat();
    let parted = [without(3, 3, 4), vec![stamp.clone(), other]].concat();
    let stamped = [without(3, 3, 4), vec![stamp]].concat();
    let cases = [
        (without(3, 3, 4), 4, "for board 1: votes of 1, 2, 4 and 5, stamp"),
        (without(1, 1, 4), 4, "for board 1: votes of 1, 2, 3, 4 and 5, no stamp"),
        (without(3, 2, 5), 5, "for board 2: votes of 3, 4, 5 and 6, stamp"),
        (without(1, 2, 5), 5, "for board 2: votes of 2, 3, 4, 5 and 6, no stamp"),
        (vec![large.items[0].clone()], 4, "for board 1: vote of 1, no stamp"),
        (two, 4, "for board 1: votes of 1, 2, 4 and 5, stamp; for board 7: vote of 3, no stamp"),
        (parted, 4, "for board 1: votes of 1, 2, 4 and 5, stamp; for board 7: vote of 3, stamp"),
        (stamped, 4, "for board 1: votes of 1, 2, 4 and 5, stamp; for board 7: no votes, stamp"),
    ];
    for (items, term, given) in cases {
        let run = large.expect(&items, &format!("refusal 20\nterm {term} board 0\n"), None);
        run.tells(&[" were refused: number 20, no leader. ", &format!("such term is {term}.")]);
        let text = large.explained();
        assert!(text.contains(&format!(" and fit the log) {given}. If these")), "{text}");
        let needs = match term {
            4 => "on an empty log, and its stamp on record 100.",
            _ => "on a log that ends with record 100, and its stamp on record 182.",
        };
        assert!(text.contains("the votes of 5 of the 9 boards, its own among them"), "{text}");
        assert!(text.contains(needs), "{text}");
        assert!(text.contains("If these are enough, then the log or roster is not"), "{text}");
        let shorter = format!(
            "missing, or assemble the log's first 100 records: `head -c 3600 {} > SHORTER`.",
            large.log.display()
        );
        assert_eq!(text.contains(&shorter), term == 5, "{text}");
        assert_eq!(text.contains("SHORTER"), term == 5, "{text}");
    }
    let shorter = large.folder.put("shorter", &fs::read(&large.log).expect("a log")[..3600]);
    let items = large.folder.put("items", &without(1, 2, 5).concat());
    let files = [&large.roster, &shorter, &items, Path::new("-o"), &large.output()];
    let run = with_options("assemble", &[], &files);
    assert!(run.status == 0 && run.out.contains("\nrecords 100\nterm 4 board 1 "), "{run:?}");
    let run = large.expect(&[], "refusal 20\nterm 4 board 0\n", None);
    run.tells(&[&format!("{} is empty: copy it", quoted(&large.folder.0.join("items")))]);
    assert!(large.explained().contains(" and fit the log) no vote and no stamp. "));
    let strangers = Parts::new("assemble_strangers", "one_leader").items;
    large.expect(&strangers, "refusal 20\nterm 4 board 0\n", None).tells(&[
        "has the roster's cluster name 58df3590f0b0571c",
        "look for the roster of that district",
    ]);
}

/// An empty log has a submission, and it is said that it is one.
#[test]
fn empty_log() {
    let parts = Parts::new("assemble_empty_log", "one_leader");
    let log = parts.folder.put("empty", b"");
    let items = parts.folder.put("items", &parts.items.concat());
    let lines = "refusal 0\nlength 44\nrecords 0\ncommit 0\n";
    let submission = fs::read(&sample("empty")[1]).expect("a sample");
    for items in [&items, &log] {
        let files: [&Path; 3] = [&parts.roster, &log, items];
        let run = expect(&files, &parts.output(), lines, Some(&submission));
        run.tells(&[&format!(
            "{} is empty, so {} is now the submission of an empty log, of 44 bytes: if that was \
             not meant, copy the log again and assemble again\n",
            quoted(&log),
            quoted(&parts.output())
        )]);
        assert_eq!(run.err.lines().count(), 1, "{run:?}");
    }
}

/// In every wrong order the right one is told, and nothing else.
#[test]
fn orders() {
    let parts = Parts::new("assemble_orders", "one_leader");
    let items = parts.folder.put("items", &parts.items.concat());
    let (r, l, i): (&Path, &Path, &Path) = (&parts.roster, &parts.log, &items);
    let told = format!(
        "the files are in the wrong order: they can be read with the roster {}, the log {} and the \
         items {}",
        quoted(r),
        quoted(l),
        quoted(i)
    );
    let orders = [([r, i, l], 8), ([l, r, i], 2), ([l, i, r], 2), ([i, r, l], 2), ([i, l, r], 2)];
    for (files, number) in orders {
        let run = expect(&files, &parts.output(), &format!("refusal {number}\n"), None);
        run.tells(&[&told]);
        assert_eq!(run.err.lines().count(), 3, "{run:?}");
    }
}

/// One file in two places or in all three, and a submission in the place of the items.
#[test]
fn misplaced() {
    let parts = Parts::new("assemble_misplaced", "one_leader");
    let items = parts.folder.put("items", &parts.items.concat());
    let link = parts.folder.0.join("link");
    std::os::unix::fs::symlink("log", &link).expect("a link");
    let (r, l, i): (&Path, &Path, &Path) = (&parts.roster, &parts.log, &items);
    let cases: [([&Path; 3], u32, &Path, &str); 6] = [
        ([r, l, l], 19, l, "is named as log and as items"),
        ([r, l, &link], 19, l, "is named as log and as items"),
        ([r, i, i], 8, i, "is named as log and as items"),
        ([r, r, i], 8, r, "is named as roster and as log"),
        ([i, l, i], 2, i, "is named as roster and as items"),
        ([l, l, l], 2, l, "is named as roster, as log and as items"),
    ];
    for (files, number, file, told) in cases {
        let run = expect(&files, &parts.output(), &format!("refusal {number}\n"), None);
        run.tells(&[&format!("hirelog: {} {told}\n", quoted(file))]);
        assert_eq!(run.err.lines().count(), 3, "{run:?}");
    }
    // The same bytes in two files are no mistake by themselves: then it is said where they break off.
    let copy = parts.folder.put("copy", &fs::read(l).expect("a log"));
    let run = expect(&[r, l, &copy], &parts.output(), "refusal 19\n", None);
    run.tells(&[" has kind 0\n"]);
    let whole = parts.folder.put("whole", &parts.submission);
    let run = expect(&[r, l, &whole], &parts.output(), "refusal 19\n", None);
    run.tells(&[&format!("hirelog: {} looks like a submission, not items\n", quoted(&whole))]);
    assert_eq!(run.err.lines().count(), 3, "{run:?}");
}

/// Folders of other commands, and of this one given to others.
#[test]
fn folders() {
    let folder = Folder::new("assemble_folders");
    let output = folder.0.join("x");
    let run = |name: &str| {
        let arguments = [Path::new("-o"), &output, &repository("samples").join(name)];
        with_options("assemble", &[], &arguments)
    };
    let instead = "or name the three files (hirelog assemble ROSTER LOG ITEMS -o FILE)\n";
    run("one_leader")
        .fails(74, &["has no file log or items, with", instead, "hirelog audit takes"]);
    run("district").fails(74, &["has no file log or items, with", "hirelog district takes such"]);
    for name in ["roster", "log", "items"] {
        folder.put(name, b"");
    }
    for name in ["audit", "district"] {
        let run = with_options(name, &[], &[&folder.0]);
        run.fails(
            74,
            &["has the files roster, log, items: hirelog assemble takes such a folder\n"],
        );
    }
}

/// What cannot be written: nothing is printed but why, and nothing else changes.
#[test]
fn outputs() {
    let parts = Parts::new("assemble_outputs", "one_leader");
    let items = parts.folder.put("items", &parts.items.concat());
    let run = |output: &Path| {
        let arguments = [&parts.roster, &parts.log, &items, Path::new("-o"), output];
        with_options("assemble", &[], &arguments)
    };
    let names = || {
        let entries = fs::read_dir(&parts.folder.0).expect("a folder");
        let mut names: Vec<_> = entries.map(|entry| entry.expect("a file").file_name()).collect();
        names.sort();
        names
    };
    let before = names();
    run(&parts.folder.0).fails(74, &["is a folder, and a file is to be written: name one in it"]);
    let nowhere = parts.folder.0.join("none").join("x");
    run(&nowhere).fails(74, &[&quoted(&nowhere), "for there is no such folder"]);
    let folder = parts.folder.0.join("new/");
    let told = "names a folder, and a file is to be written: leave out the last /\n";
    run(&folder).fails(74, &[&format!("{} {told}", quoted(&folder))]);
    run(Path::new("/dev/full")).fails(74, &["\"/dev/full\" cannot be written ("]);
    assert_eq!(run(Path::new("/dev/null")).status, 0);
    for (file, name) in [(&parts.roster, "roster"), (&parts.log, "log"), (&items, "items")] {
        let told = format!("{} is the file of the {name}, which would be lost", quoted(file));
        let bytes = fs::read(file).expect("a file");
        run(file).fails(64, &[&told, "for more: hirelog assemble --help"]);
        for link in ["hard", "soft"] {
            let path = parts.folder.0.join(link);
            match link {
                "hard" => fs::hard_link(file, &path).expect("a link"),
                _ => std::os::unix::fs::symlink(file, &path).expect("a link"),
            }
            run(&path).fails(64, &[&format!("is the file of the {name}")]);
            fs::remove_file(&path).expect("removed");
        }
        assert!(fs::read(file).expect("a file") == bytes, "{name}");
    }
    assert_eq!(names(), before);
}

/// A file that is there is replaced, through a link too, and keeps its permissions; one that may not
/// be written is not. Nothing is left beside it.
#[test]
fn replaced() {
    let parts = Parts::new("assemble_replaced", "one_leader");
    let items = parts.folder.put("items", &parts.items.concat());
    let old = parts.folder.put("old", b"old");
    let link = parts.folder.0.join("link");
    std::os::unix::fs::symlink("old", &link).expect("a link");
    let mode = |mode| fs::set_permissions(&old, fs::Permissions::from_mode(mode)).expect("a mode");
    let arguments = [&parts.roster, &parts.log, &items, Path::new("-o"), &link];
    mode(0o400);
    if fs::OpenOptions::new().write(true).open(&old).is_err() {
        let run = with_options("assemble", &[], &arguments);
        run.fails(74, &["may not be written (permission denied): name another file"]);
        assert_eq!(fs::read(&old).expect("a file"), b"old");
    }
    mode(0o640);
    assert_eq!(with_options("assemble", &[], &arguments).status, 0);
    assert!(fs::read(&old).expect("a file") == parts.submission);
    assert_eq!(fs::metadata(&old).expect("a file").permissions().mode() & 0o777, 0o640);
    assert!(link.is_symlink());
    fs::remove_file(&old).expect("removed");
    let run = with_options("assemble", &[], &arguments);
    run.fails(74, &["is a link that leads nowhere: name the file"]);
    assert!(link.is_symlink());
    assert_eq!(fs::read_dir(&parts.folder.0).expect("a folder").count(), 4);
}

/// What never ends: the library's numbers for roster and log, and too long for items.
#[test]
fn endless() {
    let parts = Parts::new("assemble_endless", "one_leader");
    let items = parts.folder.put("items", &parts.items.concat());
    let endless = Path::new("/dev/zero");
    let run = |files: [&Path; 3]| {
        with_options("assemble", &[], &[&files[..], &[Path::new("-o"), &parts.output()]].concat())
    };
    let refused = run([endless, &parts.log, &items]);
    assert_eq!((refused.status, refused.out.as_str()), (2, "refusal 2\n"), "{refused:?}");
    let refused = run([&parts.roster, endless, &items]);
    assert_eq!((refused.status, refused.out.as_str()), (2, "refusal 8\n"), "{refused:?}");
    run([&parts.roster, &parts.log, endless]).fails(
        74,
        &["the items \"/dev/zero\" (more than 268,435,456 bytes) are more than are read"],
    );
    assert!(!parts.output().exists());
}
