//! hirelog district: its lines, its explanations and its JSON, for the sample and for each number.

use crate::asked::{wrong_rosters, Asked};
use crate::json::Value;
use crate::*;
use hirelog::numbers::Number;

/// The lines that an object says.
fn lines_of(object: &Value) -> String {
    let number = object.get("number").number();
    let mut lines = format!("refusal {number}\n");
    for (position, own) in (1..).zip(object.get("submissions").list()) {
        let number = own.get("number").number();
        assert_eq!(own.get("word").text(), Number::of(number as u32).expect("a row").word);
        lines += &format!("submission {position} number {number}\n");
    }
    if number == 0 {
        let pair = object.get("fork").list();
        lines += &format!("fork {} {}\n", pair[0].number(), pair[1].number());
    }
    for named in object.get("named").list() {
        assert_eq!(named.names(), ["board"]);
        lines += &format!("board {}\n", named.get("board").number());
    }
    lines
}

/// How many files these lines say were refused, the run as a whole among them.
fn refused(lines: &str) -> usize {
    let accepted = |line: &&str| *line == "refusal 0" || line.ends_with(" number 0");
    let told = lines.lines().filter(|line| line.contains("refusal") || line.contains("number"));
    told.filter(|line| !accepted(line)).count()
}

/// All ways to ask for a run give these lines and this status, with the texts of their numbers; the
/// plain run is given.
fn expect<F: AsRef<OsStr>>(files: &[F], lines: &str, status: i32) -> Run {
    let plain = with_options("district", &[], files);
    assert_eq!((plain.out.as_str(), plain.status), (lines, status), "{plain:?}");
    let asked = Asked { command: "district", files, plain: &plain, refused: refused(lines) };
    let names = ["command", "number", "word", "submissions", "fork", "named", "files", "hints"];
    let object = asked.object(&names);
    assert_eq!(lines_of(&object), lines);
    assert_eq!(object.get("fork").list().len(), 2);
    let named = object.get("files");
    assert_eq!(named.names(), ["roster", "submissions"]);
    if files.len() > 1 {
        let given: Vec<String> =
            files.iter().map(|file| file.as_ref().to_string_lossy().into()).collect();
        let submissions = named.get("submissions").list().iter().map(Value::text);
        let told: Vec<&str> = [named.get("roster").text()].into_iter().chain(submissions).collect();
        assert_eq!(told, given);
    }
    let text = asked.explanation(&object);
    for line in lines.lines().filter(|line| refused(line) == 1) {
        let number = line.rsplit(' ').next().expect("a number").parse().expect("a number");
        let row = Number::of(number).expect("a row");
        assert!(text.contains(row.meaning) && text.contains(row.advice), "{text}");
        assert!(plain.err.contains(&format!(": number {number}, {}. ", row.word)), "{plain:?}");
        assert!(plain.err.contains(row.meaning), "{plain:?}");
    }
    plain
}

/// What a run is explained by.
fn explained<F: AsRef<OsStr>>(files: &[F]) -> String {
    with_options("district", &["--explain"], files).unfolded()
}

/// The sample's roster and submissions.
fn the_sample() -> Vec<PathBuf> {
    let folder = repository("samples/district");
    let submissions = (1..).map(|position: usize| folder.join(position.to_string()));
    let there = submissions.take_while(|path| path.exists());
    [folder.join("roster")].into_iter().chain(there).collect()
}

/// The sample gives its lines, by its folder and by its files. The audits that --explain gives for
/// the pair that forks can be run as they stand, and find a fork.
#[test]
fn the_samples_lines() {
    let folder = repository("samples/district");
    let lines = fs::read_to_string(folder.join("expected")).expect("lines");
    let by_files = expect(&the_sample(), &lines, 1);
    let by_folder = expect(&[&folder], &lines, 1);
    assert_eq!(by_files.err, by_folder.err);
    let text = explained(&[&folder]);
    let (_, after) = text.split_once("audit the two: `hirelog ").expect("a command line");
    let (line, _) = after.split_once('`').expect("its end");
    let audit = hirelog(&line.split(' ').collect::<Vec<_>>());
    assert!(audit.status == 1 && !audit.out.contains("fork 0\n"), "{line}: {audit:?}");
}

/// The seven pairs that are samples are runs of two.
#[test]
fn pairs() {
    for name in PAIRS {
        let folder = repository("samples").join(name);
        let audit = fs::read_to_string(folder.join("expected")).expect("lines");
        let fork = if audit.contains("fork 0\n") { "fork 0 0\n" } else { "fork 1 2\n" };
        let mut lines = format!("refusal 0\nsubmission 1 number 0\nsubmission 2 number 0\n{fork}");
        for line in audit.lines().filter(|line| line.starts_with("board")) {
            lines += &format!("{}\n", &line[..line.find(" rule").expect("a rule")]);
        }
        let run = expect(&sample(name), &lines, i32::from(lines.contains("board")));
        assert_eq!(run.err, "", "two empty logs may have the same bytes");
    }
    assert!(explained(&sample("empty")).contains("No board is named"));
    let told = explained(&sample("one_leaf"));
    assert!(
        told.contains("or two with one leaf of its key") && !told.contains("No board is named")
    );
}

/// Each number of a submission, first, last and between; nobody is named, so the status is 2.
#[test]
fn submission_numbers() {
    let data = repository("crates/test_submission/data");
    let [roster, whole] = ["roster", "n00"].map(|name| data.join(name));
    for number in 5..=15 {
        let file = data.join(format!("n{number:02}"));
        for place in 0..3 {
            let mut files = vec![roster.clone(), whole.clone(), whole.clone(), whole.clone()];
            files[1 + place] = file.clone();
            let mut numbers = [0; 3];
            numbers[place] = number;
            let own = (1..).zip(numbers).map(|(i, m)| format!("submission {i} number {m}\n"));
            let lines = format!("refusal 0\n{}fork 0 0\n", own.collect::<String>());
            let run = expect(&files, &lines, 2);
            let told = format!("submission {}, {} ", place + 1, quoted(&file));
            run.tells(&[&told, &format!("was refused: number {number}, ")]);
        }
    }
}

/// A refused submission beside two that name a board: the board decides the status, and the refusal
/// is told all the same. Positions count the refused ones too.
#[test]
fn named_and_refused() {
    let folder = Folder::new("named_and_refused");
    let [roster, first, second] = sample("one_leader");
    let mut bytes = fs::read(&second).expect("a sample");
    bytes[36 + 48 + 100] ^= 1;
    let [empty, bad] = [("empty", &[][..]), ("bad", &bytes)].map(|(n, b)| folder.put(n, b));
    let files = [&roster, &empty, &first, &bad, &second];
    let lines = "refusal 0\nsubmission 1 number 5\nsubmission 2 number 0\nsubmission 3 number 15\n\
        submission 4 number 0\nfork 2 4\nboard 1\n";
    let run = expect(&files, lines, 1);
    let told = [
        format!("hirelog: submission 1, {} (0 bytes), was refused: number 5, ", quoted(&empty)),
        format!("hirelog: submission 3, {} (", quoted(&bad)),
        format!("{} is empty: copy it again", quoted(&empty)),
    ];
    run.tells(&told.each_ref().map(String::as_str));
    assert_eq!(run.err.lines().count(), 4, "{run:?}");
    assert!(!run.err.contains("look at the roster"), "{run:?}");
    let text = explained(&files);
    for part in [
        "4 submissions were judged, each by itself. 2 were accepted, and every two",
        "Submissions 2 and 4 both committed a record at one index, and not the same one.",
        "Board 1 signed two statements that contradict each other",
        "Have board 1 taken out of use",
        &format!("`hirelog audit {} {} {}`.", shown(&roster), shown(&first), shown(&second)),
        "Run again when it is mended.",
    ] {
        assert!(text.contains(part), "{part}: {text}");
    }
}

/// One accepted submission, or none: nothing was compared, and the zeros do not say otherwise.
#[test]
fn nothing_to_compare() {
    let folder = Folder::new("nothing_to_compare");
    let [roster, first, _] = sample("one_leader");
    let text = folder.put("text", &[b'a'; 100]);
    let lines = "refusal 0\nsubmission 1 number 6\nsubmission 2 number 0\nfork 0 0\n";
    expect(&[&roster, &text, &first], lines, 2);
    let told = explained(&[&roster, &text, &first]);
    assert!(told.contains("Only one was accepted, so that nothing was compared."), "{told}");
    let lines = "refusal 0\nsubmission 1 number 6\nsubmission 2 number 6\nfork 0 0\n";
    expect(&[&roster, &text, &text], lines, 2);
    let told = explained(&[&roster, &text, &text]);
    assert!(told.contains("None was accepted, so that nothing was compared."), "{told}");
    assert!(told.contains("these zeros say nothing of the logs"), "{told}");
    assert!(!told.contains("No board is named"), "{told}");
}

/// Three accepted submissions: which pairs to audit, with a fork and without.
#[test]
fn which_pairs() {
    let [roster, first, second] = sample("one_leader");
    let own = "submission 1 number 0\nsubmission 2 number 0\nsubmission 3 number 0\n";
    let files = [&roster, &first, &first, &second];
    expect(&files, &format!("refusal 0\n{own}fork 1 3\nboard 1\n"), 1)
        .tells(&["have the same bytes"]);
    let text = explained(&files);
    let line = |files: [&Path; 3]| format!("`hirelog audit {}`", files.map(shown).join(" "));
    let part = format!("the two that part first: {}.", line([&roster, &first, &second]));
    assert!(text.contains(&part), "{part}: {text}");
    let others =
        "If board 1 is not named there, audit every other two of the accepted submissions \
        1, 2 and 3 in the same way.";
    assert!(text.contains(others), "{text}");
}

fn shown(path: &Path) -> String {
    path.display().to_string()
}

/// The numbers of a roster, whatever and however many the submissions are: the only line.
#[test]
fn roster_numbers() {
    let folder = Folder::new("district_roster_numbers");
    let [roster, first, second] = sample("one_leader");
    let bytes = fs::read(&roster).expect("a roster");
    for (number, wrong) in wrong_rosters(&bytes) {
        let roster = folder.put("roster", &wrong);
        for count in [1, 2, 9, 10] {
            let mut files = vec![roster.clone()];
            files.extend([&first, &second].into_iter().cycle().take(count).cloned());
            let run = expect(&files, &format!("refusal {number}\n"), 2);
            run.tells(&[&format!("the roster {} ", quoted(&roster)), "was refused: number "]);
        }
    }
    let run = expect(&[folder.put("cut", &bytes[..100]), first, second], "refusal 2\n", 2);
    run.tells(&["186 bytes, but it has 100 bytes: it seems to be cut short"]);
}

/// Fewer than two submissions or more than nine: the library's number, and how many there were. Of
/// very many the most are not even read.
#[test]
fn counts() {
    let [roster, first, _] = sample("empty");
    for (count, told) in [(1, "there was 1."), (10, "there were 10."), (200, "there were 200.")] {
        let mut files = vec![first.clone(); count];
        files.insert(0, roster.clone());
        let run = expect(&files, "refusal 17\n", 2);
        run.tells(&["the run was refused: number 17, length count. A district's run takes", told]);
    }
    for count in 2..=9 {
        let mut files = vec![first.clone(); count];
        files.insert(0, roster.clone());
        let own = (1..=count).map(|i| format!("submission {i} number 0\n")).collect::<String>();
        assert_eq!(expect(&files, &format!("refusal 0\n{own}fork 0 0\n"), 0).err, "");
    }
    let mut files = vec![PathBuf::from("/dev/zero"); 1000];
    files.insert(0, roster);
    expect(&files, "refusal 17\n", 2);
}

/// A folder's submissions go by their numbers, as far as they go without a gap.
#[test]
fn folders() {
    let folder = Folder::new("district_folders");
    let run = || hirelog(&["district".as_ref(), folder.0.as_os_str()]);
    let [roster, first, second] = sample("one_leader");
    let instead = "or name the files (hirelog district ROSTER FILE..)\n";
    run().fails(74, &["has no file roster, 1 or 2, with exactly these names", instead]);
    for (name, file) in [("roster", &roster), ("first", &first), ("second", &second)] {
        fs::copy(file, folder.0.join(name)).expect("copied");
    }
    let pair = "has the files roster, first, second: hirelog audit takes such a folder\n";
    run().fails(74, &["has no file 1 or 2, with exactly these names", pair]);
    folder.put("1", &fs::read(&first).expect("a sample"));
    let least = "a run takes two submissions at least, 1 and 2\n";
    run().fails(74, &["has no file 2, with exactly this name", instead, least]);
    for number in 2..=9 {
        folder.put(number.to_string(), &fs::read(&second).expect("a sample"));
        let run = run();
        assert_eq!(run.status, 1, "{run:?}");
        assert_eq!(run.out.matches("submission").count(), number, "{run:?}");
        assert!(run.out.ends_with("fork 1 2\nboard 1\n"), "{run:?}");
    }
    for name in ["02", "2026", "report", "expected", "3.old"] {
        folder.put(name, b"x");
    }
    assert_eq!(run().out.matches("number 0").count(), 9);
    run().tells(&["the folder also has \"02\", \"2026\" and \"3.old\", which the run passes by"]);
    folder.put("10", b"x");
    expect(&[&folder.0], "refusal 17\n", 2).tells(&["Here there were 10."]);
    fs::remove_file(folder.0.join("7")).expect("removed");
    run().fails(74, &["has a file 8, and no file 7: name the submissions 1, 2 and", instead]);
    fs::remove_file(folder.0.join("first")).expect("removed");
    let district = "has the files roster, 1, 2: hirelog district takes such a folder\n";
    hirelog(&["audit".as_ref(), folder.0.as_os_str()]).fails(74, &["no file first", district]);
    let file = folder.0.join("1");
    let told = format!("{} is a file, and a folder with the files roster, 1, 2", quoted(&file));
    hirelog(&["district".as_ref(), file.as_os_str()]).fails(74, &[&told]);
}

/// Files in each other's places.
#[test]
fn exchanged() {
    let [roster, first, second] = sample("one_leader");
    let [r, f, s] = [&roster, &first, &second];
    for files in [[f, r, s, s], [s, f, f, r]] {
        let told = format!("{} looks like a roster, and {} does not", quoted(r), quoted(files[0]));
        let run = expect(&files, "refusal 2\n", 2);
        run.tells(&[&told, "name the roster first, and then the submissions in their order"]);
        assert_eq!(run.err.lines().count(), 3, "{run:?}");
    }
    expect(&[f, r, s], "refusal 2\n", 2).tells(&["they seem to be exchanged"]);
    let told = format!("{} looks like a submission, and the roster belongs there", quoted(f));
    expect(&[f, s], "refusal 2\n", 2).tells(&[&told]);
    let told = format!("{} looks like a roster, and a submission belongs there", quoted(r));
    let lines = "refusal 0\nsubmission 1 number 6\nsubmission 2 number 0\n\
        submission 3 number 0\nfork 2 3\nboard 1\n";
    expect(&[r, r, f, s], lines, 1).tells(&[&told]);
}

/// Files of two districts, and a roster of another district or with a damaged key.
#[test]
fn districts() {
    let folder = Folder::new("districts");
    let [roster, first, second] = sample("one_leader");
    let [other, other_first, other_second] = sample("large");
    let [r, f, s, f2, s2] = [&roster, &first, &second, &other_first, &other_second];
    let lines = |numbers: &[u8], end: &str| {
        let own = (1..).zip(numbers).map(|(i, m)| format!("submission {i} number {m}\n"));
        format!("refusal 0\n{}{end}", own.collect::<String>())
    };
    let run = expect(&[r, f, f2, s], &lines(&[0, 7, 0], "fork 1 3\nboard 1\n"), 1);
    let name = format!("the cluster name in {} is 58df3590f0b0571c", quoted(f2));
    run.tells(&[&name, &format!("{} goes with the roster", quoted(f))]);
    let run = expect(&[r, f2, s2, s2], &lines(&[7, 7, 7], "fork 0 0\n"), 2);
    let have = format!("{} and {} have that name too", quoted(s2), quoted(s2));
    run.tells(&[&name, &have, "so look for the roster of that district"]);
    assert_eq!(run.err.matches("the cluster name in ").count(), 1, "{run:?}");
    expect(&[&other, f], "refusal 17\n", 2);

    let mut bytes = fs::read(r).expect("a roster");
    bytes[18 + 40] ^= 1;
    let damaged = folder.put("roster", &bytes);
    let told = format!("all submissions fail: look at the roster {} first", quoted(&damaged));
    expect(&[&damaged, f, s], &lines(&[15, 15], "fork 0 0\n"), 2).tells(&[&told]);
    let [_, empty, _] = sample("empty");
    expect(&[&damaged, &empty, f, s], &lines(&[0, 15, 15], "fork 0 0\n"), 2)
        .tells(&["all submissions that are no empty log fail: look at the roster"]);
    let twice = expect(&[&damaged, f, f], &lines(&[15, 15], "fork 0 0\n"), 2);
    assert!(!twice.err.contains("all submissions fail"), "{twice:?}");
}

/// Submissions that are the same: said once, with all their names.
#[test]
fn same_twice() {
    let [roster, first, second] = sample("one_leader");
    let [r, f, s] = [&roster, &first, &second];
    let own = |count| {
        let own = (1..=count).map(|i: usize| format!("submission {i} number 0\n"));
        own.collect::<String>()
    };
    let run = expect(&[r, f, f], &format!("refusal 0\n{}fork 0 0\n", own(2)), 0);
    let names = format!("{} and {} have the same bytes", quoted(f), quoted(f));
    run.tells(&[&names, "see that they are the two that you meant"]);
    let run = expect(&[r, f, s, f, s, f], &format!("refusal 0\n{}fork 1 2\nboard 1\n", own(5)), 1);
    let three = format!("{0}, {0} and {0} have the same bytes", quoted(f));
    let two = format!("{0} and {0} have the same bytes", quoted(s));
    run.tells(&[&three, &two, "are the 3 that you meant"]);
    assert_eq!(run.err.lines().count(), 2, "{run:?}");
}

/// The longest submission, what is longer, and what never ends: each its own number.
#[test]
fn long_files() {
    let folder = Folder::new("long_district");
    let empty = fs::read(repository("crates/test_submission/data/n00")).expect("a submission");
    let ending = |size: usize| [&vec![0; size - empty.len()], &empty[..]].concat();
    let longest = folder.put("longest", &ending(2_097_152));
    let longer = folder.put("longer", &ending(2_097_153));
    let other = folder.put("other", &[&ending(2_097_153)[..], b"x"].concat());
    let endless = PathBuf::from("/dev/zero");
    let [roster, first, _] = sample("empty");
    let files = [&roster, &longest, &first, &longer, &endless];
    let lines = "refusal 0\nsubmission 1 number 9\nsubmission 2 number 0\nsubmission 3 number 5\n\
        submission 4 number 5\nfork 0 0\n";
    let run = expect(&files, lines, 2);
    run.tells(&[
        &format!("{} (2,097,152 bytes), was refused: number 9", quoted(&longest)),
        &format!("{} (more than 2,097,152 bytes), was refused: number 5", quoted(&longer)),
        "submission 4, \"/dev/zero\" (more than 2,097,152 bytes), was refused: number 5",
        "This one has more than 2,097,152.",
    ]);
    // Only their beginnings are read: that these are alike says nothing.
    let lines = "refusal 0\nsubmission 1 number 5\nsubmission 2 number 5\nfork 0 0\n";
    let run = expect(&[&roster, &longer, &other], lines, 2);
    assert!(!run.err.contains("the same bytes"), "{run:?}");
}
