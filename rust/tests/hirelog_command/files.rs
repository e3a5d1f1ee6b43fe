//! Files that are missing, unreadable, empty or too long: each message says which, why, and what to
//! do about it.

use crate::*;
use std::os::unix::fs::PermissionsExt;
use std::os::unix::process::CommandExt;

/// Each command with this file in each of its places, the others being there.
fn in_each_place(file: &Path) -> Vec<Vec<PathBuf>> {
    let [roster, first, second] = sample("one_leader");
    let mut runs = vec![vec!["sha256".into(), file.into()]];
    for name in ["audit", "district", "check", "assemble"] {
        for place in 1..=3 {
            let mut arguments = vec![name.into(), roster.clone(), first.clone(), second.clone()];
            arguments[place] = file.into();
            if name == "assemble" {
                arguments.extend(["-o".into(), "/dev/null".into()]);
            }
            runs.push(arguments);
        }
    }
    runs
}

/// Each of these fails with status 74 and says what was told.
fn unreadable(runs: Vec<Vec<PathBuf>>, told: &[&str]) {
    for arguments in runs {
        for option in ["--explain", "--json"] {
            let mut arguments = arguments.clone();
            arguments.insert(1, option.into());
            hirelog(&arguments).fails(74, told);
        }
        hirelog(&arguments).fails(74, told);
    }
}

#[test]
fn missing() {
    let folder = Folder::new("missing");
    let file = folder.0.join("none");
    unreadable(in_each_place(&file), &[&format!("there is no file {}: look at", quoted(&file))]);
    let beyond = folder.put("file", b"x").join("none");
    let told = [&quoted(&beyond)[..], "a part of that name is a file"];
    unreadable(in_each_place(&beyond), &told);
}

/// A folder where a file belongs, and a file or nothing where a folder belongs.
#[test]
fn folders() {
    let folder = Folder::new("folders");
    let told = format!("{} is a folder, and a file belongs here", quoted(&folder.0));
    unreadable(in_each_place(&folder.0), &[&told]);
    let file = folder.put("file", b"x");
    let told =
        format!("{} is a file, and a folder with the files roster, first, second", quoted(&file));
    unreadable(vec![vec!["audit".into(), file]], &[&told]);
    let none = folder.0.join("none");
    let told = format!("there is no folder {}: look at", quoted(&none));
    unreadable(vec![vec!["audit".into(), none]], &[&told]);
}

/// A folder that lacks files: one message names each of them, and no other.
#[test]
fn incomplete_folder() {
    let folder = Folder::new("incomplete_folder");
    let audit = || hirelog(&["audit".as_ref(), folder.0.as_os_str()]);
    let names = ["roster", "first", "second"];
    for present in 0..3 {
        let run = audit();
        let missing = [
            "roster, first or second, with exactly these names: rename them",
            "first or second, with exactly these names: rename them",
            "second, with exactly this name: rename it",
        ];
        let told = format!("the folder {} has no file {}", quoted(&folder.0), missing[present]);
        run.fails(74, &[&told, ", or name the three files (hirelog audit ROSTER FIRST SECOND)\n"]);
        assert_eq!(run.err.lines().count(), 1, "{run:?}");
        fs::copy(&sample("one_leader")[present], folder.0.join(names[present])).expect("copied");
    }
    assert_eq!(audit().status, 1);
    fs::rename(folder.0.join("first"), folder.0.join("First")).expect("renamed");
    audit().fails(74, &["has no file first, with exactly this name"]);
    std::os::unix::fs::symlink("nowhere", folder.0.join("first")).expect("a link");
    audit().fails(74, &[&format!("there is no file {}", quoted(&folder.0.join("first")))]);
}

/// What would be said more than once is said once: of one name, and of several empty files.
#[test]
fn once() {
    let folder = Folder::new("once");
    let none = folder.0.join("none");
    for name in ["audit", "district", "check", "assemble"] {
        let options: &[&str] = if name == "assemble" { &["-o", "/dev/null"] } else { &[] };
        let run = with_options(name, options, &[&none, &none, &none]);
        run.fails(74, &["there is no file"]);
        assert_eq!(run.err.lines().count(), 1, "{run:?}");
    }
    let [a, b, c] = ["a", "b", "c"].map(|name| folder.put(name, b""));
    let [one, two, three] = [&a, &b, &c].map(|file| quoted(file));
    for (files, told) in [
        ([&a, &a, &a], format!("{one} is empty: copy it again")),
        ([&a, &b, &b], format!("{one} and {two} are empty: copy them again")),
        ([&a, &b, &c], format!("{one}, {two} and {three} are empty: copy them again")),
    ] {
        let run = with_options("audit", &[], &files);
        run.tells(&[&told]);
        assert_eq!(run.err.lines().count(), 3, "{run:?}");
    }
    let [roster, ..] = sample("one_leader");
    let run = with_options("audit", &["--json"], &[&roster, &roster, &roster]);
    let object = crate::json::read(&run.out);
    assert_eq!(object.get("hints").list().len(), 1, "{run:?}");
}

/// A name that a shell parted at its blanks.
#[test]
fn blanks() {
    let folder = Folder::new("blanks");
    let run = |arguments: &[&str]| {
        Run::of(command(arguments).current_dir(&folder.0).output().expect("runs"))
    };
    let told = "\"Depot Koeln 1\" is there: a name with blanks needs quotes";
    let lost = run(&["audit", "Depot", "Koeln", "1"]);
    assert!(lost.status == 74 && !lost.err.contains("blanks"), "{lost:?}");
    fs::create_dir(folder.0.join("Depot Koeln 1")).expect("a folder");
    run(&["audit", "Depot", "Koeln", "1"]).fails(74, &[told]);
    run(&["sha256", "Depot", "Koeln", "1"]).fails(64, &[told]);
    run(&["audit", "Depot Koeln 1"]).fails(74, &["the folder \"Depot Koeln 1\" has no file"]);
}

/// Files that may not be read. Root may read all, so that the command is then run as another user.
#[test]
fn forbidden() {
    let folder = Folder::new("forbidden");
    let file = folder.put("secret", b"x");
    fs::set_permissions(&file, fs::Permissions::from_mode(0o000)).expect("permissions");
    let is_root = fs::File::open(&file).is_ok();
    let locked = folder.0.join("locked");
    fs::create_dir(&locked).expect("a folder");
    fs::set_permissions(&locked, fs::Permissions::from_mode(0o600)).expect("permissions");
    // Its files can be read, but not listed, and a district's run has to know how many there are.
    let unlisted = folder.0.join("unlisted");
    fs::create_dir(&unlisted).expect("a folder");
    for (name, file) in ["roster", "1", "2"].iter().zip(sample("one_leader")) {
        fs::copy(file, unlisted.join(name)).expect("copied");
    }
    let mode = if is_root { 0o711 } else { 0o100 };
    fs::set_permissions(&unlisted, fs::Permissions::from_mode(mode)).expect("permissions");
    let told_of_unlisted = format!("the folder {} may not be read (permission", quoted(&unlisted));
    let told_of_file = format!("{} may not be read (permission denied): ask", quoted(&file));
    let told_of_folder = format!("the folder {} may not be read (permission", quoted(&locked));
    let runs = in_each_place(&file).into_iter().map(|arguments| (arguments, &told_of_file));
    let folders = [
        ("audit", &locked, &told_of_folder),
        ("district", &locked, &told_of_folder),
        ("district", &unlisted, &told_of_unlisted),
    ]
    .map(|(name, folder, told)| (vec![name.into(), folder.clone()], told));
    let output = ["-o", "/dev/null"].map(PathBuf::from);
    let assembled = [PathBuf::from("assemble"), locked.clone()].into_iter().chain(output).collect();
    let folders = folders.into_iter().chain([(assembled, &told_of_folder)]);
    for (arguments, told) in runs.chain(folders) {
        let mut run = command(&arguments);
        if is_root {
            run.uid(65534).gid(65534);
        }
        match run.output() {
            Ok(output) => {
                let run = Run::of(output);
                run.fails(74, &[told]);
                assert_eq!(run.err.lines().count(), 1, "{run:?}");
            }
            Err(error) if is_root => {
                println!("note: not tried, for another user cannot run the command: {error}");
                return;
            }
            Err(error) => panic!("{error}"),
        }
    }
}

/// Files of no bytes.
#[test]
fn empty() {
    let folder = Folder::new("empty");
    let empty = folder.put("empty", b"");
    let told = format!("{} is empty: copy it again", quoted(&empty));
    let places = [(0, "refusal 2 in 0"), (1, "refusal 5 in 1"), (2, "refusal 5 in 2")];
    for (place, line) in places {
        let mut files = sample("one_leader");
        files[place] = empty.clone();
        let run = with_options("audit", &[], &files);
        assert_eq!((run.status, run.out.clone()), (2, format!("{line}\nfork 0\n")));
        run.tells(&[&told]);
        let explained = with_options("audit", &["--explain"], &files);
        assert!(explained.unfolded().contains(&format!("Hint: {told}")), "{explained:?}");
    }
}

/// The longest submission, what is longer, and what never ends: the library's own numbers. The
/// longest is read to its end, for its trailer is good, and its layout is what is wrong.
#[test]
fn long_files() {
    let folder = Folder::new("long_submissions");
    let empty = fs::read(repository("crates/test_submission/data/n00")).expect("a submission");
    let ending = |size: usize| [&vec![0; size - empty.len()], &empty[..]].concat();
    let longest = folder.put("longest", &ending(2_097_152));
    let longer = folder.put("longer", &ending(2_097_153));
    let expect = |place: usize, file: &Path, line: &str, told: &str| {
        let mut files = sample("empty");
        files[place] = file.into();
        let run = with_options("audit", &[], &files);
        assert_eq!((run.status, run.out.clone()), (2, format!("{line}\nfork 0\n")));
        run.tells(&[&format!("{} ({told})", quoted(file))]);
    };
    expect(0, &longest, "refusal 2 in 0", "2,097,152 bytes");
    expect(1, &longest, "refusal 9 in 1", "2,097,152 bytes");
    expect(2, &longest, "refusal 9 in 2", "2,097,152 bytes");
    for file in [&longer, Path::new("/dev/zero")] {
        expect(0, file, "refusal 2 in 0", "more than 2,097,152 bytes");
        expect(1, file, "refusal 5 in 1", "more than 2,097,152 bytes");
        expect(2, file, "refusal 5 in 2", "more than 2,097,152 bytes");
    }
}

/// A roster gets number 2 at every length that no roster has, also those past the longest.
#[test]
fn long_rosters() {
    let folder = Folder::new("long_rosters");
    let [roster, first, second] = sample("large");
    let bytes = fs::read(roster).expect("a roster");
    for size in [521, 523, 578, 1024, 1025, 3_000_000] {
        let mut bytes = bytes.clone();
        bytes.resize(size, 0);
        let roster = folder.put("roster", &bytes);
        let run = with_options("audit", &[], &[roster, first.clone(), second.clone()]);
        assert_eq!((run.status, run.out.as_str()), (2, "refusal 2 in 0\nfork 0\n"), "{size}");
    }
}

/// An answer that cannot be written.
#[test]
fn full_disk() {
    let full = fs::OpenOptions::new().write(true).open("/dev/full").expect("/dev/full");
    let mut run = command(&["audit".into(), repository("samples/one_leader")]);
    run.stdout(full);
    let run = Run::of(run.output().expect("runs"));
    run.fails(74, &["the answer cannot be written"]);
    assert!(run.err.ends_with(")\n"), "{run:?}");
}

/// The same of a command that writes a file: it is there if it was assembled, and that is said.
#[test]
fn full_disk_assembling() {
    let folder = Folder::new("full_disk_assembling");
    let [made, refused] = ["made", "refused"].map(|name| folder.0.join(name));
    let sample = repository("samples/assemble");
    let run = |items: &Path, output: &Path| {
        let full = fs::OpenOptions::new().write(true).open("/dev/full").expect("/dev/full");
        let [roster, log] = ["roster", "log"].map(|name| sample.join(name));
        let mut run = command(&["assemble"]);
        run.args([&roster, &log, items, Path::new("-o"), output]).stdout(full);
        Run::of(run.output().expect("runs"))
    };
    let told = format!("); {} is written\n", quoted(&made));
    run(&sample.join("items"), &made).fails(74, &["the answer cannot be written (", &told]);
    let submission = fs::read(sample.join("submission")).expect("a sample");
    assert!(fs::read(&made).expect("a file") == submission);
    let without = run(Path::new("/dev/null"), &refused);
    without.fails(74, &["the answer cannot be written ("]);
    assert!(!without.err.contains("is written") && !refused.exists(), "{without:?}");
}
