//! Wrong uses, and the help.

use crate::*;

#[test]
fn wrong_uses() {
    let uses: [(&[&str], &str); 37] = [
        (&[], "name a command: audit, district, assemble, check, sha256"),
        (&["adit", "x"], "no command \"adit\", but audit, district, assemble, check, sha256"),
        (&[""], "there is no command \"\""),
        (&["--explain", "audit", "x"], "stand after the command: hirelog audit --explain x\n"),
        (&["--json", "--", "check", "x y", "-"], ": hirelog check --json -- 'x y' -\n"),
        (
            &["--explain"],
            "options stand after the command: name one first: audit, district, assemble, check,",
        ),
        (&["--explain", "x"], "options stand after the command: name one first"),
        (&["-o", "x", "assemble", "a"], "options stand after the command: name one first"),
        (&["--loud", "audit", "x"], "there is no option \"--loud\""),
        (&["help", "adit"], "no command \"adit\", but audit, district, assemble, check, sha256"),
        (&["audit", "-"], "standard input is not read, but /dev/stdin can be named"),
        (&["check", "a", "-", "b"], "standard input is not read, but /dev/stdin can be named"),
        (&["sha256", "-"], "standard input is not read, but /dev/stdin can be named"),
        (&["audit"], "hirelog audit takes FOLDER or ROSTER FIRST SECOND, and 0 names were given"),
        (&["audit", "a", "b"], "and 2 names were given (a name with blanks needs quotes)\n"),
        (&["audit", "a", "b", "c", "d"], "and 4 names were given"),
        (&["audit", "--loud", "a"], "there is no option \"--loud\""),
        (&["audit", "a", "-x"], "there is no option \"-x\""),
        (&["audit", "a", "", "c"], "a file's name is empty"),
        (&["check", "a"], "hirelog check takes KEY MESSAGE SIGNATURE, and 1 name was given\n"),
        (&["check", "--json", "a", "b", "c", "d"], "and 4 names were given"),
        (&["district"], "hirelog district takes FOLDER or ROSTER FILE.., and 0 names were given"),
        (&["district", "a", "b", "-x"], "there is no option \"-x\""),
        (&["assemble", "a", "b", "c"], "hirelog assemble writes a file: name it by -o FILE\n"),
        (&["assemble", "-o", "x"], "FOLDER -o FILE or ROSTER LOG ITEMS -o FILE, and 0 names were"),
        (&["assemble", "a", "-o", "x", "b"], "and 2 names were given"),
        (&["assemble", "a", "-o"], "-o needs the name of a file after it\n"),
        (&["assemble", "a", "-o", "x", "-o", "y"], "-o stands there twice"),
        (
            &["assemble", "a", "-o", "--json"],
            "\"--json\" is an option (a file of this name is ./--",
        ),
        (&["assemble", "a", "-o", "-"], "\"-\" names no file: nothing but lines is printed"),
        (&["assemble", "a", "-o", "/dev/stdout"], "\"/dev/stdout\" names no file: nothing but lin"),
        (&["assemble", "a", "-o", "/dev/fd/1"], "\"/dev/fd/1\" names no file: nothing but lines"),
        (&["assemble", "a", "-o", ""], "a file's name is empty"),
        (
            &["assemble", "--", "a", "-o", "x"],
            "-o after -- counts as a name: put -o FILE before --\n",
        ),
        (&["audit", "a", "-o", "x"], "there is no option \"-o\""),
        (&["sha256"], "hirelog sha256 takes FILE, and 0 names were given"),
        (&["sha256", "a", "b"], "and 2 names were given"),
    ];
    for (arguments, told) in uses {
        let run = hirelog(arguments);
        run.fails(64, &[told, " --help"]);
        assert_eq!(run.err.lines().count(), 2, "{run:?}");
    }
}

/// Options may stand anywhere; after `--` names may begin with a dash.
#[test]
fn options() {
    let folder = Folder::new("options");
    folder.put("--json", b"abc");
    let run = |arguments: &[&str]| {
        Run::of(command(arguments).current_dir(&folder.0).output().expect("runs"))
    };
    let plain = run(&["sha256", "--", "--json"]);
    assert!(plain.status == 0 && plain.out.ends_with("  --json\n"), "{plain:?}");
    let object = run(&["sha256", "./--json", "--json"]);
    assert!(object.status == 0 && object.out.starts_with("{\"command\":"), "{object:?}");
    assert_eq!(run(&["sha256", "--json", "--", "--json"]).out.matches("--json").count(), 1);
    run(&["sha256", "--", "--help"]).fails(74, &["there is no file \"--help\""]);
}

/// The version is the package's.
#[test]
fn version() {
    for argument in ["version", "--version"] {
        let run = hirelog(&[argument]);
        let line = format!("hirelog {}\n", env!("CARGO_PKG_VERSION"));
        assert_eq!((run.status, run.out, run.err), (0, line, String::new()));
    }
}

/// Standard input, by its name.
#[test]
fn standard_input() {
    let file = fs::File::open(&sample("one_leader")[0]).expect("a sample");
    let run = command(&["sha256", "/dev/stdin"]).stdin(file).output().expect("runs");
    let whole = with_options("sha256", &[], &sample("one_leader")[..1]);
    assert_eq!(Run::of(run).out[..64], whole.out[..64]);
}

/// Each help says how the command is used and what its exit statuses mean.
#[test]
fn help() {
    let audit = ["hirelog audit [--explain] [--json] FOLDER", "[--json] ROSTER FIRST SECOND"];
    let check =
        ["hirelog check [--explain] [--json] KEY MESSAGE SIGNATURE", "good", "bad", "steps N"];
    let digest = ["hirelog sha256 [--explain] [--json] FILE"];
    let district = ["hirelog district [--explain] [--json] FOLDER", "[--json] ROSTER FILE.."];
    let assemble = ["hirelog assemble [--explain] [--json] FOLDER -o", "ROSTER LOG ITEMS -o FILE"];
    let all = [&audit[..], &district, &assemble, &check[..1], &digest].concat();
    let writes = [&assemble[..], &["  -o FILE    "]].concat();
    let helps: [(&[&str], &[&str], &[u8]); 13] = [
        (&["--help"], &all, &[0, 1, 2]),
        (&["-h"], &all, &[0, 1, 2]),
        (&["help"], &all, &[0, 1, 2]),
        (&["help", "audit"], &audit, &[0, 1, 2]),
        (&["help", "sha256"], &digest, &[0, 2]),
        (&["audit", "--help"], &audit, &[0, 1, 2]),
        (&["help", "district"], &district, &[0, 1, 2]),
        (&["district", "a", "--help"], &district, &[0, 1, 2]),
        (&["help", "assemble"], &writes, &[0, 2]),
        (&["assemble", "-o", "x", "-h"], &writes, &[0, 2]),
        (&["check", "--help"], &check, &[0, 2]),
        (&["sha256", "--help"], &digest, &[0, 2]),
        (&["audit", "a", "b", "-h"], &audit, &[0, 1, 2]),
    ];
    for (arguments, told, statuses) in helps {
        let run = hirelog(arguments);
        assert_eq!((run.status, run.err.as_str()), (0, ""), "{run:?}");
        let (text, listed) = run.out.split_once("\nExit status:\n").expect("exit statuses");
        assert!(text.starts_with("use: "), "{text}");
        for part in told.iter().chain(&["--explain  ", "--json     ", "--help     "]) {
            assert!(text.contains(part), "{part}: {text}");
        }
        let rows = listed.lines().filter_map(|line| line.strip_prefix("  "));
        let rows: Vec<u8> = rows.map(|row| row[..3].trim().parse().expect("a status")).collect();
        assert_eq!(rows, [statuses, &[64, 74]].concat());
        assert!(run.out.lines().all(|line| line.len() <= 80), "{}", run.out);
    }
}
