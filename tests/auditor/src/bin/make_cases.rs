//! make_cases FOLDER [pointers|all_receipts]: writes the sample files into the folder, always the same.
//! With `pointers` it writes FOLDER/pointers alone, with `all_receipts` FOLDER/assemble/all_receipts and
//! FOLDER/assemble/all_receipts_shuffled alone, and without either all the others.
//!
//! FOLDER/numbers: `roster`; `n00` and `n05` to `n15`, the smallest submission against it for
//! each number; `whole`, an accepted one with every part, `uncommitted` and `committed`, without a
//! commit and with one at the log's end; and `expected`, for each a line `NAME NUMBER COMMITTED
//! LAST`: its number, and in hex the pointers of the record at its commit certificate's index and
//! of its log's last record. 32 zero bytes stand for a pointer that it does not have, and for both
//! if it is refused.
//!
//! FOLDER/samples/NAME, for each pair of the repository's folder samples, and FOLDER/pairs/NAME,
//! for more: `roster`, `first`, `second`, `expected` (the lines that the program `audit` prints)
//! and `report` (the 53 bytes that the library's audit writes). They differ where a file is larger
//! than the program's buffer.
//!
//! FOLDER/samples/district, for the district of the repository's folder samples, and
//! FOLDER/districts/NAME, for more: `roster`, the submissions `1`, `2` and so on in their order,
//! `expected` (the lines that `hirelog district` prints) and `report` (the bytes that the library's
//! run writes). FOLDER/districts/nine has nine large submissions.
//!
//! FOLDER/samples/assemble, for the log and the bag of the repository's folder samples, and
//! FOLDER/assemble/NAME, for more: `roster`, `log`, `items`, `expected` (the lines that `hirelog
//! assemble` prints, but for the term without a leader), and `submission`, what is written, if the call
//! is not refused. all_receipts has every item that a log of most records and terms can use.
//!
//! FOLDER/samples: `key`, `message` and `signature`, a good one, for the signature check.
//!
//! FOLDER/pointers: `roster`, submissions on which it is counted how often records are hashed, and
//! `expected` as in numbers.

use auditor::assemble::samples::Files;
use auditor::audit::findings;
use auditor::cluster::Cluster;
use auditor::depot::samples::List;
use auditor::roster::Roster;
use auditor::samples::{
    cluster, judged, large_keys, more_pairs, pointers, samples, submissions, Pair,
};
use auditor::signer::Signer;
use auditor::verdicts::Verdicts;
use auditor::{assemble, depot, hex, program};
use std::path::{Path, PathBuf};
use std::{env, fs, process::exit};

fn main() {
    let arguments: Vec<String> = env::args().skip(1).collect();
    let arguments: Vec<&str> = arguments.iter().map(String::as_str).collect();
    let mut verdicts = Verdicts::default();
    let folder = match arguments[..] {
        [folder] => {
            make_samples(Path::new(folder), &mut verdicts);
            folder.into()
        }
        [folder, "pointers"] => {
            let (folder, cluster) = (Path::new(folder).join("pointers"), pointers::cluster());
            write_submissions(&folder, &cluster, pointers::submissions(&cluster), &mut verdicts);
            folder
        }
        [folder, "all_receipts"] => {
            let folder = Path::new(folder).join("assemble");
            for files in assemble::samples::all_receipts() {
                write_assembled(&made(folder.join(files.folder)), &files, &mut verdicts);
            }
            folder
        }
        _ => {
            eprintln!("use: make_cases FOLDER [pointers|all_receipts]");
            exit(2);
        }
    };
    println!("make_cases: {} written", folder.display());
}

/// Everything but `pointers` and `all_receipts`.
fn make_samples(folder: &Path, verdicts: &mut Verdicts) {
    let cluster = cluster();
    write_submissions(&folder.join("numbers"), &cluster, submissions(&cluster), verdicts);

    let keys = large_keys();
    let parts = [("samples", samples(&cluster, &keys)), ("pairs", more_pairs(&cluster, &keys))];
    for (part, pairs) in parts {
        for pair in pairs {
            write_pair(&made(folder.join(part).join(pair.folder)), &pair, verdicts);
        }
    }

    let parts = [
        ("samples", vec![depot::samples::sample(&cluster)]),
        ("districts", depot::samples::more(&cluster, &keys)),
    ];
    for (part, lists) in parts {
        for list in lists {
            write_list(&made(folder.join(part).join(list.folder)), &list, verdicts);
        }
    }

    let parts = [
        ("samples", vec![assemble::samples::sample()]),
        ("assemble", assemble::samples::more(&cluster, &keys)),
    ];
    for (part, calls) in parts {
        for files in calls {
            write_assembled(&made(folder.join(part).join(files.folder)), &files, verdicts);
        }
    }

    let checked = made(folder.join("samples"));
    let message = b"Replica 1 of the samples signed these words.\n";
    write(&checked, "key", &cluster.roster()[18..18 + 56]);
    write(&checked, "message", message);
    write(&checked, "signature", &Signer::new(&cluster).sign(1, message));
}

/// The roster, submissions with their names, and `expected`; each has to get the number that it is
/// meant to.
fn write_submissions(
    folder: &Path,
    cluster: &Cluster,
    submissions: Vec<(String, u8, Vec<u8>)>,
    verdicts: &mut Verdicts,
) {
    let folder = made(folder.into());
    let roster = Roster::read(&cluster.roster()).expect("a roster that is right");
    let mut expected = String::new();
    for (name, meant, bytes) in submissions {
        let (number, pointers) = judged(&roster, &bytes, verdicts);
        if number != meant {
            eprintln!("make_cases: {name} gets {number}: make it anew in src/samples");
            exit(1);
        }
        let [committed, last] = pointers.map(|pointer| hex::write(&pointer));
        expected += &format!("{name} {number} {committed} {last}\n");
        write(&folder, &name, &bytes);
    }
    write(&folder, "roster", &cluster.roster());
    write(&folder, "expected", expected.as_bytes());
}

fn write_pair(folder: &Path, pair: &Pair, verdicts: &mut Verdicts) {
    let Pair { roster, first, second, .. } = pair;
    let lines = program::lines(Some(roster), Some(first), Some(second), verdicts);
    let report = findings(roster, first, second, verdicts).bytes();
    write(folder, "roster", roster);
    write(folder, "first", first);
    write(folder, "second", second);
    write(folder, "expected", lines.as_bytes());
    write(folder, "report", &report);
}

fn write_list(folder: &Path, list: &List, verdicts: &mut Verdicts) {
    let (buffer, lengths) = (list.buffer(), list.lengths());
    let enough = depot::report_size(lengths.len());
    let found = depot::findings(&list.roster, &buffer, &lengths, enough, verdicts);
    let report = found.as_ref().map_or(Vec::new(), depot::Findings::bytes);
    write(folder, "roster", &list.roster);
    for (i, submission) in list.submissions.iter().enumerate() {
        write(folder, &(i + 1).to_string(), submission);
    }
    write(folder, "expected", depot::lines(&found).as_bytes());
    write(folder, "report", &report);
}

fn write_assembled(folder: &Path, files: &Files, verdicts: &mut Verdicts) {
    let Files { roster, log, items, .. } = files;
    let written = assemble::assembled(roster, log, items, assemble::LONGEST, verdicts);
    write(folder, "roster", roster);
    write(folder, "log", log);
    write(folder, "items", items);
    write(folder, "expected", assemble::lines(roster, &written, verdicts).as_bytes());
    if let Ok(submission) = written {
        write(folder, "submission", &submission);
    }
}

/// The folder, made if it is not there.
fn made(folder: PathBuf) -> PathBuf {
    fs::create_dir_all(&folder).unwrap_or_else(|error| fail(&folder, &error));
    folder
}

fn write(folder: &Path, name: &str, bytes: &[u8]) {
    let path = folder.join(name);
    fs::write(&path, bytes).unwrap_or_else(|error| fail(&path, &error));
}

fn fail(path: &Path, error: &std::io::Error) -> ! {
    eprintln!("make_cases: {}: {error}; name a folder that can be written", path.display());
    exit(1)
}
