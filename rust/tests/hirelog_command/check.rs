//! hirelog check: good with its leaf, bad, neither, each with its steps; and files that are in the
//! wrong order.

use crate::json::{self, Value};
use crate::steps::steps;
use crate::*;

/// Replica 1's key, its vote in a sample, and the signature.
fn signed(folder: &Folder) -> [PathBuf; 3] {
    let [roster, first, _] = sample("one_leader").map(|file| fs::read(file).expect("a sample"));
    let statement = [&[3], &roster[..16], &first[36..36 + 46]].concat();
    [
        folder.put("key", &roster[18..18 + 56]),
        folder.put("message", &statement),
        folder.put("signature", &first[36 + 48..36 + 48 + 1292]),
    ]
}

/// The number of the leaf that a signature says.
fn leaf_of(signature: &Path) -> u64 {
    let bytes = fs::read(signature).expect("a signature");
    u32::from_be_bytes(bytes[..4].try_into().expect("four bytes")).into()
}

/// The steps of files that have the form of key, message and signature.
fn steps_of(files: &[PathBuf; 3]) -> u32 {
    let [key, message, signature] = files.clone().map(|file| fs::read(file).expect("a file"));
    steps(&key, &message, &signature)
}

/// What the explanation of the steps has to say: where to look.
fn told_of_steps(number: u64, steps: u32) -> &'static str {
    match (number, steps) {
        (0, _) => "It is for planning",
        (15, 0) => "Look at the key and the signature",
        (15, _) => "Look at what the files hold",
        _ => "for the message is too long",
    }
}

/// All ways to ask give this answer, with the leaf of a good signature and these steps, and this
/// status; the plain run is given.
fn expect(files: &[PathBuf; 3], answer: &str, number: u64, steps: u32) -> Run {
    let status = if number == 0 { 0 } else { 2 };
    let leaf = (number == 0).then(|| leaf_of(&files[2]));
    let line = leaf.map_or(answer.into(), |leaf| format!("{answer} leaf {leaf}"));
    let lines = format!("{line}\nsteps {steps}\n");
    let plain = with_options("check", &[], files);
    assert_eq!((&plain.out, plain.status), (&lines, status), "{plain:?}");
    assert_eq!(plain.err.is_empty(), number == 0, "{plain:?}");

    let explained = with_options("check", &["--explain"], files);
    assert_eq!(explained.status, status);
    explained.shortens(&plain);
    assert!(explained.out.starts_with(&format!("{lines}\nWhat \"{line}\" says: ")));
    let text = explained.unfolded();
    let of_steps =
        text.split_once(&format!("\nWhat \"steps {steps}\" says: ")).expect("it is said");
    assert!(of_steps.1.contains(told_of_steps(number, steps)), "{text}");
    assert_eq!(text.matches("\nWhat to do: ").count(), 2);

    let run = with_options("check", &["--json", "--explain"], files);
    assert_eq!((run.status, &run.err), (status, &explained.err));
    let object = json::read(&run.out);
    let names = ["command", "number", "word", "answer", "leaf", "steps", "files", "hints"];
    assert_eq!(object.names(), [&names[..], &["explanation"]].concat());
    assert_eq!(object.get("number"), &Value::Number(number));
    assert_eq!(object.get("answer").text(), answer);
    assert_eq!(object.get("leaf"), &leaf.map_or(Value::Null, Value::Number));
    assert_eq!(object.get("steps"), &Value::Number(steps.into()));
    let word =
        if number == 0 { "accepted" } else { ["signature", "long message"][number as usize - 15] };
    assert_eq!(object.get("word").text(), word);
    assert_eq!(object.get("files").names(), ["key", "message", "signature"]);
    for hint in object.get("hints").list() {
        assert!(explained.unfolded().contains(hint.text()) && plain.err.contains(hint.text()));
    }
    plain
}

#[test]
fn good_and_bad() {
    let folder = Folder::new("good_and_bad");
    let files = signed(&folder);
    expect(&files, "good", 0, steps_of(&files));
    let [key, message, signature] = files;
    let other = folder.put("other", b"another message");
    let files = [key.clone(), other.clone(), signature.clone()];
    let run = expect(&files, "bad", 15, steps_of(&files));
    run.tells(&[&quoted(&key), &quoted(&other), &quoted(&signature), "number 15, signature"]);
    assert_eq!(run.err.lines().count(), 2, "no hint: {run:?}");
    let run = expect(&[sample("empty")[0].clone(), message, signature], "bad", 15, 0);
    run.tells(&["looks like a roster: cut the 56 bytes"]);
}

/// In every wrong order the right one is told.
#[test]
fn orders() {
    let folder = Folder::new("orders");
    let [key, message, signature] = &signed(&folder);
    let told = format!(
        "the files are in the wrong order: with the key {}, the message {} and the signature {} it \
         is good",
        quoted(key),
        quoted(message),
        quoted(signature)
    );
    for files in [
        [key, signature, message],
        [message, key, signature],
        [message, signature, key],
        [signature, key, message],
        [signature, message, key],
    ] {
        let run = expect(&files.map(PathBuf::clone), "bad", 15, 0);
        run.tells(&[&told]);
        assert_eq!(run.err.lines().count(), 3, "no other hint: {run:?}");
    }
}

/// Files of no bytes, and of a wrong number of them.
#[test]
fn sizes() {
    let folder = Folder::new("sizes");
    let files = signed(&folder);
    let empty = folder.put("empty", b"");
    for place in 0..3 {
        let mut files = files.clone();
        files[place] = empty.clone();
        let steps = if place == 1 { steps_of(&files) } else { 0 };
        let run = expect(&files, "bad", 15, steps);
        run.tells(&[&format!("{} is empty", quoted(&empty))]);
    }
    let [key, message, signature] = &files;
    let bytes = fs::read(signature).expect("a signature");
    for size in [1291, 1293] {
        let mut bytes = bytes.clone();
        bytes.resize(size, 0);
        let other = folder.put("other", &bytes);
        let told =
            format!("has 1,{} bytes, and a signature under this key has 1,292\n", size - 1000);
        let run = expect(&[key.clone(), message.clone(), other], "bad", 15, 0);
        run.tells(&[&told]);
    }
    let long = folder.put("long", &[0; 57]);
    let run = expect(&[long, message.clone(), signature.clone()], "bad", 15, 0);
    run.tells(&["has 57 bytes, and a key has 56"]);
}

/// The longest message, and one byte more; and what never ends, in each place.
#[test]
fn long_messages() {
    let folder = Folder::new("long_messages");
    let [key, _, signature] = signed(&folder);
    let message = folder.put("long", b"");
    let files = [key.clone(), message.clone(), signature.clone()];
    for (size, answer, number) in [(16_777_216, "bad", 15), (16_777_217, "long message", 16)] {
        fs::File::create(&message).and_then(|file| file.set_len(size)).expect("a long file");
        let steps = if number == 15 { steps_of(&files) } else { 0 };
        let run = expect(&files, answer, number, steps);
        run.tells(&[&quoted(&message)]);
    }
    let endless = PathBuf::from("/dev/zero");
    let run = expect(&[key.clone(), endless.clone(), signature.clone()], "long message", 16, 0);
    run.tells(&["more than 16,777,216 bytes", "number 16, long message"]);
    let short = folder.put("short", b"");
    expect(&[endless.clone(), short.clone(), signature], "bad", 15, 0)
        .tells(&["\"/dev/zero\" has more than 16,777,216 bytes, and a key has 56"]);
    expect(&[key, short, endless], "bad", 15, 0)
        .tells(&["more than 16,777,216 bytes, and a signature under this key has 1,292\n"]);
}

/// The repository's sample of a signature is good, and no other file is what it signs.
#[test]
fn sample_of_a_signature() {
    let files = ["key", "message", "signature"].map(|file| repository("samples").join(file));
    expect(&files, "good", 0, steps_of(&files));
    let [key, _, signature] = files;
    let files = [key, repository("samples").join("empty").join("expected"), signature];
    expect(&files, "bad", 15, steps_of(&files));
}

/// A type or a leaf number that is wrong ends the check before the chains; any other byte does not.
#[test]
fn forms() {
    let folder = Folder::new("forms");
    let files = signed(&folder);
    let of_form = steps_of(&files);
    // In the key: tree type, one-time type, root. In the signature: a leaf number above 31 and one
    // below, one-time type, C, a chain's value, tree type, path.
    let in_key = [3, 7, 55].map(|at| (0, at));
    let in_signature = [2, 3, 7, 8, 40, 1131, 1291].map(|at| (2, at));
    for (place, at) in in_key.into_iter().chain(in_signature) {
        let mut bytes = fs::read(&files[place]).expect("a file");
        bytes[at] ^= 2;
        let mut files = files.clone();
        files[place] = folder.put("changed", &bytes);
        let steps = match (place, at) {
            (0, 3 | 7) | (2, 2 | 7 | 1131) => 0,
            (2, 3 | 8) => steps_of(&files), // leaf and C go into the message's hash
            _ => of_form,
        };
        expect(&files, "bad", 15, steps);
    }
}

/// A published signature (RFC 8554, test case 1), whose leaf is not 0.
#[test]
fn published() {
    let vectors = repository("crates/test_lms/data/lms-rfc8554.txt");
    let text = fs::read_to_string(vectors).expect("vectors");
    let fields: Vec<&str> = text.lines().next().expect("a vector").split(' ').collect();
    let folder = Folder::new("published");
    let put = |(name, hex): (&str, &str)| {
        let byte = |at| u8::from_str_radix(&hex[at..at + 2], 16).expect("hex digits");
        folder.put(name, &(0..hex.len()).step_by(2).map(byte).collect::<Vec<_>>())
    };
    let files = [("key", fields[2]), ("message", fields[3]), ("signature", fields[4])].map(put);
    let steps = steps_of(&files);
    let lines = format!("good leaf 5\nsteps {steps}\n");
    assert_eq!(expect(&files, "good", 0, steps).out, lines);
}
