//! hirelog sha256: the lines of sha256sum, and what has no digest.

use crate::json::{self, Value};
use crate::*;
use std::ffi::OsString;
use std::os::unix::ffi::OsStringExt;

const NO_BYTES: &str = "e3b0c44298fc1c149afbf4c8996fb92427ae41e4649b934ca495991b7852b855";
const ABC: &str = "ba7816bf8f01cfea414140de5dae2223b00361a396177a9cb410ff61f20015ad";

#[test]
fn digests() {
    let folder = Folder::new("digests");
    let file = folder.put("abc", b"abc");
    let line = format!("{ABC}  {}\n", file.display());
    let plain = hirelog(&["sha256".as_ref(), file.as_os_str()]);
    assert_eq!((plain.status, plain.out.as_str(), plain.err.as_str()), (0, line.as_str(), ""));
    let explained = with_options("sha256", &["--explain"], &[&file]);
    assert!(explained.out.starts_with(&format!("{line}\nWhat \"{ABC}\" says:")), "{explained:?}");
    assert!(explained.unfolded().contains("(3 bytes)"));
    let object = json::read(&with_options("sha256", &["--json"], &[&file]).out);
    assert_eq!(object.names(), ["command", "number", "word", "digest", "files", "hints"]);
    assert_eq!(object.get("digest").text(), ABC);
    assert_eq!(object.get("number"), &Value::Number(0));
    assert_eq!(object.get("files").get("file").text(), file.to_str().expect("a name"));
}

/// An empty file has a digest, and the message says that it is empty.
#[test]
fn empty() {
    let folder = Folder::new("empty_digest");
    let file = folder.put("empty", b"");
    let run = with_options("sha256", &[], &[&file]);
    assert_eq!((run.status, &run.out), (0, &format!("{NO_BYTES}  {}\n", file.display())));
    run.tells(&[&format!("{} is empty", quoted(&file))]);
}

/// The longest message, and what is longer.
#[test]
fn long_files() {
    let folder = Folder::new("long_files");
    let file = folder.put("long", b"");
    let size = |size| fs::File::create(&file).and_then(|made| made.set_len(size)).expect("a file");
    size(16_777_216);
    let run = with_options("sha256", &[], &[&file]);
    assert_eq!((run.status, run.err.as_str()), (0, ""));
    let digest = "080acf35a507ac9849cfcba47dc2ad83e01b75663a516279c8b9d243b719643e";
    assert_eq!(run.out, format!("{digest}  {}\n", file.display()));
    size(16_777_217);
    for file in [file.clone(), "/dev/zero".into()] {
        let told = ["more than 16,777,216 bytes", "number 16, long message", &quoted(&file)];
        with_options("sha256", &[], &[&file]).fails(2, &told);
        let run = with_options("sha256", &["--json"], &[&file]);
        assert_eq!(run.status, 2);
        let object = json::read(&run.out);
        assert_eq!(object.get("digest"), &Value::Null);
        assert_eq!(object.get("number"), &Value::Number(16));
        let explained = with_options("sha256", &["--explain"], &[&file]);
        assert!(explained.out.starts_with("Why there is no line: The message has more"));
        assert!(explained.out.contains("sha256sum") && !explained.out.contains("\n\n"));
        explained.shortens(&with_options("sha256", &[], &[&file]));
    }
}

/// Names are written as sha256sum writes them, and in JSON with what has to be escaped.
#[test]
fn names() {
    let folder = Folder::new("names");
    let name = "a\"b\\c\nd\re\tf é\u{1}";
    let file = folder.put(name, b"abc");
    let run = with_options("sha256", &[], &[&file]);
    let written = file.to_str().expect("a name");
    let escaped = written.replace('\\', "\\\\").replace('\n', "\\n").replace('\r', "\\r");
    assert_eq!(run.out, format!("\\{ABC}  {escaped}\n"));
    let object = json::read(&with_options("sha256", &["--json"], &[&file]).out);
    assert_eq!(object.get("files").get("file").text(), written);

    let no_text = folder.put(OsString::from_vec(b"\xff\xfe".to_vec()), b"abc");
    let output = command(&["sha256".as_ref(), no_text.as_os_str()]).output().expect("runs");
    assert!(output.stdout.ends_with(b"/\xff\xfe\n"), "the name's own bytes");
    let object = json::read(&with_options("sha256", &["--json"], &[&no_text]).out);
    assert!(object.get("files").get("file").text().ends_with("/\u{fffd}\u{fffd}"));
}
