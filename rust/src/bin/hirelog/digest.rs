//! hirelog sha256: the digest of a file.

use crate::answer::{Answer, Failure, Remark, Status};
use crate::check::too_long;
use crate::files::{read_all, Input};
use crate::formats::hex;
use crate::json;
use crate::usage::{wrong_count, Command, Run};
use hirelog::numbers::Number;
use hirelog::{sha256, sys, MESSAGE_MAX};
use std::os::unix::ffi::OsStrExt;
use std::path::{Path, PathBuf};

pub const COMMAND: Command = Command {
    name: "sha256",
    forms: &["FILE"],
    purpose: "prints the SHA-256 digest of a file",
    help: "\
Prints the SHA-256 digest (FIPS 180-4) of a file, as sha256sum does: 64
characters, two spaces, the file's name. For a file of more than 16,777,216
bytes it prints no line.
",
    statuses: &[
        (Status::NothingFound, "the digest is printed"),
        (Status::Refused, "the file is too long (number 16)"),
    ],
    run: Run::Reads(run),
};

/// The digest of a file. One that is longer than a message may be gets number 16.
fn run(operands: &[PathBuf]) -> Result<Answer, Failure> {
    let [path] = operands else {
        return Err(wrong_count(&COMMAND, operands.len()));
    };
    let files = read_all([path.clone()], MESSAGE_MAX)?;
    let file = &files[0];
    let digest = sha256(&file.bytes).map(|digest| hex(&digest));
    let number = if digest.is_some() { sys::OK } else { sys::LONG_MESSAGE };
    let row = Number::of(number).expect("a row for each number");
    Ok(Answer {
        status: if digest.is_some() { Status::NothingFound } else { Status::Refused },
        lines: digest.as_ref().map(|digest| line(digest, path)).unwrap_or_default(),
        members: vec![
            ("number", number.to_string()),
            ("word", json::string(row.word)),
            ("digest", digest.as_ref().map_or("null".into(), |digest| json::string(digest))),
            ("files", json::files(["file"], &files)),
        ],
        remarks: vec![remark(digest.as_deref(), file, row)],
        refused: digest.is_none().then(|| too_long(file, row)).into_iter().collect(),
        hints: empty(file).into_iter().collect(),
    })
}

/// The line of sha256sum: a name with a backslash or a line end is escaped, and the line then
/// begins with a backslash.
fn line(digest: &str, path: &Path) -> Vec<u8> {
    let mut name = Vec::new();
    for &byte in path.as_os_str().as_bytes() {
        match byte {
            b'\\' => name.extend(b"\\\\"),
            b'\n' => name.extend(b"\\n"),
            b'\r' => name.extend(b"\\r"),
            other => name.push(other),
        }
    }
    let mark: &[u8] = if name == path.as_os_str().as_bytes() { b"" } else { b"\\" };
    [mark, digest.as_bytes(), b"  ", &name, b"\n"].concat()
}

fn remark(digest: Option<&str>, file: &Input, row: &Number) -> Remark {
    match digest {
        Some(digest) => Remark {
            line: digest.into(),
            meaning: format!("This is the SHA-256 digest of {}.", file.described()),
            advice: "Compare it with the digest that you were given: a file is the same only if \
                all 64 characters are."
                .into(),
        },
        None => Remark {
            line: format!("number {}", row.number),
            meaning: row.meaning.into(),
            advice: format!("{} sha256sum takes longer ones.", row.advice),
        },
    }
}

fn empty(file: &Input) -> Option<String> {
    let told = format!("{} is empty, and this is the digest of no bytes", file.name());
    file.bytes.is_empty().then_some(told)
}
