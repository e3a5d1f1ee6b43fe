//! hirelog check: an LMS signature (RFC 8554) of a message under a key.

use crate::answer::{Answer, Failure, RefusedFile, Remark, Status};
use crate::audit::joined;
use crate::files::{counted, read_all, Input};
use crate::formats::{looks_like_roster, KEY_SIZE};
use crate::usage::{wrong_count, Command, Run};
use crate::{hints, json};
use hirelog::numbers::Number;
use hirelog::{lms_check, sys, Refusal, Verdict, MESSAGE_MAX};
use std::path::PathBuf;

pub const COMMAND: Command = Command {
    name: "check",
    forms: &["KEY MESSAGE SIGNATURE"],
    purpose: "checks the signature of a message under a board's key",
    help: "\
Checks an LMS signature (RFC 8554). KEY has the 56 bytes of a public key (in a
roster, the key of board k begins after 18 + 56 x (k - 1) bytes), MESSAGE what
was signed, SIGNATURE the signature. It prints two lines. The first is one of

  good leaf Q   the signature is good for this key and this message, and was
                made with the key's leaf Q, a number from 0 on
  bad           it is not; also where a length or a type is wrong
  long message  neither: the message has more than 16,777,216 bytes

and the second

  steps N       how many hashes the check makes in the signature's chains; with
                8-bit digits, as in a roster, they take most of its time. It
                makes them for a bad signature too, unless a length, a type or
                the leaf number is wrong: N is then 0, as with a long message

A leaf is for one message: a board whose good signatures on two messages have
one Q under one key has used it twice. hirelog audit looks for that.
",
    statuses: &[
        (Status::NothingFound, "good"),
        (Status::Refused, "bad, or the message is too long (numbers 15 and 16)"),
    ],
    run: Run::Reads(run),
};

/// The files of a check.
const FILES: [&str; 3] = ["key", "message", "signature"];

/// Checks a signature. A file that is longer than a message may be gets the number of one that is
/// longer by a byte: 16 for the message, else 15.
fn run(operands: &[PathBuf]) -> Result<Answer, Failure> {
    let [key, message, signature] = operands else {
        return Err(wrong_count(&COMMAND, operands.len()));
    };
    let files = read_all([key.clone(), message.clone(), signature.clone()], MESSAGE_MAX)?;
    let [key, message, signature] = &files;
    let verdict = lms_check(&key.bytes, &message.bytes, &signature.bytes);
    let (number, answer, leaf) = match verdict {
        Verdict::Good { leaf, .. } => (sys::OK, "good", Some(leaf)),
        Verdict::Bad { .. } => (Refusal::Signature.number().into(), "bad", None),
        Verdict::LongMessage => (sys::LONG_MESSAGE, "long message", None),
    };
    let row = Number::of(number).expect("a row for each number");
    let lines = [
        leaf.map_or(answer.into(), |leaf| format!("{answer} leaf {leaf}")),
        format!("steps {}", verdict.steps()),
    ];
    Ok(Answer {
        status: if number == sys::OK { Status::NothingFound } else { Status::Refused },
        lines: joined(&lines),
        members: vec![
            ("number", number.to_string()),
            ("word", json::string(row.word)),
            ("answer", json::string(answer)),
            ("leaf", leaf.map_or("null".into(), |leaf| leaf.to_string())),
            ("steps", verdict.steps().to_string()),
            ("files", json::files(FILES, &files)),
        ],
        refused: refused(verdict, &files, row).into_iter().collect(),
        hints: match verdict {
            Verdict::Bad { .. } => bad_hints(&files),
            _ => Vec::new(),
        },
        remarks: vec![remark(verdict, &lines[0], row), steps_remark(verdict, &lines[1])],
    })
}

/// What the first line says.
fn remark(verdict: Verdict, line: &str, row: &Number) -> Remark {
    let (meaning, advice) = match verdict {
        Verdict::Good { leaf, .. } => (
            format!(
                "The signature was made with this key, with leaf {leaf} of it, for this very message."
            ),
            format!(
                "Nothing. But a leaf is for one message: if leaf {leaf} of this key has a good \
                 signature of another message too, keep both. hirelog audit looks for that in two \
                 submissions."
            ),
        ),
        Verdict::Bad { .. } => (
            "The signature was not made with this key for this message, or one of the three was \
             changed since."
                .into(),
            "See that the three files belong together, are whole, and stand in the order key, \
             message, signature."
                .into(),
        ),
        Verdict::LongMessage => (row.meaning.into(), row.advice.into()),
    };
    Remark { line: line.into(), meaning, advice }
}

/// What the count of steps says: of a bad signature, whether its form is right.
fn steps_remark(verdict: Verdict, line: &str) -> Remark {
    let taken = format!(
        "The check took {} in the signature's chains, each a hash.",
        counted(verdict.steps() as usize, "step")
    );
    let (meaning, advice) = match verdict {
        Verdict::Good { .. } => {
            let advice = "Nothing. It is for planning: with 8-bit digits, as in a roster, a check's \
                          time is nearly that of its steps.";
            (taken, advice.into())
        }
        Verdict::Bad { steps: 0 } => (
            "The check ended before the signature's chains: the length of key or signature, a type \
             or the leaf number is wrong."
                .into(),
            "Look at the key and the signature: no message makes this one good under this key."
                .into(),
        ),
        Verdict::Bad { .. } => (
            format!("{taken} So the form is right: lengths and types, and the key has that leaf."),
            "Look at what the files hold: the message is another, or the key, or a byte was changed."
                .into(),
        ),
        Verdict::LongMessage => (
            "The check ended before the signature's chains, for the message is too long.".into(),
            "Nothing besides.".into(),
        ),
    };
    Remark { line: line.into(), meaning, advice }
}

/// Which files do not go together, and why.
fn refused(
    verdict: Verdict,
    [key, message, signature]: &[Input; 3],
    row: &Number,
) -> Option<RefusedFile> {
    match verdict {
        Verdict::Good { .. } => None,
        Verdict::Bad { .. } => {
            let told = format!(
                "bad: {} is no good signature of {} under the key {}: number {}, {}",
                signature.name(),
                message.name(),
                key.name(),
                row.number,
                row.word
            );
            Some(RefusedFile { told, why: String::new() })
        }
        Verdict::LongMessage => Some(too_long(message, row)),
    }
}

/// The message of number 16.
pub fn too_long(file: &Input, row: &Number) -> RefusedFile {
    let told = format!("{} was refused: number {}, {}", file.described(), row.number, row.word);
    RefusedFile { told, why: row.meaning.into() }
}

/// What may have gone wrong: files in another order, which is certain; else an empty file, a key
/// that is none, or a signature of another length.
fn bad_hints(files: &[Input; 3]) -> Vec<String> {
    if let Some(order) = right_order(files) {
        return vec![order];
    }
    let [key, _, signature] = files;
    let mut hints: Vec<String> = hints::empty(files).into_iter().collect();
    if looks_like_roster(&key.bytes) {
        hints.push(format!(
            "{} looks like a roster: cut the {KEY_SIZE} bytes of the board's key out of it \
             (hirelog check --help says where they begin)",
            key.name()
        ));
    } else if key.bytes.len() != KEY_SIZE && !key.bytes.is_empty() {
        hints.push(format!("{} has {}, and a key has {KEY_SIZE}", key.name(), key.size()));
    }
    hints.extend(hints::signature_size(key, signature));
    hints
}

/// The order in which the files are good, if there is one.
fn right_order(files: &[Input; 3]) -> Option<String> {
    let good = |[key, message, signature]: &[&Input; 3]| {
        let verdict = lms_check(&key.bytes, &message.bytes, &signature.bytes);
        matches!(verdict, Verdict::Good { .. })
    };
    let [key, message, signature] = hints::in_other_orders(files).find(good)?.map(Input::name);
    Some(format!(
        "the files are in the wrong order: with the key {key}, the message {message} and the \
         signature {signature} it is good"
    ))
}
