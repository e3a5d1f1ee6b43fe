//! vectors FILE...: runs this package's own SHA-256 and LMS check over published vectors.
//! A line of two fields is a message and its digest; one of five is a name, 1 or 0, a key,
//! a message and a signature. The leaf of a good one has to be the number that it begins with, and
//! the steps those of its digits; those of a bad one may be 0 instead (document 02, W7).
//!
//! vectors answers FILE...: prints what the check answers to each line of five fields, in the words
//! of the program test_lms: `1 LEAF STEPS` or `0 STEPS`.

use auditor::lms::{check, distances, one_time_type, Verdict};
use auditor::{hex, sha256::sha256};
use std::{env, fs, process::exit};

fn main() {
    let arguments: Vec<String> = env::args().skip(1).collect();
    match &arguments.iter().map(String::as_str).collect::<Vec<_>>()[..] {
        ["answers", files @ ..] if !files.is_empty() => answers(files),
        [] | ["answers"] => {
            eprintln!("use: vectors [answers] FILE...");
            exit(2)
        }
        files => agree(files),
    }
}

/// Says of each file how many lines agree; ends with status 1 unless all do.
fn agree(files: &[&str]) {
    let mut failed = false;
    for file in files {
        let text = read(file);
        let mut agreed = 0;
        for (number, line) in text.lines().enumerate() {
            match agrees(line) {
                Some(true) => agreed += 1,
                Some(false) => println!("{file}:{}: differs", number + 1),
                None => println!("{file}:{}: not a vector", number + 1),
            }
        }
        let lines = text.lines().count();
        println!("vectors: {file}: {agreed} of {lines} agree");
        failed |= agreed != lines || lines == 0;
    }
    exit(failed as i32);
}

/// Prints the answers to the files' lines, in their order.
fn answers(files: &[&str]) {
    for file in files {
        for (number, line) in read(file).lines().enumerate() {
            let Some(vector) = Vector::read(line) else {
                eprintln!("vectors: {file}:{}: not an LMS vector", number + 1);
                exit(1)
            };
            match vector.check() {
                Verdict::Good { leaf, steps } => println!("1 {leaf} {steps}"),
                bad => println!("0 {}", bad.steps()),
            }
        }
    }
}

fn read(file: &str) -> String {
    fs::read_to_string(file).unwrap_or_else(|error| {
        eprintln!("vectors: {file}: {error}");
        exit(1)
    })
}

/// Whether the line's claim holds, or nothing if it is not a vector.
fn agrees(line: &str) -> Option<bool> {
    match line.split_whitespace().collect::<Vec<_>>()[..] {
        [message, digest] => Some(sha256(&[&hex::read(message)?])[..] == hex::read(digest)?),
        _ => Vector::read(line).map(|vector| vector.agrees()),
    }
}

/// A line of five fields, without its name.
struct Vector {
    good: bool,
    key: Vec<u8>,
    message: Vec<u8>,
    signature: Vec<u8>,
}

impl Vector {
    fn read(line: &str) -> Option<Self> {
        let [_, valid, key, message, signature] = line.split_whitespace().collect::<Vec<_>>()[..]
        else {
            return None;
        };
        let good = ["0", "1"].iter().position(|known| *known == valid)? == 1;
        let (key, message, signature) =
            (hex::read(key)?, hex::read(message)?, hex::read(signature)?);
        Some(Vector { good, key, message, signature })
    }

    fn check(&self) -> Verdict {
        check(&self.key, &self.message, &self.signature)
    }

    fn agrees(&self) -> bool {
        match self.check() {
            Verdict::Good { leaf, steps } => {
                self.good
                    && self.signature.starts_with(&leaf.to_be_bytes())
                    && self.steps() == Some(steps)
            }
            Verdict::Bad { steps } => !self.good && (steps == 0 || self.steps() == Some(steps)),
            Verdict::Long => false,
        }
    }

    /// The steps by the digits, if the key has a type.
    fn steps(&self) -> Option<u32> {
        let code = u32::from_be_bytes(*self.key.get(4..)?.first_chunk()?);
        Some(distances::steps(one_time_type(code)?, &self.key, &self.message, &self.signature))
    }
}
