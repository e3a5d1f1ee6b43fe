//! Assembles a submission:  cargo run --example assemble -- ROSTER LOG ITEMS OUTPUT
//! OUTPUT is overwritten, also where it is one of the others; the command hirelog asks before.
//!
//! From rust/, with the library built:
//! HIRELOG_LIB_DIR=../target/staticlib \
//!     cargo run --example assemble -- ../samples/assemble/{roster,log,items} /tmp/submission

use std::{env, fs, process::exit};

fn main() {
    let arguments: Vec<String> = env::args().skip(1).collect();
    let [roster, log, items, output] = &arguments[..] else {
        eprintln!("use: assemble ROSTER LOG ITEMS OUTPUT");
        exit(2);
    };
    match hirelog::assemble(&read(roster), &read(log), &read(items)) {
        Err(refused) => {
            println!("nothing is assembled: {refused}");
            exit(2);
        }
        Ok(submission) => {
            write(output, &submission);
            println!("a submission of {} bytes", submission.len());
        }
    }
}

fn read(path: &str) -> Vec<u8> {
    fs::read(path).unwrap_or_else(|error| {
        eprintln!("assemble: {path}: {error}; name a file that can be read");
        exit(2)
    })
}

fn write(path: &str, bytes: &[u8]) {
    fs::write(path, bytes).unwrap_or_else(|error| {
        eprintln!("assemble: {path}: {error}; name a file that can be written");
        exit(2)
    })
}
