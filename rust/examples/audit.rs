//! Audits two submissions:  cargo run --example audit -- ROSTER FIRST SECOND
//!
//! From rust/, with the library built:
//! HIRELOG_LIB_DIR=../target/staticlib \
//!     cargo run --example audit -- ../samples/large/{roster,first,second}

use std::{env, fs, process::exit};

fn main() {
    let files: Vec<Vec<u8>> = env::args().skip(1).map(|path| read(&path)).collect();
    let [roster, first, second] = &files[..] else {
        eprintln!("use: audit ROSTER FIRST SECOND");
        exit(2);
    };
    match hirelog::audit(roster, first, second) {
        Err(refused) => println!("refused: {refused}"),
        Ok(found) => {
            match found.fork {
                Some(index) => println!("both committed a record at index {index}, not the same"),
                None => println!("no index at which both committed different records"),
            }
            for (replica, charge) in found.named() {
                println!("{}", charge.sentence(replica));
            }
        }
    }
}

fn read(path: &str) -> Vec<u8> {
    fs::read(path).unwrap_or_else(|error| {
        eprintln!("audit: {path}: {error}; name a file that can be read");
        exit(2)
    })
}
