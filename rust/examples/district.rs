//! Goes through submissions of a district:  cargo run --example district -- ROSTER FILE..
//!
//! From rust/, with the library built:
//! HIRELOG_LIB_DIR=../target/staticlib \
//!     cargo run --example district -- ../samples/one_leader/{roster,first,second}

use std::{env, fs, process::exit};

fn main() {
    let files: Vec<Vec<u8>> = env::args().skip(1).map(|path| read(&path)).collect();
    let Some((roster, submissions)) = files.split_first() else {
        eprintln!("use: district ROSTER FILE..");
        exit(2);
    };
    let submissions: Vec<&[u8]> = submissions.iter().map(Vec::as_slice).collect();
    match hirelog::district(roster, &submissions) {
        Err(refused) => println!("the run is refused: {refused}"),
        Ok(found) => {
            for (position, refusal) in (1..).zip(&found.refusals) {
                match refusal {
                    None => println!("submission {position} is accepted"),
                    Some(refusal) => println!("submission {position}: {}", refusal.word()),
                }
            }
            match found.fork {
                Some((lower, higher)) => println!("submissions {lower} and {higher} fork"),
                None => println!("no two submissions fork"),
            }
            for replica in found.named {
                println!("board {replica} is named");
            }
        }
    }
}

fn read(path: &str) -> Vec<u8> {
    fs::read(path).unwrap_or_else(|error| {
        eprintln!("district: {path}: {error}; name a file that can be read");
        exit(2)
    })
}
