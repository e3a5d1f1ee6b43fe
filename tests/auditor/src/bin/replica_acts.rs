//! replica_acts: prints worked examples of document 01's board rules as a file of the proof
//! language, always the same.

use auditor::district::acts;
use std::{env, process::exit};

fn main() {
    if env::args().len() > 1 {
        eprintln!("use: replica_acts");
        exit(2);
    }
    print!("{}", acts::file());
}
