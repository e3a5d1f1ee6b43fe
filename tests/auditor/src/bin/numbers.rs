//! numbers: prints the auditor's own numbers and rules, a line to each: `number 2, roster: roster
//! size`.

use auditor::numbers::{Row, NUMBERS, RULES};
use std::{env, process::exit};

fn main() {
    if env::args().len() > 1 {
        eprintln!("use: numbers");
        exit(2);
    }
    print("number", NUMBERS);
    print("rule", RULES);
}

fn print(kind: &str, rows: &[Row]) {
    for (number, about, word) in rows {
        println!("{kind} {number}, {about}: {word}");
    }
}
