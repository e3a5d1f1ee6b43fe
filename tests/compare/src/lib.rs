//! Compares the library's calls with the separately written auditor's answers.
//!
//! - `call`: what a call, a case of it and an answer are;
//! - `run`: both sides asked, and how they differ, in words;
//! - `folder`: a case as files, from which it can be run again;
//! - `calls`: the calls that are compared, one file each;
//! - `premises`: the premises of fairness, on pairs that fork, and on lists with a fork;
//! - `round_trips`: submissions taken apart and assembled again.
//!
//! The program `compare` (main.rs) runs them.

pub mod call;
pub mod calls;
pub mod folder;
pub mod premises;
pub mod round_trips;
pub mod run;
