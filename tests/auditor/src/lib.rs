//! Independent implementations, std only, that the library is compared with.
//!
//! Written from document 01 and the RFCs alone:
//! - `sha256`, `lms`: the two smaller services;
//! - `numbers`, `roster`, `statement`, `submission`, `audit`, `program`: the audit, its numbers,
//!   its report and the lines that the program prints;
//! - in `audit`, and in the board rules of `district`, document 02's W4: votes of one term are for
//!   one request, or are charged; and W5: one leaf, one message, or a charge;
//! - in `audit` besides W6: the order for choosing a row is 2, 1, 3, 4, 5;
//! - `depot`, from document 02, W1, besides: the run over a list of submissions, with its cases;
//! - `assemble`, from document 02, W3: a submission from a log and a bag of items, with its cases.
//!
//! What makes inputs for both sides:
//! - `lms::sign`, `cluster`: keys and rosters;
//! - `signer`, `build`: submissions, right or with any field wrong, in which each message of a
//!   replica has a leaf of its own (`leaves`);
//! - `district`: replicas that act by the board rules, and cheats, with what they can submit;
//!   `district::acts`: worked examples of those rules, the file that replica_acts prints;
//! - `cases`: the audits that tests/compare compares; `samples`: the files that make_cases writes.

pub mod assemble;
pub mod audit;
pub mod build;
pub mod bytes;
pub mod cases;
pub mod cluster;
pub mod depot;
pub mod district;
pub mod hex;
pub mod leaves;
pub mod lms;
pub mod numbers;
pub mod program;
pub mod random;
pub mod roster;
pub mod samples;
pub mod sha256;
pub mod signer;
pub mod statement;
pub mod submission;
pub mod verdicts;
