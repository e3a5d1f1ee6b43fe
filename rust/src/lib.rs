//! A safe wrapper of libhirelog.a: its services over slices, with plain values as answers.
//!
//! `include/hirelog.h` has each service's rules, and document 01 what they mean; document 02 for a
//! district's run (W1), for the assembling of a submission (W3), for leaves (W5), for the order in
//! which a charge is chosen (W6) and for chain steps (W7).

mod assemble;
mod district;
pub mod numbers;
mod report;
pub mod rules;
mod submission;
pub mod sys;

pub use assemble::{assemble, assemble_into, AssembleRefused, ASSEMBLED_MAX};
pub use district::{
    district, district_into, read_district_report, District, DistrictRefused, DISTRICT_MAX,
    DISTRICT_REPORT_MAX,
};
pub use report::{read_report, Charge, Findings, Place, Refusal, Refused, REPLICAS, REPORT_SIZE};
pub use submission::{
    read_submission, Commit, Contents, Leader, RECORD_SIZE, SUBMISSION_MAX, SUBMISSION_MIN,
};

/// The longest message, in bytes, that is given a digest or has its signature checked.
pub const MESSAGE_MAX: usize = 16_777_216;

/// What a signature check says, with its count of chain steps.
#[derive(Clone, Copy, Debug, PartialEq, Eq)]
pub enum Verdict {
    /// Made with this leaf of the key, a number from 0 on. A leaf is for one message.
    Good { leaf: u32, steps: u32 },
    /// With 0 steps a length, a type or the leaf number is wrong; with more the form is right, and
    /// what message, key and signature hold does not go together.
    Bad { steps: u32 },
    /// The message is longer than `MESSAGE_MAX`: neither good nor bad.
    LongMessage,
}

impl Verdict {
    /// The hashes in the signature's chains (RFC 8554, 4.6); 0 if the check ended before them.
    pub fn steps(self) -> u32 {
        match self {
            Verdict::Good { steps, .. } | Verdict::Bad { steps } => steps,
            Verdict::LongMessage => 0,
        }
    }
}

/// SHA-256 of the message; nothing if it is longer than `MESSAGE_MAX`.
pub fn sha256(message: &[u8]) -> Option<[u8; 32]> {
    let mut digest = [0; 32];
    // SAFETY: the message is a slice, and the digest 32 bytes of its own.
    let number = unsafe { sys::hirelog_sha256(message.as_ptr(), message.len(), &mut digest) };
    (number == sys::OK).then_some(digest)
}

/// Whether an LMS signature (RFC 8554) of the message is good for the key, with which leaf it was
/// made, and how many chain steps the check takes.
pub fn lms_check(key: &[u8], message: &[u8], signature: &[u8]) -> Verdict {
    // SAFETY: each pointer is a slice's, with the slice's length.
    let answer = unsafe {
        sys::hirelog_lms_check(
            key.as_ptr(),
            key.len(),
            message.as_ptr(),
            message.len(),
            signature.as_ptr(),
            signature.len(),
        )
    };
    match answer.number {
        sys::OK => Verdict::Good { leaf: answer.leaf, steps: answer.steps },
        sys::LONG_MESSAGE => Verdict::LongMessage,
        _ => Verdict::Bad { steps: answer.steps },
    }
}

/// The audit of two submissions against a roster: what it finds, or its refusal.
pub fn audit(roster: &[u8], first: &[u8], second: &[u8]) -> Result<Findings, Refused> {
    let mut bytes = [0; REPORT_SIZE];
    audit_into(roster, first, second, &mut bytes);
    read_report(&bytes).expect("a number and a place of document 01")
}

/// The audit as C has it: the number, with the report's bytes in the buffer's first 53. With number
/// 1, for a shorter buffer, nothing is written.
pub fn audit_into(roster: &[u8], first: &[u8], second: &[u8], report: &mut [u8]) -> u32 {
    // SAFETY: each pointer is a slice's, with the slice's length; the report is lent to nobody
    // else.
    unsafe {
        sys::hirelog_audit(
            roster.as_ptr(),
            roster.len(),
            first.as_ptr(),
            first.len(),
            second.as_ptr(),
            second.len(),
            report.as_mut_ptr(),
            report.len(),
        )
    }
}
