//! The functions of libhirelog.a, as include/hirelog.h declares them, for callers with pointers of
//! their own; and, by its names, the numbers that are no `Refusal`, and the rules.

pub const OK: u32 = 0;
pub const SHORT_REPORT: u32 = 1;
pub const LONG_MESSAGE: u32 = 16;
pub const LENGTH_COUNT: u32 = 17;
pub const LENGTH_SUM: u32 = 18;
pub const ITEM: u32 = 19;
pub const NO_LEADER: u32 = 20;
pub const SHORT_OUTPUT: u32 = 21;

/// What a `Charge` has as its rule; of `RULE_ONE_LEAF` the term is a leaf's number.
pub const RULE_TWO_VOTES: u8 = 1;
pub const RULE_TWO_STAMPS: u8 = 2;
pub const RULE_STALE_VOTE: u8 = 3;
pub const RULE_STALE_VOTE_EXCHANGED: u8 = 4;
pub const RULE_ONE_LEAF: u8 = 5;

/// What the signature check returns: struct hirelog_lms_answer.
#[repr(C)]
#[derive(Clone, Copy, Debug, PartialEq, Eq)]
pub struct LmsAnswer {
    pub number: u32,
    /// The number of a good signature's leaf, from 0 on; 0 with any number but 0.
    pub leaf: u32,
    /// The chain steps, of a bad signature too; 0 if the check ended before them.
    pub steps: u32,
}

/// What a call returns that writes bytes whose length the caller does not know beforehand: struct
/// hirelog_written.
#[repr(C)]
#[derive(Clone, Copy, Debug, PartialEq, Eq)]
pub struct Written {
    pub number: u32,
    /// The bytes written, from the output's first on; 0 with any number but 0.
    pub length: usize,
}

#[link(name = "hirelog", kind = "static")]
extern "C" {
    pub fn hirelog_sha256(message: *const u8, message_len: usize, digest: *mut [u8; 32]) -> u32;

    pub fn hirelog_lms_check(
        key: *const u8,
        key_len: usize,
        message: *const u8,
        message_len: usize,
        signature: *const u8,
        signature_len: usize,
    ) -> LmsAnswer;

    pub fn hirelog_audit(
        roster: *const u8,
        roster_len: usize,
        first: *const u8,
        first_len: usize,
        second: *const u8,
        second_len: usize,
        report: *mut u8,
        report_len: usize,
    ) -> u32;

    pub fn hirelog_district(
        roster: *const u8,
        roster_len: usize,
        buffer: *const u8,
        buffer_len: usize,
        lengths: *const u32,
        count: usize,
        report: *mut u8,
        report_len: usize,
    ) -> u32;

    pub fn hirelog_assemble(
        roster: *const u8,
        roster_len: usize,
        log: *const u8,
        log_len: usize,
        items: *const u8,
        items_len: usize,
        output: *mut u8,
        output_len: usize,
    ) -> Written;
}
