//! The separately written auditor (tests/auditor) as C functions, which the harnesses beside this
//! file compare the library with; tests/fuzz/run builds it.
//!
//! No pointer is NULL; each is to as many bytes as its length says, all readable, and those of a
//! report, output or root writable and apart from the others.

use auditor::assemble::assemble;
use auditor::audit::{audit, charges};
use auditor::lms::{candidate, check};
use auditor::numbers::{TWO_STAMPS, TWO_VOTES};
use auditor::roster::{mask_of, Roster};
use auditor::submission::Submission;
use auditor::verdicts::Verdicts;
use std::cell::RefCell;
use std::slice::{from_raw_parts, from_raw_parts_mut};

thread_local! {
    /// The signature checks of earlier audits, for most signatures come again.
    static VERDICTS: RefCell<Verdicts> = RefCell::default();
}

/// How many are kept: with more, they begin anew.
const VERDICTS_KEPT: usize = 10_000;

/// Runs with the signature checks of earlier calls, if these are not too many.
fn with_verdicts<T>(run: impl FnOnce(&mut Verdicts) -> T) -> T {
    VERDICTS.with_borrow_mut(|verdicts| {
        if verdicts.made() > VERDICTS_KEPT {
            *verdicts = Verdicts::default();
        }
        run(verdicts)
    })
}

/// What hirelog_audit has to return, and to write.
///
/// # Safety
/// As above.
#[no_mangle]
pub unsafe extern "C" fn auditor_audit(
    roster: *const u8,
    roster_len: usize,
    first: *const u8,
    first_len: usize,
    second: *const u8,
    second_len: usize,
    report: *mut u8,
    report_len: usize,
) -> u32 {
    with_verdicts(|verdicts| {
        audit(
            from_raw_parts(roster, roster_len),
            from_raw_parts(first, first_len),
            from_raw_parts(second, second_len),
            from_raw_parts_mut(report, report_len),
            verdicts,
        )
    })
}

/// The replicas that break both rule 1 and rule 2, as bits; 0 if an input is refused.
///
/// # Safety
/// As above.
#[no_mangle]
pub unsafe extern "C" fn auditor_breaks_both(
    roster: *const u8,
    roster_len: usize,
    first: *const u8,
    first_len: usize,
    second: *const u8,
    second_len: usize,
) -> u32 {
    let Ok(roster) = Roster::read(from_raw_parts(roster, roster_len)) else {
        return 0;
    };
    let two = [from_raw_parts(first, first_len), from_raw_parts(second, second_len)];
    let read = |bytes| with_verdicts(|verdicts| Submission::read(&roster, bytes, verdicts));
    let [Ok(first), Ok(second)] = two.map(read) else {
        return 0;
    };
    let charges = charges(&first, &second);
    let [votes, stamps] = [TWO_VOTES, TWO_STAMPS].map(|rule| {
        let broken = charges.iter().filter(|(_, charge)| charge.rule == rule);
        broken.fold(0, |replicas, (k, _)| replicas | mask_of(&[*k]))
    });
    (votes & stamps).into()
}

/// What hirelog_assemble has to return as its number, and to write; its length is written too.
///
/// # Safety
/// As above.
#[no_mangle]
pub unsafe extern "C" fn auditor_assemble(
    roster: *const u8,
    roster_len: usize,
    log: *const u8,
    log_len: usize,
    items: *const u8,
    items_len: usize,
    output: *mut u8,
    output_len: usize,
    length: *mut usize,
) -> u32 {
    let (number, written) = with_verdicts(|verdicts| {
        assemble(
            from_raw_parts(roster, roster_len),
            from_raw_parts(log, log_len),
            from_raw_parts(items, items_len),
            from_raw_parts_mut(output, output_len),
            verdicts,
        )
    });
    *length = written;
    number
}

/// struct hirelog_lms_answer.
#[repr(C)]
pub struct LmsAnswer {
    number: u32,
    leaf: u32,
    steps: u32,
}

/// What hirelog_lms_check has to return.
///
/// # Safety
/// As above.
#[no_mangle]
pub unsafe extern "C" fn auditor_lms_check(
    key: *const u8,
    key_len: usize,
    message: *const u8,
    message_len: usize,
    signature: *const u8,
    signature_len: usize,
) -> LmsAnswer {
    let verdict = check(
        from_raw_parts(key, key_len),
        from_raw_parts(message, message_len),
        from_raw_parts(signature, signature_len),
    );
    LmsAnswer { number: verdict.number().into(), leaf: verdict.leaf(), steps: verdict.steps() }
}

/// Writes the root that the signature leads to, whatever the key's root is; 1, or 0 if it leads to
/// none: then no root makes it good.
///
/// # Safety
/// As above; a root is 32 bytes.
#[no_mangle]
pub unsafe extern "C" fn auditor_lms_root(
    key: *const u8,
    key_len: usize,
    message: *const u8,
    message_len: usize,
    signature: *const u8,
    signature_len: usize,
    root: *mut u8,
) -> u32 {
    let found = candidate(
        from_raw_parts(key, key_len),
        from_raw_parts(message, message_len),
        from_raw_parts(signature, signature_len),
    );
    match found {
        Some(digest) => {
            from_raw_parts_mut(root, digest.len()).copy_from_slice(&digest);
            1
        }
        None => 0,
    }
}
