//! The calls that are compared.

pub mod assemble;
pub mod audit;
pub mod district;
pub mod lms_check;
pub mod sha256;

use crate::call::Call;

/// Every call, the shortest first; each is new, and keeps nothing from a set before.
pub fn all() -> Vec<Box<dyn Call>> {
    vec![
        Box::new(sha256::Sha256),
        Box::new(lms_check::LmsCheck),
        Box::<assemble::Assemble>::default(),
        Box::<district::District>::default(),
        Box::<audit::Audit>::default(),
    ]
}
