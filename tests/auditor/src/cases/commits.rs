//! Number 14.

use super::change::{bases, set_signers, slots};
use super::Cases;
use crate::submission::CommitCertificate;

impl Cases<'_> {
    /// Number 14.
    pub fn commit_indexes(&mut self) {
        let signer = self.signer(3, 5);
        for (base, mut draft) in bases(&signer) {
            let h = draft.records.len() as u32;
            let mut indexes =
                vec![0, h + 1, h + 2, h | 1 << 8, h | 1 << 16, 4097, 1 << 31, u32::MAX];
            indexes.retain(|index| *index == 0 || *index > h);
            for index in indexes {
                draft.commit =
                    Some(CommitCertificate { index, signers: 0, signatures: Vec::new() });
                let slot = slots(&draft) - 1;
                set_signers(&signer, &mut draft, slot, signer.first_quorum());
                let name = format!("{base}, commit index {index} of {h}");
                self.refuse_once(&name, &signer, &draft.bytes(), 14);
            }
        }
    }
}
