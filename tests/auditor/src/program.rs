//! The lines that the program `audit` prints for three files.

use crate::audit::findings;
use crate::verdicts::Verdicts;

/// The program's buffers, in bytes.
pub const ROSTER_BUFFER: usize = 1024;
pub const SUBMISSION_BUFFER: usize = 28_672;

/// The lines for the files' content; a file that is missing has none.
pub fn lines(
    roster: Option<&[u8]>,
    first: Option<&[u8]>,
    second: Option<&[u8]>,
    verdicts: &mut Verdicts,
) -> String {
    let roster = held(roster, ROSTER_BUFFER);
    let (first, second) = (held(first, SUBMISSION_BUFFER), held(second, SUBMISSION_BUFFER));
    findings(roster, first, second, verdicts).lines()
}

/// A file's bytes; no bytes where it is missing or larger than its buffer, which gives number 2
/// or 5 at that number's place.
fn held(file: Option<&[u8]>, buffer: usize) -> &[u8] {
    match file {
        Some(bytes) if bytes.len() <= buffer => bytes,
        _ => &[],
    }
}

#[cfg(test)]
mod tests {
    use super::*;
    use crate::cases::empty;
    use crate::cluster::Keys;

    /// Missing files are empty, each at its place; those before it are validated first.
    #[test]
    fn missing_files() {
        let mut verdicts = Verdicts::default();
        let cluster = Keys::new("program").cluster_from_0(3, 5, 1);
        let (roster, empty) = (cluster.roster(), empty(&cluster).bytes());
        let (roster, empty) = (Some(&roster[..]), Some(&empty[..]));
        let mut printed = |roster, first, second| lines(roster, first, second, &mut verdicts);
        assert_eq!(printed(roster, empty, empty), "refusal 0 in 0\nfork 0\n");
        assert_eq!(printed(None, empty, empty), "refusal 2 in 0\nfork 0\n");
        assert_eq!(printed(None, None, None), "refusal 2 in 0\nfork 0\n");
        assert_eq!(printed(roster, None, empty), "refusal 5 in 1\nfork 0\n");
        assert_eq!(printed(roster, empty, None), "refusal 5 in 2\nfork 0\n");
        assert_eq!(printed(roster, None, None), "refusal 5 in 1\nfork 0\n");
    }

    /// A file that just fills its buffer is validated; a larger one gets its number at its place,
    /// however it begins or ends.
    #[test]
    fn large_files() {
        let mut verdicts = Verdicts::default();
        let cluster = Keys::new("program").cluster_from_0(3, 5, 1);
        let (roster, empty) = (cluster.roster(), empty(&cluster).bytes());
        let mut printed =
            |r: &[u8], a: &[u8], b: &[u8]| lines(Some(r), Some(a), Some(b), &mut verdicts);
        let mut fills = vec![0; SUBMISSION_BUFFER - 44];
        fills.extend(&empty);
        assert_eq!(printed(&roster, &fills, &empty), "refusal 9 in 1\nfork 0\n");
        assert_eq!(printed(&roster, &empty, &fills), "refusal 9 in 2\nfork 0\n");
        let larger = [&[0], &fills[..]].concat();
        assert_eq!(printed(&roster, &larger, &empty), "refusal 5 in 1\nfork 0\n");
        assert_eq!(printed(&roster, &empty, &larger), "refusal 5 in 2\nfork 0\n");
        assert_eq!(printed(&roster, &fills, &larger), "refusal 9 in 1\nfork 0\n");
        let mut long = roster.clone();
        long.resize(ROSTER_BUFFER + 1, 0);
        assert_eq!(printed(&long, &larger, &empty), "refusal 2 in 0\nfork 0\n");
    }
}
