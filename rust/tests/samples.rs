//! The services on the repository's samples and on known values.

mod pairs;
mod steps;

use hirelog::{audit, audit_into, lms_check, sha256, Place, Refusal, Refused, Verdict};
use pairs::PAIRS;
use std::{fs, path::Path};
use steps::steps;

fn sample(name: &str, file: &str) -> Vec<u8> {
    let path = Path::new(env!("CARGO_MANIFEST_DIR")).join("../samples").join(name).join(file);
    fs::read(&path).unwrap_or_else(|error| panic!("{}: {error}", path.display()))
}

/// The lines of document 01's program.
fn lines(roster: &[u8], first: &[u8], second: &[u8]) -> String {
    match audit(roster, first, second) {
        Err(Refused { refusal, place }) => {
            format!("refusal {} in {}\nfork 0\n", refusal.number(), place as u8)
        }
        Ok(found) => {
            let mut lines = format!("refusal 0 in 0\nfork {}\n", found.fork.unwrap_or(0));
            for (replica, charge) in found.named() {
                lines += &format!("board {replica} rule {} term {}\n", charge.rule, charge.term);
            }
            lines
        }
    }
}

/// Every sample gives its lines and its report.
#[test]
fn samples() {
    for name in PAIRS {
        let [roster, first, second] = ["roster", "first", "second"].map(|file| sample(name, file));
        let expected = String::from_utf8(sample(name, "expected")).expect("lines");
        assert_eq!(lines(&roster, &first, &second), expected, "{name}");
        let mut report = [7; 60];
        assert_eq!(audit_into(&roster, &first, &second, &mut report), 0);
        assert_eq!(report[..53], sample(name, "report")[..], "{name}");
        assert_eq!(report[53..], [7; 7]);
    }
}

/// Refusals in each place, and a report that is too short.
#[test]
fn refusals() {
    let [roster, empty] = ["roster", "first"].map(|file| sample("empty", file));
    let refused = |refusal, place| Err(Refused { refusal, place });
    assert_eq!(audit(&[], &empty, &empty), refused(Refusal::RosterSize, Place::Roster));
    assert_eq!(audit(&roster, &[], &empty), refused(Refusal::Size, Place::First));
    assert_eq!(audit(&roster, &empty, &empty[1..]), refused(Refusal::Size, Place::Second));
    let mut report = [7; 52];
    assert_eq!(audit_into(&roster, &empty, &empty, &mut report), 1);
    assert_eq!(report, [7; 52]);
}

/// SHA-256 of no bytes, and a message that is too long.
#[test]
fn digests() {
    let digest = sha256(b"").expect("a digest");
    assert_eq!(digest[..4], [0xe3, 0xb0, 0xc4, 0x42]);
    assert_eq!(sha256(&vec![0; hirelog::MESSAGE_MAX + 1]), None);
}

/// A bad signature, a good one (replica 1's vote in a sample) with its leaf, and a message that is
/// too long; each with its steps.
#[test]
fn checks() {
    assert_eq!(lms_check(&[], &[], &[]), Verdict::Bad { steps: 0 });
    let long = lms_check(&[], &vec![0; hirelog::MESSAGE_MAX + 1], &[]);
    assert_eq!((long, long.steps()), (Verdict::LongMessage, 0));
    let (roster, first) = (sample("one_leader", "roster"), sample("one_leader", "first"));
    let key = &roster[18..18 + 56];
    let (vote, signature) = (&first[36..36 + 46], &first[36 + 48..36 + 48 + 1292]);
    let statement = [&[3], &roster[..16], vote].concat();
    let leaf = u32::from_be_bytes(signature[..4].try_into().expect("four bytes"));
    let good = Verdict::Good { leaf, steps: steps(key, &statement, signature) };
    assert_eq!(lms_check(key, &statement, signature), good);
    assert_eq!(good.steps(), steps(key, &statement, signature));
    let bad = Verdict::Bad { steps: steps(key, &statement[..62], signature) };
    assert_eq!(lms_check(key, &statement[..62], signature), bad);
    assert_eq!(lms_check(key, &statement, &signature[1..]), Verdict::Bad { steps: 0 });
}
