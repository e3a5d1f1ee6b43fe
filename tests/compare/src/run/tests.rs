//! The harness itself, on a call that is made up: wrong answers are caught, told and left behind,
//! and right ones are counted.

use super::*;
use crate::call::{number, Shape};
use crate::folder;
use std::path::PathBuf;
use std::{env, fs, process};

static SHAPE: Shape = Shape {
    name: "doubles",
    inputs: &["bytes"],
    outputs: &[("doubled", 4)],
    returns: &["number", "length"],
    numbers: &[0, 21],
    within: &[0, 6],
    fewest: (4, 2),
    tool: None,
};

/// Where the library is wrong.
#[derive(Clone, Copy, PartialEq)]
enum Wrong {
    Nowhere,
    Number,
    Length,
    Byte,
    ByteBefore,
    ByteAfter,
    WrittenWhenRefused,
    Null,
    Auditor,
    Also,
}

/// Writes each byte twice; 21 and nothing written if there is no room.
struct Doubles(Wrong);

impl Call for Doubles {
    fn shape(&self) -> &'static Shape {
        &SHAPE
    }

    fn cases(&self, seed: u64, size: Size, take: &mut dyn FnMut(&Case)) {
        let bytes = seed.to_be_bytes();
        let lengths = if size == Size::Full { 0..5 } else { 0..3 };
        for length in lengths {
            let expect = number(if 2 * length <= 6 { 0 } else { 21 });
            let name = format!("{length} bytes");
            take(&Case { name, inputs: vec![&bytes[8 - length..]], outputs: vec![6], expect });
        }
    }

    fn library(&self, inputs: &[Input], outputs: &mut [Output]) -> Vec<u64> {
        let Some(bytes) = inputs[0].bytes() else {
            assert!(inputs[0].start().is_null());
            return vec![u64::from(self.0 == Wrong::Null), 0];
        };
        let start = outputs[0].start();
        let room = outputs[0].bytes().expect("a room of 6 bytes");
        let mut returned = vec![21, 0];
        if 2 * bytes.len() <= room.len() {
            returned = vec![0, 2 * bytes.len() as u64];
            room.iter_mut().zip(bytes.iter().flat_map(|b| [b, b])).for_each(|(to, b)| *to = *b);
        } else if self.0 == Wrong::WrittenWhenRefused {
            room[0] ^= 1;
        }
        match self.0 {
            Wrong::Number if bytes.len() == 2 => returned[0] = 9,
            Wrong::Length if bytes.len() == 2 => returned[1] = 5,
            Wrong::Byte if bytes.len() == 2 => room[3] ^= 1,
            // SAFETY: the harness keeps more bytes than that around the room.
            Wrong::ByteBefore => unsafe { *start.sub(1) ^= 1 },
            Wrong::ByteAfter => unsafe { *start.add(7) ^= 1 },
            _ => (),
        }
        returned
    }

    fn auditor(&self, inputs: &[&[u8]], outputs: &mut [&mut [u8]]) -> Vec<u64> {
        let length = 2 * inputs[0].len();
        if length > outputs[0].len() || self.0 == Wrong::Auditor {
            return vec![21, 0];
        }
        for (i, byte) in inputs[0].iter().enumerate() {
            outputs[0][2 * i..2 * i + 2].fill(*byte);
        }
        vec![0, length as u64]
    }

    /// How much was written.
    fn within(&self, _: &[&[u8]], answer: &Answer) -> Vec<u64> {
        vec![answer.returned[1]]
    }

    fn also_wrong(&self, _: &[&[u8]], answer: &Answer) -> Option<String> {
        (self.0 == Wrong::Also && answer.returned[0] == 21).then(|| "also wrong".into())
    }
}

/// What was told of the first case that differed, which is left in a folder.
#[derive(Default)]
struct Told {
    wrong: Option<Wrong>,
    words: Vec<String>,
    begun: usize,
    folder: Option<PathBuf>,
}

impl Watch for Told {
    fn begins(&mut self, _: &Case, _: &Answer) {
        self.begun += 1;
    }

    fn differs(&mut self, Difference { case, why, expected, given }: Difference) {
        self.words.push(format!("{}: {why}", case.name));
        if let (Some(folder), Some(wrong)) = (&self.folder, self.wrong) {
            folder::write(folder, &Doubles(wrong), case, expected, given).expect("a folder");
        }
    }
}

fn told(wrong: Wrong) -> (Counts, Told) {
    let (mut counts, mut told) = (Counts::default(), Told::default());
    counts.run_set(&Doubles(wrong), (7, Size::Full), None, &mut told);
    (counts, told)
}

#[test]
fn right_answers() {
    let (counts, told) = told(Wrong::Nowhere);
    assert!(!counts.failed && told.words.is_empty());
    // The case of no bytes is run with NULL also.
    assert_eq!((counts.cases, counts.calls, told.begun), (5, 6, 5));
    assert_eq!(counts.numbers, BTreeMap::from([(0, 4), (21, 1)]));
    assert_eq!(counts.within, BTreeMap::from([(0, 2), (2, 1), (4, 1), (6, 1)]));
    assert_eq!(counts.missing(&Doubles(Wrong::Nowhere), Size::Full), None);
}

/// Each wrong answer is caught, and said in words; the cases after it are left out.
#[test]
fn wrong_answers() {
    for (wrong, words, cases) in [
        (Wrong::Number, "2 bytes: number 9, expected 0", 2),
        (Wrong::Length, "2 bytes: length 5, expected 4", 2),
        (Wrong::Byte, "2 bytes: byte 3 of the doubled is 6, expected 7", 2),
        (Wrong::ByteBefore, "0 bytes: byte 1 before the doubled is 191, expected 190", 0),
        (Wrong::ByteAfter, "0 bytes: byte 2 after the doubled is 231, expected 230", 0),
        (Wrong::WrittenWhenRefused, "4 bytes: byte 0 of the doubled is 228, expected 229", 4),
        (Wrong::Null, "0 bytes: number 1, expected 0, no bytes given as NULL", 0),
        (Wrong::Auditor, "0 bytes: the auditor is wrong, or the case: made to be 0, and is 21", 0),
        (Wrong::Also, "4 bytes: also wrong", 4),
    ] {
        let (counts, told) = told(wrong);
        assert_eq!((told.words, counts.failed, counts.cases), (vec![words.into()], true, cases));
    }
}

/// A case that differed differs in the same way when it is read from its folder, and no more when
/// the library is right.
#[test]
fn replayed() {
    let folder = env::temp_dir().join(format!("compare_test.{}", process::id()));
    let mut watch =
        Told { wrong: Some(Wrong::Byte), folder: Some(folder.clone()), ..Told::default() };
    Counts::default().run_set(&Doubles(Wrong::Byte), (7, Size::Full), None, &mut watch);
    assert_eq!(folder::call_name(&folder).expect("a call"), "doubles");
    let file = |name: &str| fs::read(folder.join(name)).expect("a file");
    assert_eq!((file("bytes"), file("doubled_length")), (vec![0, 7], b"6\n".to_vec()));
    assert_eq!(file("doubled")[..4], [0, 0, 7, 7]);
    assert_eq!(file("doubled.given")[..4], [0, 0, 7, 6]);
    for (wrong, right) in [(Wrong::Byte, false), (Wrong::Nowhere, true)] {
        let (mut counts, mut again) = (Counts::default(), Told::default());
        let run = |case: &Case| counts.run(&Doubles(wrong), case, &mut again);
        folder::read(&folder, &Doubles(wrong), run).expect("a case");
        assert_eq!((counts.failed, counts.cases), (!right, right.into()));
        let why = "byte 3 of the doubled is 6, expected 7";
        assert!(
            again.words.iter().all(|words| words.ends_with(why)) && right == again.words.is_empty()
        );
    }
    fs::remove_dir_all(&folder).expect("the folder");
}

/// Too few cases, and a number that never came, are said; time that is up leaves cases out.
#[test]
fn missing() {
    let call = Doubles(Wrong::Nowhere);
    let mut counts = Counts::default();
    counts.run_set(&call, (7, Size::Small), None, &mut Told::default());
    assert_eq!(counts.missing(&call, Size::Small), None);
    assert_eq!(counts.missing(&call, Size::Full), Some("3 cases, and 4 are the fewest".into()));
    counts.run_set(&call, (7, Size::Small), None, &mut Told::default());
    let never = Some("number 21 never came: add cases for it".into());
    assert_eq!(counts.missing(&call, Size::Full), never);
    counts.numbers.insert(21, 1);
    let never = Some("number 6 never came within what is written: add cases for it".into());
    assert_eq!(counts.missing(&call, Size::Full), never);
    let mut counts = Counts::default();
    counts.run_set(&call, (7, Size::Full), Some(Instant::now()), &mut Told::default());
    assert_eq!((counts.sets, counts.cases), (1, 0));
}
