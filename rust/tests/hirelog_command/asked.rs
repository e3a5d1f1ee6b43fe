//! One question asked in every way: plainly, with --explain, and as JSON with and without it. What
//! holds of each answer, whichever the command.

use crate::json::{self, Value};
use crate::*;
use hirelog::numbers::Number;

/// A command with its files, and what it printed plainly; of which so many were refused.
pub struct Asked<'a, F> {
    pub command: &'a str,
    pub files: &'a [F],
    pub plain: &'a Run,
    pub refused: usize,
}

impl<F: AsRef<OsStr>> Asked<'_, F> {
    /// The object, which has members of these names and the number's word; with --explain it has the
    /// explanations too, and all else is the same.
    pub fn object(&self, names: &[&str]) -> Value {
        let [short, long] = [&["--json"][..], &["--json", "--explain"]].map(|options| {
            let run = with_options(self.command, options, self.files);
            assert_eq!(run.status, self.plain.status);
            if options.len() == 1 {
                assert_eq!(run.err, self.plain.err);
            } else {
                run.shortens_each(self.plain, self.refused);
            }
            json::read(&run.out)
        });
        assert_eq!(short.names(), names);
        for name in names {
            assert_eq!(long.get(name), short.get(name));
        }
        assert_eq!(short.get("command").text(), self.command);
        let number = Number::of(short.get("number").number() as u32).expect("a row");
        assert_eq!(short.get("word").text(), number.word);
        let explanation = long.get("explanation").list();
        let lines: String =
            explanation.iter().map(|remark| remark.get("line").text().to_string() + "\n").collect();
        assert_eq!(lines, self.plain.out);
        assert!(explanation.iter().all(|remark| remark.names() == ["line", "meaning", "advice"]));
        short
    }

    /// The explanation, unfolded: it comes after the lines, has a meaning and an advice for each of
    /// them, begins no line as they do, and has the object's hints.
    pub fn explanation(&self, object: &Value) -> String {
        let lines = self.plain.out.as_str();
        let explained = with_options(self.command, &["--explain"], self.files);
        assert_eq!(explained.status, self.plain.status);
        explained.shortens_each(self.plain, self.refused);
        assert!(explained.out.starts_with(&format!("{lines}\nWhat ")), "{explained:?}");
        let short = |line: &str| line.chars().count() <= 80 || line.contains('/');
        assert!(explained.out.lines().all(short), "{explained:?}");
        let words =
            ["refusal", "submission", "fork", "board", "length", "records", "term", "commit"];
        let like_a_line = |line: &str| words.iter().any(|word| line.starts_with(word));
        assert!(!explained.out[lines.len()..].lines().any(like_a_line), "{explained:?}");
        let text = explained.unfolded();
        for line in lines.lines() {
            assert!(text.contains(&format!("What \"{line}\" says: ")), "{line}: {text}");
        }
        assert_eq!(text.matches("\nWhat to do: ").count(), lines.lines().count());
        for hint in object.get("hints").list() {
            assert!(text.contains(&format!("Hint: {}.", hint.text())), "{text}");
            assert!(self.plain.err.contains(hint.text()), "{:?}", self.plain);
        }
        text
    }
}

/// Rosters that get 2, 3 and 4, from one that is accepted.
pub fn wrong_rosters(bytes: &[u8]) -> [(usize, Vec<u8>); 3] {
    let mut other_type = bytes.to_vec();
    other_type[18 + 7] = 3;
    let mut twins = bytes.to_vec();
    twins.copy_within(18..18 + 56, 18 + 56);
    [(2, bytes[1..].to_vec()), (3, other_type), (4, twins)]
}
