//! What a command comes to, and how it is printed: as lines, with explanations, or as JSON.

use crate::json;

/// Exit statuses. 64 and 74 are those of sysexits.h.
#[derive(Clone, Copy, Debug, PartialEq, Eq)]
pub enum Status {
    /// Number 0, and no replica named; or a submission written.
    NothingFound = 0,
    /// Number 0, and a replica named.
    Named = 1,
    /// Any other number; of a district's run also that of a submission, with no replica named.
    Refused = 2,
    Usage = 64,
    /// A file that cannot be read, or a file or an answer that cannot be written.
    Unreadable = 74,
}

/// Why a command came to no answer: nothing is printed but these messages.
#[derive(Debug)]
pub struct Failure {
    pub status: Status,
    pub messages: Vec<String>,
}

/// What a line means, and what to do about it.
pub struct Remark {
    pub line: String,
    pub meaning: String,
    pub advice: String,
}

/// For stderr: which file was refused, with which number; and why, where nothing else says it.
pub struct RefusedFile {
    /// A sentence without its full stop.
    pub told: String,
    /// Nothing, or whole sentences.
    pub why: String,
}

/// What a command comes to.
pub struct Answer {
    pub status: Status,
    /// What scripts read: whole lines, the first thing printed.
    pub lines: Vec<u8>,
    /// The same as members of a JSON object, each value as JSON.
    pub members: Vec<(&'static str, String)>,
    pub remarks: Vec<Remark>,
    /// Each file that was refused, or the run as a whole.
    pub refused: Vec<RefusedFile>,
    /// What may have gone wrong with the files.
    pub hints: Vec<String>,
}

/// Columns of an explanation.
const COLUMNS: usize = 80;

impl Answer {
    /// The lines, and after them what each means.
    pub fn text(&self, explain: bool) -> Vec<u8> {
        let mut text = self.lines.clone();
        if explain {
            let remarks = self.remarks.iter().map(|remark| {
                let about = match self.lines.is_empty() {
                    true => "Why there is no line".into(),
                    false => format!("What \"{}\" says", remark.line),
                };
                let meaning = format!("{about}: {}", remark.meaning);
                fold(&meaning) + &fold(&format!("What to do: {}", remark.advice))
            });
            let hints = self.hints.iter().map(|hint| fold(&format!("Hint: {hint}.")));
            let parts = remarks.chain(hints).collect::<Vec<_>>().join("\n");
            text.extend(if text.is_empty() { "" } else { "\n" }.bytes().chain(parts.bytes()));
        }
        text
    }

    /// One object on one line.
    pub fn json(&self, command: &str, explain: bool) -> Vec<u8> {
        let mut members = vec![("command", json::string(command))];
        members.extend(self.members.iter().cloned());
        members.push(("hints", json::array(self.hints.iter().map(|hint| json::string(hint)))));
        if explain {
            members.push(("explanation", json::array(self.remarks.iter().map(Remark::json))));
        }
        (json::object(&members) + "\n").into_bytes()
    }

    /// What goes to stderr: with an explanation, which has all the rest, only what was refused.
    pub fn messages(&self, explain: bool) -> Vec<String> {
        if explain {
            return self.refused.iter().map(|refused| refused.told.clone()).collect();
        }
        let mut messages: Vec<String> = self.refused.iter().map(RefusedFile::whole).collect();
        messages.extend(self.hints.iter().cloned());
        if !self.refused.is_empty() {
            messages.push("for what to do: add --explain".into());
        }
        messages
    }
}

impl RefusedFile {
    pub fn whole(&self) -> String {
        match self.why.is_empty() {
            true => self.told.clone(),
            false => format!("{}. {}", self.told, self.why),
        }
    }
}

/// Each text once, where it stands first.
pub fn once(texts: Vec<String>) -> Vec<String> {
    let mut kept: Vec<String> = Vec::new();
    for text in texts {
        if !kept.contains(&text) {
            kept.push(text);
        }
    }
    kept
}

impl Remark {
    fn json(&self) -> String {
        json::object(&[
            ("line", json::string(&self.line)),
            ("meaning", json::string(&self.meaning)),
            ("advice", json::string(&self.advice)),
        ])
    }
}

/// The words of a text. A command line, which stands in backquotes, is one: it can be copied whole.
fn words(text: &str) -> Vec<String> {
    let (mut words, mut open) = (Vec::<String>::new(), false);
    for part in text.split(' ') {
        match words.last_mut() {
            Some(command) if open => *command += &format!(" {part}"),
            _ => words.push(part.into()),
        }
        open ^= part.matches('`').count() % 2 == 1;
    }
    words
}

/// The text in lines of at most `COLUMNS` characters (a longer word has its own), all but the first
/// indented.
fn fold(text: &str) -> String {
    let mut folded = String::new();
    let mut column = 0;
    for word in words(text) {
        let width = word.chars().count();
        if column > 0 && column + 1 + width > COLUMNS {
            folded += "\n    ";
            column = 4;
        } else if column > 0 {
            folded.push(' ');
            column += 1;
        }
        folded += &word;
        column += width;
    }
    folded + "\n"
}

#[cfg(test)]
mod tests {
    use super::*;

    /// Lines are as long as can be, and no word is lost or cut.
    #[test]
    fn folding() {
        assert_eq!(fold("one"), "one\n");
        let text = ["word"; 100].join(" ") + " " + &"x".repeat(100) + " end";
        let folded = fold(&text);
        assert_eq!(folded.split_whitespace().collect::<Vec<_>>().join(" "), text);
        for line in folded.lines().filter(|line| !line.contains('x')) {
            assert!(line.len() <= COLUMNS, "{line}");
        }
        assert_eq!(folded.lines().next().map(str::len), Some(79));
        assert_eq!(fold(&["1234"; 17].join(" ")), ["1234"; 16].join(" ") + "\n    1234\n");
    }

    /// A command line is not parted, however long it is.
    #[test]
    fn command_lines() {
        let command = format!("`hirelog audit {}`", ["a/long/name"; 8].join(" "));
        let folded = fold(&format!("Do this: {command}. Then `that`, and no more."));
        let expected = format!("Do this:\n    {command}.\n    Then `that`, and no more.\n");
        assert_eq!(folded, expected);
        assert_eq!(fold("a name with ` in it"), "a name with ` in it\n");
    }
}
