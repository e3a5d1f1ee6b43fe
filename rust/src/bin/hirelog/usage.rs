//! The command line: what it asks for, or what is wrong with it; and the help.

use crate::answer::{Answer, Failure, Status};
use crate::COMMANDS;
use std::ffi::{OsStr, OsString};
use std::path::{Path, PathBuf};

/// A command, and what its help says.
pub struct Command {
    pub name: &'static str,
    /// The operands that it takes, in each of its forms.
    pub forms: &'static [&'static str],
    /// A line for the list of commands.
    pub purpose: &'static str,
    /// What it does and prints.
    pub help: &'static str,
    /// What its own exit statuses mean.
    pub statuses: &'static [(Status, &'static str)],
    pub run: Run,
}

/// How a command comes to an answer on its operands, as many as there are.
#[derive(Clone, Copy)]
pub enum Run {
    Reads(fn(&[PathBuf]) -> Result<Answer, Failure>),
    /// Takes the file that -o names, too, which it writes.
    Writes(fn(&[PathBuf], &Path) -> Result<Answer, Failure>),
}

/// How the answer is to be printed, and the file that -o names.
#[derive(Default)]
pub struct Options {
    pub explain: bool,
    pub json: bool,
    pub output: Option<PathBuf>,
}

/// What a command line asks for.
pub enum Request {
    /// Help, or the version.
    Print(String),
    Run {
        command: &'static Command,
        options: Options,
        operands: Vec<PathBuf>,
    },
}

const OPTIONS: &str = "\
Options:
  --explain  say after the lines what each means, and what to do about it
  --json     print one object on one line instead, to which --explain adds
  --help     print this
  --         end the options, before a name that begins with -
";

/// For a command that writes a file.
const OUTPUT_OPTION: &str = "  -o FILE    the file to write; it is replaced if it is there\n";

const VERSION: &str = concat!("hirelog ", env!("CARGO_PKG_VERSION"), "\n");

/// Exit statuses of every command.
const STATUSES: &[(Status, &str)] = &[
    (Status::Usage, "wrong usage"),
    (Status::Unreadable, "a file cannot be read or written, or the answer cannot be written"),
];
const STATUSES_END: &str = "\
With 2, 64 and 74 a message says which file or argument, and why; with 64 and 74
nothing else is printed.
";

/// For a command that writes a file.
const OUTPUT_STATUS: &str = "With 74, if only the answer could not be written, FILE is there.\n";

/// Names of standard output, which is for the lines.
const STANDARD_OUTPUT: [&str; 4] = ["-", "/dev/stdout", "/dev/fd/1", "/proc/self/fd/1"];

/// Reads a command line.
pub fn parse(arguments: &[OsString]) -> Result<Request, Failure> {
    let Some((name, rest)) = arguments.split_first() else {
        return Err(wrong_usage(format!("name a command: {}", names()), "hirelog"));
    };
    if is_help(name) {
        return Ok(Request::Print(help()));
    }
    if name == "help" {
        let text = match rest {
            [name, ..] if !is_help(name) => find(name)?.help_text(),
            _ => help(),
        };
        return Ok(Request::Print(text));
    }
    if name == "--version" || name == "version" {
        return Ok(Request::Print(VERSION.into()));
    }
    if is_option(name) {
        return Err(option_first(arguments));
    }
    let command = find(name)?;
    let (options, operands) = match split(command, rest)? {
        Some(parts) => parts,
        None => return Ok(Request::Print(command.help_text())),
    };
    if operands.iter().chain(&options.output).any(|name| name.as_os_str().is_empty()) {
        let why = "a file's name is empty: is a variable of a script not set?".into();
        return Err(wrong_use(command, why));
    }
    Ok(Request::Run { command, options, operands })
}

/// The command of this name.
fn find(name: &OsString) -> Result<&'static Command, Failure> {
    COMMANDS.iter().find(|command| name == command.name).ok_or_else(|| {
        wrong_usage(format!("there is no command {name:?}, but {}", names()), "hirelog")
    })
}

/// The failure of a command line that begins with an option: says the right one, if there is a
/// command in it.
fn option_first(arguments: &[OsString]) -> Failure {
    let count = arguments.iter().take_while(|argument| is_option(argument)).count();
    let (before, rest) = arguments.split_at(count);
    let known =
        |option: &OsString| ["--explain", "--json", "--", "-o"].iter().any(|name| option == name);
    if let Some(option) = before.iter().find(|option| !known(option)) {
        return wrong_usage(format!("there is no option {option:?}"), "hirelog");
    }
    let why = match rest.split_first().map(|(name, after)| (find(name), after)) {
        Some((Ok(command), after)) => {
            let others: Vec<String> =
                before.iter().chain(after).map(|argument| written(argument)).collect();
            let line = format!("{} {}", command.full_name(), others.join(" "));
            format!("options stand after the command: {line}")
        }
        _ => format!("options stand after the command: name one first: {}", names()),
    };
    wrong_usage(why, "hirelog")
}

/// An argument as it can be typed: in single quotes where a shell might take it for something else,
/// and with escapes where it has bytes that cannot be typed.
pub fn written(argument: &OsStr) -> String {
    let plain = |byte: &u8| byte.is_ascii_alphanumeric() || b"-_./,:+=@%".contains(byte);
    let bytes = argument.as_encoded_bytes();
    match argument.to_str() {
        Some(text) if !bytes.is_empty() && bytes.iter().all(plain) => text.into(),
        Some(text) if !text.chars().any(char::is_control) => {
            format!("'{}'", text.replace('\'', r"'\''"))
        }
        _ => {
            let typed = |byte: &u8| match byte {
                b'\'' | b'\\' => format!("\\{}", *byte as char),
                b' '..=b'~' => (*byte as char).to_string(),
                _ => format!("\\x{byte:02x}"),
            };
            format!("$'{}'", bytes.iter().map(typed).collect::<String>())
        }
    }
}

/// Where the operands together, with blanks between, are the name of something: says so.
pub fn parted_name(operands: &[PathBuf]) -> Option<String> {
    let whole = operands.iter().map(|operand| operand.as_os_str()).collect::<Vec<_>>();
    let whole = PathBuf::from(whole.join(OsStr::new(" ")));
    let told = format!("{whole:?} is there: a name with blanks needs quotes");
    (operands.len() > 1 && whole.exists()).then_some(told)
}

/// Options apart from operands; nothing where help is asked for.
fn split(
    command: &Command,
    arguments: &[OsString],
) -> Result<Option<(Options, Vec<PathBuf>)>, Failure> {
    let (mut options, mut operands) = (Options::default(), Vec::new());
    let mut arguments = arguments.iter();
    while let Some(argument) = arguments.next() {
        if is_help(argument) {
            return Ok(None);
        } else if argument == "--explain" {
            options.explain = true;
        } else if argument == "--json" {
            options.json = true;
        } else if argument == "--" {
            operands.extend(arguments.by_ref().map(PathBuf::from));
        } else if argument == "-o" && matches!(command.run, Run::Writes(_)) {
            let file = output_name(arguments.next()).map_err(|why| wrong_use(command, why))?;
            if options.output.replace(file).is_some() {
                let why = "-o stands there twice, and one file is written: name one".into();
                return Err(wrong_use(command, why));
            }
        } else if argument == "-" {
            let why =
                "\"-\" names no file: standard input is not read, but /dev/stdin can be named";
            return Err(wrong_use(command, why.into()));
        } else if is_option(argument) {
            return Err(wrong_use(command, format!("there is no option {argument:?}")));
        } else {
            operands.push(PathBuf::from(argument));
        }
    }
    Ok(Some((options, operands)))
}

/// The file that -o names by the argument after it.
fn output_name(argument: Option<&OsString>) -> Result<PathBuf, String> {
    match argument {
        None => Err("-o needs the name of a file after it".into()),
        Some(name) if STANDARD_OUTPUT.iter().any(|standard| name == standard) => {
            Err(format!("{name:?} names no file: nothing but lines is printed, so name a file"))
        }
        Some(name) if is_option(name) => Err(format!(
            "-o needs the name of a file after it, and {name:?} is an option (a file of this name \
             is ./{})",
            name.to_string_lossy()
        )),
        Some(name) => Ok(PathBuf::from(name)),
    }
}

/// The file that a command is to write. Only after `--` can -o be among the operands.
pub fn output<'a>(
    command: &Command,
    options: &'a Options,
    operands: &[PathBuf],
) -> Result<&'a Path, Failure> {
    options.output.as_deref().ok_or_else(|| {
        let why = match operands.iter().any(|operand| operand.as_os_str() == "-o") {
            true => "-o after -- counts as a name: put -o FILE before --".into(),
            false => format!("{} writes a file: name it by -o FILE", command.full_name()),
        };
        wrong_use(command, why)
    })
}

fn is_help(argument: &OsString) -> bool {
    argument == "--help" || argument == "-h"
}

fn is_option(argument: &OsString) -> bool {
    argument.as_encoded_bytes().starts_with(b"-")
}

fn names() -> String {
    COMMANDS.iter().map(|command| command.name).collect::<Vec<_>>().join(", ")
}

fn wrong_usage(why: String, name: &str) -> Failure {
    Failure { status: Status::Usage, messages: vec![why, format!("for more: {name} --help")] }
}

/// The failure of a command that is used wrongly.
pub fn wrong_use(command: &Command, why: String) -> Failure {
    wrong_usage(why, &command.full_name())
}

/// The failure of a command that was given another number of operands than it takes.
pub fn wrong_count(command: &Command, count: usize) -> Failure {
    let forms = command.forms.join(" or ");
    let names = if count == 1 { "name was" } else { "names were" };
    // One name has no part too many.
    let quotes = if count > 1 { " (a name with blanks needs quotes)" } else { "" };
    let why = format!("{} takes {forms}, and {count} {names} given{quotes}", command.full_name());
    wrong_use(command, why)
}

/// The help of the whole.
fn help() -> String {
    let mut text = String::new();
    for (place, command) in COMMANDS.iter().enumerate() {
        text += &command.usage(if place == 0 { "use: " } else { "     " });
    }
    text.push('\n');
    for command in COMMANDS {
        text += &format!("  {:<8} {}\n", command.name, command.purpose);
    }
    text += "\nEach command's --help says what it prints; hirelog --version prints the version.\n";
    text += &format!("\n{OPTIONS}");
    let own = [
        (Status::NothingFound, "nothing found; a submission written; a good signature; a digest"),
        (Status::Named, "a board is named"),
        (Status::Refused, "a roster, submission, log, items, signature or message was refused"),
    ];
    text + &status_text(&own)
}

fn status_text(own: &[(Status, &str)]) -> String {
    let rows = own.iter().chain(STATUSES);
    let rows: String =
        rows.map(|&(status, text)| format!("  {:<3} {text}\n", status as u8)).collect();
    format!("\nExit status:\n{rows}{STATUSES_END}")
}

impl Command {
    fn full_name(&self) -> String {
        format!("hirelog {}", self.name)
    }

    /// A line for each form.
    fn usage(&self, begin: &str) -> String {
        let line = |(place, form): (usize, &&str)| {
            let begin = if place == 0 { begin } else { "     " };
            format!("{begin}{} [--explain] [--json] {form}\n", self.full_name())
        };
        self.forms.iter().enumerate().map(line).collect()
    }

    fn help_text(&self) -> String {
        let (usage, statuses) = (self.usage("use: "), status_text(self.statuses));
        let (output, end) = match self.run {
            Run::Writes(_) => (OUTPUT_OPTION, OUTPUT_STATUS),
            Run::Reads(_) => ("", ""),
        };
        format!("{usage}\n{}\n{OPTIONS}{output}{statuses}{end}", self.help)
    }
}

#[cfg(test)]
mod tests {
    use super::*;
    use std::os::unix::ffi::OsStrExt;

    /// What a shell makes the same argument of, and runs nothing in.
    #[test]
    fn arguments_to_type() {
        let cases: [(&[u8], &str); 8] = [
            (b"a/b-1.bin", "a/b-1.bin"),
            (b"", "''"),
            (b"b c", "'b c'"),
            (b"$(touch x)", "'$(touch x)'"),
            (b"`x`$y", "'`x`$y'"),
            (b"it's", r"'it'\''s'"),
            (b"a\nb'c", r"$'a\x0ab\'c'"),
            (b"\xff\\", r"$'\xff\\'"),
        ];
        for (argument, typed) in cases {
            assert_eq!(written(OsStr::from_bytes(argument)), typed);
        }
    }
}
