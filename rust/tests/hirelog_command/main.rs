//! The command hirelog, run on the samples, on files that are wrong in every way, and with wrong
//! uses.

#[path = "../apart/mod.rs"]
mod apart;
mod asked;
mod assemble;
mod audit;
mod check;
mod digest;
mod district;
mod files;
mod json;
#[path = "../pairs/mod.rs"]
mod pairs;
#[path = "../steps/mod.rs"]
mod steps;
mod usage;

use pairs::PAIRS;
use std::ffi::OsStr;
use std::fs;
use std::path::{Path, PathBuf};
use std::process::{Command, Output};

/// What a run of the command left.
#[derive(Debug)]
struct Run {
    status: i32,
    out: String,
    err: String,
}

impl Run {
    fn of(output: Output) -> Run {
        Run {
            status: output.status.code().expect("an exit status"),
            out: String::from_utf8_lossy(&output.stdout).into(),
            err: String::from_utf8_lossy(&output.stderr).into(),
        }
    }

    /// Nothing was printed but messages, which say each of these, and come from this status.
    fn fails(&self, status: i32, told: &[&str]) {
        assert_eq!((self.status, self.out.as_str()), (status, ""), "{self:?}");
        self.tells(told);
    }

    /// Messages say each of these, and every line of them begins with the command's name.
    fn tells(&self, told: &[&str]) {
        assert!(self.err.lines().all(|line| line.starts_with("hirelog: ")), "{self:?}");
        for text in told {
            assert!(self.err.contains(text), "{text}: {self:?}");
        }
    }

    /// With --explain the messages are the first of this plain run's, without the meaning; and none
    /// where nothing was refused. The plain run's last says what to do about a refusal.
    fn shortens(&self, plain: &Run) {
        self.shortens_each(plain, usize::from(plain.status == 2));
    }

    /// The same where so many were refused, whatever the status.
    fn shortens_each(&self, plain: &Run, refused: usize) {
        assert_eq!(self.err.lines().count(), refused, "{self:?} {plain:?}");
        if refused == 0 {
            assert!(!plain.err.contains("--explain"), "{plain:?}");
            return;
        }
        for (short, long) in self.err.lines().zip(plain.err.lines()) {
            assert!(long.starts_with(short), "{self:?} {plain:?}");
            assert!(short.contains(": number "), "{self:?}");
            assert!(short.ends_with(char::is_alphabetic), "{self:?}");
        }
        assert!(plain.err.ends_with("\nhirelog: for what to do: add --explain\n"), "{plain:?}");
    }

    /// The answer with its folded lines put together again.
    fn unfolded(&self) -> String {
        self.out.replace("\n    ", " ")
    }
}

/// The command with these arguments.
fn command<A: AsRef<OsStr>>(arguments: &[A]) -> Command {
    let mut command = Command::new(env!("CARGO_BIN_EXE_hirelog"));
    command.args(arguments);
    command
}

fn hirelog<A: AsRef<OsStr>>(arguments: &[A]) -> Run {
    Run::of(command(arguments).output().expect("the command runs"))
}

/// The command with options before the files.
fn with_options<F: AsRef<OsStr>>(name: &str, options: &[&str], files: &[F]) -> Run {
    let mut arguments: Vec<&OsStr> = vec![name.as_ref()];
    arguments.extend(options.iter().map(OsStr::new));
    arguments.extend(files.iter().map(AsRef::as_ref));
    hirelog(&arguments)
}

/// A path as the command writes it in its messages.
fn quoted(path: &Path) -> String {
    format!("{path:?}")
}

/// A path of the repository.
fn repository(path: &str) -> PathBuf {
    Path::new(env!("CARGO_MANIFEST_DIR")).parent().expect("the repository").join(path)
}

/// The roster, the first and the second submission of a sample.
fn sample(name: &str) -> [PathBuf; 3] {
    ["roster", "first", "second"].map(|file| repository("samples").join(name).join(file))
}

/// A folder of a test's own, which goes when the test ends.
struct Folder(PathBuf);

impl Folder {
    fn new(test: &str) -> Folder {
        let name = format!("hirelog_command-{test}-{}", std::process::id());
        let path = Path::new(env!("CARGO_TARGET_TMPDIR")).join(name);
        let _ = fs::remove_dir_all(&path);
        fs::create_dir_all(&path).expect("a folder");
        Folder(path)
    }

    /// Writes a file.
    fn put(&self, name: impl AsRef<Path>, bytes: &[u8]) -> PathBuf {
        let path = self.0.join(name);
        fs::write(&path, bytes).expect("written");
        path
    }
}

impl Drop for Folder {
    fn drop(&mut self) {
        let _ = fs::remove_dir_all(&self.0);
    }
}
