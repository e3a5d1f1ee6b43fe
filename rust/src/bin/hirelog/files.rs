//! Reading the files of a command, and writing one; what cannot be read or written is said in words
//! for who has to mend it.

use crate::answer::{Failure, Status};
use std::ffi::OsString;
use std::fs::{self, File, OpenOptions};
use std::io::{self, ErrorKind, Read, Write};
use std::os::unix::fs::MetadataExt;
use std::path::{Path, PathBuf};

/// A file as it was read. Of a file above the library's limit one byte more than the limit is kept,
/// which gets the same number as the whole.
pub struct Input {
    path: PathBuf,
    pub bytes: Vec<u8>,
    limit: usize,
}

impl Input {
    /// Reads a file; or says why not, and what to do.
    fn read(path: PathBuf, limit: usize) -> Result<Input, String> {
        let told = |error: io::Error| unreadable(&path, &error);
        if path.is_dir() {
            return Err(format!(
                "{path:?} is a folder, and a file belongs here: name a file in it"
            ));
        }
        let mut bytes = Vec::new();
        let file = File::open(&path).map_err(told)?;
        file.take(limit as u64 + 1).read_to_end(&mut bytes).map_err(told)?;
        Ok(Input { path, bytes, limit })
    }

    pub fn is_long(&self) -> bool {
        self.bytes.len() > self.limit
    }

    /// The file's name in quotes, with its line feeds and the like escaped.
    pub fn name(&self) -> String {
        format!("{:?}", self.path)
    }

    pub fn path(&self) -> &Path {
        &self.path
    }

    /// Its name, and how many bytes it has.
    pub fn described(&self) -> String {
        format!("{} ({})", self.name(), self.size())
    }

    /// How many bytes it has, in words.
    pub fn size(&self) -> String {
        match self.bytes.len() {
            _ if self.is_long() => format!("more than {} bytes", grouped(self.limit)),
            size => counted(size, "byte"),
        }
    }
}

/// Reads all files; or says of each that cannot be read why not.
pub fn read_all<const N: usize>(paths: [PathBuf; N], limit: usize) -> Result<[Input; N], Failure> {
    let files = read_each(paths, limit)?;
    Ok(files.try_into().unwrap_or_else(|_| unreachable!("as many files as paths")))
}

/// The same of any number of files.
pub fn read_each(
    paths: impl IntoIterator<Item = PathBuf>,
    limit: usize,
) -> Result<Vec<Input>, Failure> {
    let (mut files, mut messages) = (Vec::new(), Vec::new());
    for path in paths {
        match Input::read(path, limit) {
            Ok(file) => files.push(file),
            Err(message) => messages.push(message),
        }
    }
    if messages.is_empty() {
        Ok(files)
    } else {
        Err(Failure { status: Status::Unreadable, messages })
    }
}

/// The files of these names in a folder; or says that it is no folder, or has not all of them, and
/// what can be done instead of mending that.
pub fn in_folder<const N: usize>(
    folder: &Path,
    names: [&str; N],
    instead: &str,
) -> Result<[PathBuf; N], Failure> {
    let message = match folder.metadata() {
        Ok(found) if found.is_dir() => match lacking(folder, &names, instead) {
            Some(message) => message,
            None => return Ok(names.map(|name| folder.join(name))),
        },
        Ok(_) => format!(
            "{folder:?} is a file, and a folder with the files {} belongs here: name that folder, \
             or each of its files",
            names.join(", ")
        ),
        Err(error) if error.kind() == ErrorKind::NotFound => format!(
            "there is no folder {folder:?}: look at the spelling, and whether its disk or stick is \
             there"
        ),
        Err(error) => unreadable(folder, &error),
    };
    Err(Failure { status: Status::Unreadable, messages: vec![message] })
}

/// Says that a folder may not be searched, or which names stand for nothing in it. A link counts as
/// there, also where what it leads to is not.
fn lacking(folder: &Path, names: &[&str], instead: &str) -> Option<String> {
    let mut missing = Vec::new();
    for name in names {
        match folder.join(name).symlink_metadata() {
            Err(error) if error.kind() == ErrorKind::NotFound => missing.push(name.to_string()),
            Err(error) if error.kind() == ErrorKind::PermissionDenied => {
                return Some(format!("the folder {}", unreadable(folder, &error)));
            }
            _ => {}
        }
    }
    let rename = match missing.len() {
        0 => return None,
        1 => "with exactly this name: rename it",
        _ => "with exactly these names: rename them",
    };
    let missing = list(&missing, "or");
    Some(format!("the folder {folder:?} has no file {missing}, {rename}, or {instead}"))
}

/// Linux's error for a name that goes on after a file, as if that were a folder.
const NOT_A_FOLDER: i32 = 20;

pub fn unreadable(path: &Path, error: &io::Error) -> String {
    match error.kind() {
        ErrorKind::NotFound => format!(
            "there is no file {path:?}: look at the spelling, and whether its disk or stick is \
             there"
        ),
        ErrorKind::PermissionDenied => format!(
            "{path:?} may not be read (permission denied): ask its owner, or whoever looks after \
             this machine, to let you read it"
        ),
        _ if error.raw_os_error() == Some(NOT_A_FOLDER) => format!(
            "there is no file {path:?}: a part of that name is a file, and not a folder; look at \
             the spelling"
        ),
        _ => format!("{path:?} cannot be read ({error}): copy it again from where it came"),
    }
}

/// Whether both names are those of one file, by links or otherwise, that is no device or the like.
pub fn one_file(a: &Path, b: &Path) -> bool {
    let id = |path: &Path| {
        let found = path.metadata().ok().filter(|found| found.is_file())?;
        Some((found.dev(), found.ino()))
    };
    id(a).is_some_and(|a| id(b) == Some(a))
}

/// Writes a file: whole, or it is left as it was, and it is said why. Until all bytes are there they
/// stand in a new file beside it. What is no file, such as a device, is written as it is.
pub fn write_whole(path: &Path, bytes: &[u8]) -> Result<(), Failure> {
    let written = match path.metadata() {
        Ok(found) if found.is_dir() => {
            let why = format!("{path:?} is a folder, and a file is to be written: name one in it");
            return Err(Failure { status: Status::Unreadable, messages: vec![why] });
        }
        // Asked, since a file that may not be written can be replaced all the same.
        Ok(found) => OpenOptions::new().write(true).open(path).and_then(|mut old| {
            if !found.is_file() {
                return old.write_all(bytes);
            }
            replace(&path.canonicalize()?, bytes, Some(found.permissions()))
        }),
        Err(_) if path.as_os_str().as_encoded_bytes().ends_with(b"/") => {
            let why = format!(
                "{path:?} names a folder, and a file is to be written: leave out the last /"
            );
            return Err(Failure { status: Status::Unreadable, messages: vec![why] });
        }
        Err(_) if path.is_symlink() => {
            let why = format!(
                "{path:?} is a link that leads nowhere: name the file that is to be written itself"
            );
            return Err(Failure { status: Status::Unreadable, messages: vec![why] });
        }
        Err(_) => replace(path, bytes, None),
    };
    written.map_err(|error| {
        let messages = vec![unwritable(path, &error)];
        Failure { status: Status::Unreadable, messages }
    })
}

/// Puts a new file in the place of this one, if there is one.
fn replace(path: &Path, bytes: &[u8], mode: Option<fs::Permissions>) -> io::Result<()> {
    let mut name = path.file_name().map_or(OsString::new(), OsString::from);
    name.push(format!(".part-{}", std::process::id()));
    let part = path.with_file_name(name);
    let mut file = OpenOptions::new().write(true).create_new(true).open(&part)?;
    let written = file
        .write_all(bytes)
        .and_then(|()| mode.map_or(Ok(()), |mode| file.set_permissions(mode)))
        .and_then(|()| file.sync_all())
        .and_then(|()| fs::rename(&part, path));
    if written.is_err() {
        // What stands there is no use to anybody; where it cannot be removed, its name says so.
        let _ = fs::remove_file(&part);
    }
    written
}

fn unwritable(path: &Path, error: &io::Error) -> String {
    match error.kind() {
        ErrorKind::NotFound => format!(
            "{path:?} cannot be written, for there is no such folder: look at the spelling, and \
             whether its disk or stick is there"
        ),
        ErrorKind::PermissionDenied => format!(
            "{path:?} may not be written (permission denied): name another file, or ask whoever \
             looks after this machine to let you write it"
        ),
        _ => format!("{path:?} cannot be written ({error}): name a file in another place"),
    }
}

/// So many of a thing, as 1 byte or 1,000 bytes.
pub fn counted(number: usize, thing: &str) -> String {
    format!("{} {thing}{}", grouped(number), if number == 1 { "" } else { "s" })
}

/// Texts in a row, with this word before the last.
pub fn list(texts: &[String], word: &str) -> String {
    match texts {
        [before @ .., last] if !before.is_empty() => format!("{} {word} {last}", before.join(", ")),
        _ => texts.concat(),
    }
}

/// A number with commas, as 2,097,152.
pub fn grouped(number: usize) -> String {
    let digits = number.to_string();
    let mut text = String::new();
    for (place, digit) in digits.chars().enumerate() {
        if place > 0 && (digits.len() - place) % 3 == 0 {
            text.push(',');
        }
        text.push(digit);
    }
    text
}

#[cfg(test)]
mod tests {
    use super::*;

    #[test]
    fn numbers_with_commas() {
        let texts = [0, 999, 1000, 28_672, 2_097_152].map(grouped);
        assert_eq!(texts, ["0", "999", "1,000", "28,672", "2,097,152"]);
    }
}
