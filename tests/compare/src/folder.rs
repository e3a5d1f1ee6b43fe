//! A case as files: `call`, the call's name; each input by its name; `NAME_length` for each buffer
//! that is written into, beside NAME, what it has to hold then, and `NAME.given`, what the library
//! left there. An input of very many zero bytes is a file `NAME_zeros` with their number.

use crate::call::{Answer, Call, Case};
use std::fs;
use std::io::{self, ErrorKind};
use std::path::Path;

/// More zero bytes than that are not written out.
const LONG: usize = 1 << 25;

/// Writes the case into the folder, in place of another that was left there.
pub fn write(
    folder: &Path,
    call: &dyn Call,
    case: &Case,
    expected: &Answer,
    given: Option<&Answer>,
) -> io::Result<()> {
    let shape = call.shape();
    fs::create_dir_all(folder)?;
    fs::write(folder.join("call"), format!("{}\n", shape.name))?;
    for (name, bytes) in shape.inputs.iter().zip(&case.inputs) {
        let (file, zeros) = (folder.join(name), folder.join(format!("{name}_zeros")));
        if bytes.len() > LONG && bytes.iter().all(|byte| *byte == 0) {
            remove(&file)?;
            fs::write(zeros, format!("{}\n", bytes.len()))?;
        } else {
            remove(&zeros)?;
            fs::write(file, bytes)?;
        }
    }
    for (i, (name, _)) in shape.outputs.iter().enumerate() {
        fs::write(folder.join(format!("{name}_length")), format!("{}\n", case.outputs[i]))?;
        fs::write(folder.join(name), expected.outputs()[i])?;
        let file = folder.join(format!("{name}.given"));
        match given {
            Some(given) => fs::write(file, given.outputs()[i])?,
            None => remove(&file)?,
        }
    }
    Ok(())
}

/// Removes a file, if it is there.
fn remove(file: &Path) -> io::Result<()> {
    match fs::remove_file(file) {
        Err(error) if error.kind() != ErrorKind::NotFound => Err(error),
        _ => Ok(()),
    }
}

/// The name of the call whose case the folder holds, if it says so.
pub fn call_name(folder: &Path) -> io::Result<String> {
    Ok(fs::read_to_string(folder.join("call"))?.trim().into())
}

/// Hands on the case that the folder holds, or says what is wrong with it.
pub fn read<T>(folder: &Path, call: &dyn Call, take: impl FnOnce(&Case) -> T) -> Result<T, String> {
    let shape = call.shape();
    let mut inputs = Vec::new();
    for name in shape.inputs {
        let path = folder.join(name);
        inputs.push(match number(folder, &format!("{name}_zeros"))? {
            Some(zeros) => vec![0; zeros],
            None => fs::read(&path).map_err(|error| format!("{}: {error}", path.display()))?,
        });
    }
    let mut outputs = Vec::new();
    for (name, length) in shape.outputs {
        outputs.push(number(folder, &format!("{name}_length"))?.unwrap_or(*length));
    }
    let name = folder.display().to_string();
    let bytes = inputs.iter().map(Vec::as_slice).collect();
    let case = Case { name, inputs: bytes, outputs, expect: None };
    Ok(take(&case))
}

/// The number that a file holds, if the file is there.
fn number(folder: &Path, name: &str) -> Result<Option<usize>, String> {
    match fs::read_to_string(folder.join(name)) {
        Err(error) if error.kind() == ErrorKind::NotFound => Ok(None),
        text => match text.ok().and_then(|text| text.trim().parse().ok()) {
            Some(number) => Ok(Some(number)),
            None => Err(format!("{name} holds no number: write one")),
        },
    }
}
