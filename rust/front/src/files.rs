//! Files that the command writes: whole or not at all, and never over what it reads.

use crate::command::{named, End, FileName};
use crate::output::shown_name;
use std::fs::{self, File, Metadata, OpenOptions};
use std::io::{self, ErrorKind, Write};
use std::os::unix::fs::MetadataExt;
use std::path::{Path, PathBuf};
use std::process;

/// Names that are tried for the file beside.
const TRIES: usize = 100;

fn failed<T>(path: &str, why: impl std::fmt::Display) -> Result<T, End> {
    Err(End::Failed(format!("{}: {why}", shown_name(path))))
}

/// What stands behind the name of an input.
fn input(file: &FileName) -> io::Result<Metadata> {
    fs::metadata(if &**file == "-" { Path::new("/dev/stdin") } else { file.as_ref() })
}

/// The file that is to be written, behind all links, and what stands there. It is none of the inputs, and may be
/// replaced.
pub fn target(path: &str, inputs: &[&FileName]) -> Result<(PathBuf, Option<Metadata>), End> {
    let there = match fs::metadata(path) {
        Ok(there) => there,
        Err(error) if error.kind() == ErrorKind::NotFound && fs::symlink_metadata(path).is_err() => {
            return Ok((path.into(), None));
        }
        Err(error) => return failed(path, error),
    };
    let is_there = |input: &Metadata| (input.dev(), input.ino()) == (there.dev(), there.ino());
    if let Some(same) = inputs.iter().find(|file| input(file).is_ok_and(|input| is_there(&input))) {
        return failed(path, format_args!("is the file that is read as {}, and is left as it is", named(same)));
    }
    if !there.is_file() {
        return failed(path, "is not a file that can be replaced");
    }
    if there.permissions().readonly() {
        return failed(path, "is there, and may not be written");
    }
    match fs::canonicalize(path) {
        Ok(path) => Ok((path, Some(there))),
        Err(error) => failed(path, error),
    }
}

/// A new file in a folder.
fn beside(folder: &Path) -> io::Result<(File, PathBuf)> {
    let mut last = None;
    for at in 0..TRIES {
        let path = folder.join(format!(".wurgalm-{}-{at}.part", process::id()));
        match OpenOptions::new().write(true).create_new(true).open(&path) {
            Ok(file) => return Ok((file, path)),
            Err(error) if error.kind() == ErrorKind::AlreadyExists => last = Some(error),
            Err(error) => return Err(error),
        }
    }
    Err(last.unwrap_or_else(|| ErrorKind::AlreadyExists.into()))
}

/// Writes a file beside its place, and gives it its name when it is whole.
fn replace(path: &Path, there: Option<Metadata>, bytes: &[u8]) -> io::Result<()> {
    let folder = path.parent().filter(|folder| !folder.as_os_str().is_empty()).unwrap_or(Path::new("."));
    let (mut file, part) = beside(folder)?;
    let written = file
        .write_all(bytes)
        .and_then(|()| there.map_or(Ok(()), |there| file.set_permissions(there.permissions())))
        .and_then(|()| file.sync_all())
        .and_then(|()| fs::rename(&part, path));
    if written.is_err() {
        let _ = fs::remove_file(&part);
    }
    written
}

/// Writes a file whole or not at all, and over none of the inputs.
pub fn write(path: &str, bytes: &[u8], inputs: &[&FileName]) -> Result<(), End> {
    let (place, there) = target(path, inputs)?;
    replace(&place, there, bytes).or_else(|error| failed(path, error))
}
