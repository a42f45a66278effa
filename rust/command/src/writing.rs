//! Files that are written, never over what is read.

use crate::files::{must_be_named, name_of};
use crate::output::Output;
use crate::quote::escaped;
use crate::streams::{self, Stream, ERRORS, OUTPUT};
use crate::Failure;
use std::ffi::{OsStr, OsString};
use std::fs::{self, File, Metadata, OpenOptions};
use std::io::{self, Write};
use std::os::unix::fs::MetadataExt;
use std::path::{Path, PathBuf};
use std::process;

/// Refuses to write to one of the files that are read, by whatever name.
pub fn apart<'a>(to: &OsStr, mut from: impl Iterator<Item = &'a OsStr>) -> Result<(), Failure> {
    must_be_named(to)?;
    // What goes to a device or a pipe is no file that is lost.
    let written = fs::metadata(to).ok().filter(Metadata::is_file);
    let Some(written) = written.filter(|_| to != "-") else {
        return Ok(());
    };
    let is_same = |path: &&OsStr| {
        let path = if *path == "-" {
            OsStr::new("/dev/stdin")
        } else {
            path
        };
        let read = fs::metadata(path);
        read.is_ok_and(|read| are_same(&read, &written))
    };
    match from.find(is_same) {
        Some(path) => Err(Failure::Misuse(format!(
            "{} would be written over {}, which is the same file",
            escaped(&to.to_string_lossy()),
            name_of(path)
        ))),
        None => Ok(()),
    }
}

fn are_same(one: &Metadata, other: &Metadata) -> bool {
    (one.dev(), one.ino()) == (other.dev(), other.ino())
}

/// Writes the bytes to a file, all or an error; - is standard output.
pub fn write(path: &OsStr, bytes: &[u8], output: &mut Output) -> Result<(), Failure> {
    let stream = stream(path);
    if stream == Some(OUTPUT) {
        output.write_all(bytes)?;
        return Ok(output.arrive()?);
    }
    // It may go to the same place by another descriptor.
    output.flush()?;
    let outcome = match (stream, target(Path::new(path))) {
        (Some(stream), _) => Stream::of(stream).write_all(bytes),
        (None, Some(target)) => whole(&target, bytes),
        (None, None) => fs::write(path, bytes),
    };
    outcome.map_err(|cause| {
        let name = escaped(&path.to_string_lossy());
        Failure::Output(format!("{name} cannot be written: {cause}"))
    })
}

/// The open descriptor that a path means. What others write by it would be
/// lost if the file were written anew.
fn stream(path: &OsStr) -> Option<i32> {
    if path == "-" {
        return Some(OUTPUT);
    }
    let is_same = |stream: &i32| {
        let open = Stream::of(*stream).metadata();
        let found = fs::metadata(path);
        open.is_ok_and(|open| found.is_ok_and(|found| are_same(&open, &found)))
    };
    streams::number_of(path).or_else(|| [OUTPUT, ERRORS].into_iter().find(is_same))
}

/// The regular file, there or to be made, that a path means; None for a
/// device, a pipe, a link to nothing, and a file with other names, which would
/// keep the old bytes.
fn target(path: &Path) -> Option<PathBuf> {
    // These folders are the system's: nothing in them is replaced.
    if path.starts_with("/dev") || path.starts_with("/proc") {
        return None;
    }
    match fs::symlink_metadata(path) {
        Err(_) => Some(path.to_owned()),
        Ok(_) => {
            let target = fs::canonicalize(path).ok()?;
            let found = fs::metadata(&target).ok()?;
            (found.is_file() && found.nlink() == 1).then_some(target)
        }
    }
}

/// Writes a file so that it has all of the bytes or stays as it was: beside it
/// first, where that can be done.
fn whole(target: &Path, bytes: &[u8]) -> io::Result<()> {
    let old = match OpenOptions::new().write(true).open(target) {
        // A file that may not be written is not replaced either.
        Ok(old) => Some(old.metadata()?),
        Err(cause) if cause.kind() == io::ErrorKind::NotFound => None,
        Err(cause) => return Err(cause),
    };
    let mut name = OsString::from(".");
    name.push(target.file_name().unwrap_or_default());
    name.push(format!(".{}", process::id()));
    let beside = target.with_file_name(name);
    let Some(mut file) = new_like(&beside, old) else {
        return fs::write(target, bytes);
    };
    let written = file.write_all(bytes);
    let outcome = written.and_then(|()| fs::rename(&beside, target));
    if outcome.is_err() {
        let _ = fs::remove_file(&beside);
    }
    outcome
}

/// A new file with the owner and the mode of the old one; None where it cannot
/// be made.
fn new_like(path: &Path, old: Option<Metadata>) -> Option<File> {
    let file = File::create_new(path).ok()?;
    let Some(old) = old else {
        return Some(file);
    };
    let owner = |of: &Metadata| (of.uid(), of.gid());
    let is_like = file.metadata().is_ok_and(|new| owner(&new) == owner(&old))
        && file.set_permissions(old.permissions()).is_ok();
    if !is_like {
        let _ = fs::remove_file(path);
    }
    is_like.then_some(file)
}
