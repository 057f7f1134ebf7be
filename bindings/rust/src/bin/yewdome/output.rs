//! What is written: to standard output, or in the place of a file.

use crate::input::Input;
use crate::messages::shown;
use std::ffi::{OsStr, OsString};
use std::fs::{self, File, OpenOptions, Permissions};
use std::io::{self, Write};
use std::os::unix::ffi::OsStrExt;
use std::os::unix::fs::{MetadataExt, OpenOptionsExt, PermissionsExt};
use std::os::unix::io::AsFd;
use std::path::{Path, PathBuf};

/// Writes to standard output. It is written as a file, since the standard library's own writer takes
/// one that cannot be written for one that was.
pub fn print(bytes: &[u8]) -> Result<(), String> {
    let out = io::stdout().as_fd().try_clone_to_owned().map(File::from);
    out.and_then(|out| write(out, bytes))
        .map_err(|error| format!("standard output: not written whole: {error}"))
}

/// Writes a page in the place of a file, or as a new one. Where that fails, the file is as it was.
pub fn replace(path: &OsStr, page: &[u8], input: &Input) -> Result<(), String> {
    let replaced = place_of(Path::new(path), input).and_then(|place| put(&place, page));
    replaced.map_err(|error| format!("{}: not written: {error}", shown(path)))
}

/// Where a page is put, and the permissions of the file that is there.
struct Place {
    path: PathBuf,
    mode: Option<u32>,
}

/// The place of a file: what is there must be a regular file that may be written, and not the one
/// that was read. Where a link leads to it, the place is at the link's end.
fn place_of(path: &Path, input: &Input) -> io::Result<Place> {
    if is_free(path)? {
        return Ok(Place { path: path.to_path_buf(), mode: None });
    }
    let path = fs::canonicalize(path)?;
    let there = fs::metadata(&path)?;
    if !there.is_file() {
        return Err(refused("it is not a regular file"));
    }
    if (there.dev(), there.ino()) == (input.file.dev(), input.file.ino()) {
        return Err(refused("it is the page that is read, and what is refused would be lost"));
    }
    // the folder alone would let a file be replaced that may not be written
    OpenOptions::new().write(true).open(&path)?;
    Ok(Place { path, mode: Some(there.mode() & 0o777) })
}

/// Whether nothing is at a path, not even a link.
fn is_free(path: &Path) -> io::Result<bool> {
    match fs::symlink_metadata(path) {
        Err(error) if error.kind() == io::ErrorKind::NotFound => Ok(true),
        there => there.and(Ok(false)),
    }
}

fn refused(why: &str) -> io::Error {
    io::Error::new(io::ErrorKind::Other, why)
}

/// Writes a page to a new file beside its place, which then takes the place.
fn put(place: &Place, page: &[u8]) -> io::Result<()> {
    let (file, beside) = beside(place)?;
    let done = fill(file, page, place.mode).and_then(|()| fs::rename(&beside, &place.path));
    if done.is_err() {
        // what failed first is what is told
        let _ = fs::remove_file(&beside);
    }
    done
}

fn fill(file: File, page: &[u8], mode: Option<u32>) -> io::Result<()> {
    if let Some(mode) = mode {
        file.set_permissions(Permissions::from_mode(mode))?;
    }
    write(file, page)
}

/// Makes a new file beside a place. Its first name may be taken, by what a process of the same number
/// left when it was killed.
fn beside(place: &Place) -> io::Result<(File, PathBuf)> {
    let mut options = OpenOptions::new();
    options.write(true).create_new(true).mode(place.mode.unwrap_or(0o666));
    let mut tried = 0;
    loop {
        let path = place.path.with_file_name(name_beside(&place.path, tried)?);
        match options.open(&path) {
            Err(error) if error.kind() == io::ErrorKind::AlreadyExists && tried < 99 => tried += 1,
            opened => return Ok((opened?, path)),
        }
    }
}

/// `.NAME.PROCESS.TRIED.tmp`, of which a long name is cut, so that the whole is no longer than a
/// name may be.
fn name_beside(path: &Path, tried: u32) -> io::Result<OsString> {
    let name = path.file_name().ok_or_else(|| refused("it has no file name"))?.as_bytes();
    let mut beside = OsString::from(".");
    beside.push(OsStr::from_bytes(&name[..name.len().min(200)]));
    beside.push(format!(".{}.{tried}.tmp", std::process::id()));
    Ok(beside)
}

/// Writes all bytes, and sees that a regular file has them.
fn write(mut file: File, bytes: &[u8]) -> io::Result<()> {
    file.write_all(bytes)?;
    if file.metadata()?.is_file() {
        file.sync_all()?;
    }
    Ok(())
}
