//! The page that is read.

use crate::messages::shown;
use std::ffi::{OsStr, OsString};
use std::fs::{File, Metadata};
use std::io::{self, Read};
use std::os::unix::io::AsFd;
use yewdome::pages::{Listed, LONGEST_PAGE};
use yewdome::ErrorKind;

/// A page, and where it was read from.
pub struct Input {
    /// The name for messages.
    pub name: String,
    pub page: Vec<u8>,
    pub file: Metadata,
}

impl Input {
    /// Reads the page in a file, or on standard input.
    pub fn read(path: Option<OsString>) -> Result<Self, String> {
        let name = path.as_deref().map_or_else(|| "standard input".to_string(), shown);
        match contents(path.as_deref()) {
            Err(error) => Err(format!("{name}: cannot be read: {error}")),
            Ok((page, _)) if page.is_empty() => {
                Err(format!("{name}: there is no page: it is empty"))
            }
            Ok((page, _)) if page.len() > LONGEST_PAGE => {
                let (kind, number) = (ErrorKind::PageTooLong, ErrorKind::PageTooLong as u8);
                Err(format!("{name}: {kind} (refusal {number}): it has over {LONGEST_PAGE} bytes"))
            }
            Ok((page, file)) => Ok(Self { name, page, file }),
        }
    }

    /// The page lines at which reads from the start stood, counted from 1.
    pub fn lines(&self, answers: &[Listed]) -> Vec<usize> {
        let (mut line, mut from) = (1, 0);
        let lines = answers.iter().map(|answer| {
            line += self.page[from..answer.at].iter().filter(|&&byte| byte == b'\n').count();
            from = answer.at;
            line
        });
        lines.collect()
    }
}

/// The bytes of a file, up to the first that is too many for a page.
fn contents(path: Option<&OsStr>) -> io::Result<(Vec<u8>, Metadata)> {
    let file = match path {
        Some(path) => File::open(path)?,
        None => io::stdin().as_fd().try_clone_to_owned()?.into(),
    };
    let metadata = file.metadata()?;
    let mut page = Vec::new();
    file.take(LONGEST_PAGE as u64 + 1).read_to_end(&mut page)?;
    Ok((page, metadata))
}
