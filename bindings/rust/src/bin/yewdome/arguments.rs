//! What the command is asked to do.

use crate::messages::shown;
use std::ffi::OsString;
use std::os::unix::ffi::OsStrExt;

/// What `--version` prints.
pub const VERSION: &str = concat!("yewdome ", env!("CARGO_PKG_VERSION"), "\n");

const USAGE: &str = "\
usage: yewdome file [--exact] [-o FILE] [FILE]
       yewdome read [FILE]
       yewdome check [FILE]
       yewdome --help
       yewdome --version";

const HELP: &str = "\
Files, reads and checks a page of the party fields 50 and 59 of SWIFT MT messages: fields, each
opened by its tag, then the line '-' or '-}', in at most 32,768 bytes. Lines end in LF or CR LF; a
new page has LF and '-'. The page is read from FILE, or from standard input where FILE is '-' or
not given.

  file      writes a new page of every record that reads and that a page carries
  read      lists every answer: the texts of a record, with the digits of a 50F's lines, or the
            body that is refused
  check     reads the same, and lists nothing

  --exact   writes nothing unless every field of the page is filed, each as the very bytes that
            came; a line before the first field is no field
  -o FILE   writes the new page to FILE, whole or not at all; what is there must be a regular
            file, and not the page that is read; '-' is standard output
  --        ends the options

What is refused, and what is filed as other bytes than came, is said on standard error, with its
page line, and so are the counts.

Status:
  0  nothing was refused, and the page was read to its last byte
  1  something was refused, bytes after the end line were not read, or --exact let nothing be
     written
  2  no page could be read, the output was not written whole, or the usage was wrong
";

/// What `--help` prints.
pub fn help() -> String {
    format!("{USAGE}\n\n{HELP}")
}

/// A task. An input or an output that is not named is standard input or output.
pub enum Task {
    Help,
    Version,
    File { input: Option<OsString>, output: Option<OsString>, exact: bool },
    Read(Option<OsString>),
    Check(Option<OsString>),
}

/// The task that the arguments ask for, or what is wrong with them, with the usage.
pub fn parse(arguments: impl Iterator<Item = OsString>) -> Result<Task, String> {
    task(arguments).map_err(|wrong| format!("{wrong}\n{USAGE}"))
}

fn task(mut arguments: impl Iterator<Item = OsString>) -> Result<Task, String> {
    let command = arguments.next().ok_or("no command is given")?;
    match command.as_bytes() {
        b"--help" => Ok(Task::Help),
        b"--version" => Ok(Task::Version),
        b"file" => {
            of_files(arguments, true, |input, output, exact| Task::File { input, output, exact })
        }
        b"read" => of_files(arguments, false, |input, _, _| Task::Read(input)),
        b"check" => of_files(arguments, false, |input, _, _| Task::Check(input)),
        _ => Err(format!("no such command: {}", shown(&command))),
    }
}

/// The task of a command by its input, its output and whether `--exact` is given; only the one that
/// files takes the last two.
fn of_files(
    mut arguments: impl Iterator<Item = OsString>,
    files: bool,
    task: impl FnOnce(Option<OsString>, Option<OsString>, bool) -> Task,
) -> Result<Task, String> {
    let (mut input, mut output, mut exact, mut options) = (None, None, None, true);
    while let Some(argument) = arguments.next() {
        match argument.as_bytes() {
            b"--" if options => options = false,
            b"--help" if options => return Ok(Task::Help),
            b"--version" if options => return Ok(Task::Version),
            b"-o" if options && files => {
                let file = arguments.next().ok_or("-o is given no FILE")?;
                once(&mut output, file, "-o is given twice")?;
            }
            b"--exact" if options && files => {
                once(&mut exact, argument, "--exact is given twice")?;
            }
            [b'-', _, ..] if options => {
                return Err(format!("no such option: {}", shown(&argument)));
            }
            _ => once(&mut input, argument, "more than one FILE is given")?,
        }
    }
    let named = |file: Option<OsString>| file.filter(|it| it != "-");
    Ok(task(named(input), named(output), exact.is_some()))
}

/// Keeps an argument in its place, where there is none yet.
fn once(place: &mut Option<OsString>, argument: OsString, twice: &str) -> Result<(), String> {
    match place.replace(argument) {
        None => Ok(()),
        Some(_) => Err(twice.to_string()),
    }
}
