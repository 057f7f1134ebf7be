//! The command `yewdome`: files, reads and checks pages of the party fields 50 and 59.

#![forbid(unsafe_code)]

mod arguments;
mod input;
mod listing;
mod messages;
mod output;

use arguments::Task;
use input::Input;
use messages::{report, say, Tally};
use std::ffi::OsString;
use std::process::ExitCode;
use yewdome::pages::{self, Listed, LONGEST_PAGE};

fn main() -> ExitCode {
    let ended = arguments::parse(std::env::args_os().skip(1)).and_then(run);
    ExitCode::from(match ended {
        Ok(true) => 0,
        Ok(false) => 1,
        Err(failure) => {
            say(&failure);
            2
        }
    })
}

/// Gives whether all was good, or what to say where no page was read or the output is not whole.
fn run(task: Task) -> Result<bool, String> {
    match task {
        Task::Help => output::print(arguments::help().as_bytes()).and(Ok(true)),
        Task::Version => output::print(arguments::VERSION.as_bytes()).and(Ok(true)),
        Task::File { input, output, exact } => file(&Input::read(input)?, output, exact),
        Task::Read(input) => read(&Input::read(input)?),
        Task::Check(input) => check(&Input::read(input)?),
    }
}

fn file(input: &Input, output: Option<OsString>, exact: bool) -> Result<bool, String> {
    let mut buffer = vec![0; LONGEST_PAGE];
    let filing = pages::file(&input.page, &mut buffer);
    let length = filing.closed.map_err(|refusal| format!("{}: {refusal}", input.name))?;
    let tally = Tally::of(input, &filing.answers);
    if let Some(why) = tally.inexact().filter(|_| exact) {
        report(input, &filing.answers);
        say(&format!("{}: nothing written: {why} (--exact)", input.name));
        return Ok(false);
    }
    let page = &buffer[..length];
    let written = match output {
        Some(path) => output::replace(&path, page, input),
        None => output::print(page),
    };
    report(input, &filing.answers);
    written?;
    say(&format!("{}: {}", input.name, tally.filed()));
    Ok(tally.is_good())
}

fn read(input: &Input) -> Result<bool, String> {
    let answers = pages::listed(&input.page);
    let written = output::print(listing::of(input, &answers).as_bytes());
    report(input, &answers);
    written?;
    Ok(sum_up(input, &answers))
}

fn check(input: &Input) -> Result<bool, String> {
    let answers = pages::listed(&input.page);
    report(input, &answers);
    Ok(sum_up(input, &answers))
}

/// Says the counts of a page that is read, and gives whether all of it was good.
fn sum_up(input: &Input, answers: &[Listed]) -> bool {
    let tally = Tally::of(input, answers);
    say(&format!("{}: {}", input.name, tally.read()));
    tally.is_good()
}
