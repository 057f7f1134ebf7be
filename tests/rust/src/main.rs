//! Asks the published Rust about party fields 50 and 59 and lists its answers.
//!
//! Without arguments it writes the list and the coverage into the repository; with `--check` it
//! compares them with what is there; with `--count N` it makes a list of N cases.

use party_answers::compare::Comparison;
use party_answers::{facts, format, list, pages, reference, statements, sweep};
use std::fs;
use std::path::Path;
use std::process::ExitCode;

const SEED: u64 = 5059;
const COUNT: usize = 6000;
/// What is printed once all is replayed.
const LAST: &str = include_str!("answers-last.txt");

fn main() -> ExitCode {
    let arguments: Vec<String> = std::env::args().skip(1).collect();
    let arguments: Vec<&str> = arguments.iter().map(String::as_str).collect();
    let rust = Path::new(env!("CARGO_MANIFEST_DIR"));
    let repository = rust.join("../..");
    let done = match arguments[..] {
        [] => make(COUNT).and_then(|files| write(&files, &repository)),
        ["--check"] => make(COUNT).and_then(|files| check(&files, &repository)),
        ["--count", count] => match count.parse() {
            Ok(count) => make(count).and_then(|files| write(&files, &rust.join("target/list"))),
            Err(_) => Err(format!("not a count: {count}")),
        },
        _ => Err("arguments: none, --check, or --count N".to_string()),
    };
    match done {
        Ok(()) => ExitCode::SUCCESS,
        Err(error) => {
            eprintln!("{error}");
            ExitCode::FAILURE
        }
    }
}

/// A file's path from the root of the repository, and its text.
type File = (&'static str, String);

fn make(count: usize) -> Result<Vec<File>, String> {
    reference::silence_panics();
    let stated = statements::check()? + facts::check()?;
    println!("{stated} statements of docs/DIFFERENCES.md hold");
    let mut comparison = Comparison::default();
    let list = list::made(&mut comparison, SEED, count)?;
    sweep::each(|case| comparison.ask(case).map(drop))?;
    report(&comparison);
    let coverage = list.coverage();
    let empty = coverage.empty_cells();
    if !empty.is_empty() {
        return Err(format!("cells in reach without a case:\n{}", empty.join("\n")));
    }
    Ok(vec![
        ("crates/replay/stdin", list.answers(SEED)? + &pages::calls()? + LAST),
        ("tests/COVERAGE.md", coverage.text(&list.asked())),
    ])
}

/// The differences met, with a shortest case of each kind.
fn report(comparison: &Comparison) {
    println!("{} cases asked", comparison.asked);
    for ((class, rust, ours), (count, case)) in &comparison.met {
        let length = case.body.len();
        let question = match length {
            0..=40 => format::question(case),
            _ => format!("{} {}", case.reader.name(), format::letter(case.call)),
        };
        println!("{}: {rust} in the Rust, {ours} by the rules: {count} cases", class.name());
        println!("    of the shortest, {length} long: {question}");
    }
}

fn write(files: &[File], folder: &Path) -> Result<(), String> {
    for (name, text) in files {
        let path = folder.join(name);
        let parent = path.parent().map_or(Ok(()), fs::create_dir_all);
        parent.and_then(|()| fs::write(&path, text)).map_err(|error| format!("{name}: {error}"))?;
        println!("{name}: {} bytes", text.len());
    }
    Ok(())
}

fn check(files: &[File], folder: &Path) -> Result<(), String> {
    for (name, text) in files {
        let kept = fs::read(folder.join(name)).map_err(|error| format!("{name}: {error}"))?;
        if kept != text.as_bytes() {
            return Err(format!("{name} is not the one that is made"));
        }
        println!("{name}: the same");
    }
    Ok(())
}
