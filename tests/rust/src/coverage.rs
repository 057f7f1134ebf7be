//! The coverage tables, and the check that no cell in reach is empty.

use crate::cells::{Cell, LAST_LINES, Way, reachable};
use crate::compare::Asked;
use crate::differences::Class;
use crate::model::{Answer, Choice, Opt, Reader};
use std::collections::{BTreeMap, BTreeSet};

/// A reader and the way to call it.
type Column = (Reader, Way);

pub struct Coverage {
    cells: BTreeMap<(Reader, Way, Cell), usize>,
    last_lines: BTreeMap<(Opt, u8, usize), usize>,
    classes: BTreeMap<(Class, Reader), usize>,
}

impl Coverage {
    pub fn of(list: &[Asked]) -> Coverage {
        let mut coverage = Coverage {
            cells: BTreeMap::new(),
            last_lines: BTreeMap::new(),
            classes: BTreeMap::new(),
        };
        for asked in list {
            coverage.count(asked);
        }
        coverage
    }

    fn count(&mut self, asked: &Asked) {
        let reader = asked.case.reader;
        if let Some(cell) = Cell::of(&asked.ours) {
            *self.cells.entry((reader, Way::of(&asked.case), cell)).or_default() += 1;
        }
        if let (Reader::Option(option), Answer::Refused { number, line }) = (reader, &asked.ours) {
            *self.last_lines.entry((option, *number, *line)).or_default() += 1;
        }
        if let Some(class) = asked.class {
            *self.classes.entry((class, reader)).or_default() += 1;
        }
    }

    /// The cells in reach that no case is in.
    pub fn empty_cells(&self) -> Vec<String> {
        let mut empty = Vec::new();
        for reader in Reader::all() {
            for way in Way::all(reader) {
                for cell in reachable(reader, way) {
                    if !self.cells.contains_key(&(reader, way, cell)) {
                        empty.push(format!("{} {}: {}", reader.name(), way.name(), cell.name()));
                    }
                }
            }
        }
        for last @ (option, number, line) in LAST_LINES {
            if !self.last_lines.contains_key(&last) {
                empty.push(format!("{}: {number}, line {line}", option.name()));
            }
        }
        empty
    }

    pub fn text(&self, list: &[Asked]) -> String {
        let differing = list.iter().filter(|asked| asked.class.is_some()).count();
        let mut text = include_str!("coverage-head.md")
            .replace("{cases}", &list.len().to_string())
            .replace("{differing}", &differing.to_string());
        text.push_str("\n## The eleven options\n\n");
        let columns: Vec<_> =
            Opt::ALL.map(Reader::Option).map(|reader| (reader, Way::Parse)).to_vec();
        text.push_str(&self.table(&columns, |(reader, _)| reader.name().to_string()));
        text.push_str(&self.last_lines_text());
        for choice in Choice::ALL {
            let reader = Reader::Choice(choice);
            text.push_str(&format!("\n## {}\n\n", choice.name()));
            let columns: Vec<_> = Way::all(reader).into_iter().map(|way| (reader, way)).collect();
            text.push_str(&self.table(&columns, |(_, way)| way.name()));
        }
        text.push_str("\n## Where the Rust and the rules differ\n\n");
        text.push_str(&self.classes_table());
        text
    }

    fn table(&self, columns: &[Column], title: impl Fn(Column) -> String) -> String {
        let titles = columns.iter().map(|&column| title(column)).collect();
        let mut text = head(titles);
        for (name, cells) in rows(columns) {
            let counts = columns.iter().zip(cells).map(|(&(reader, way), cell)| {
                let count = cell.map(|cell| self.cells.get(&(reader, way, cell)));
                count.map_or("–".to_string(), |count| {
                    count.copied().unwrap_or_default().to_string()
                })
            });
            text.push_str(&row(name, counts.collect()));
        }
        text
    }

    fn last_lines_text(&self) -> String {
        let mut text = include_str!("coverage-last.md").to_string();
        text.push_str(&head(["number", "line", "cases"].map(str::to_string).to_vec()));
        for last @ (option, number, line) in LAST_LINES {
            let count = self.last_lines.get(&last).copied().unwrap_or_default();
            let fields = [number.to_string(), line.to_string(), count.to_string()];
            text.push_str(&row(option.name().to_string(), fields.to_vec()));
        }
        text
    }

    fn classes_table(&self) -> String {
        let mut text = head(Class::ALL.map(|class| class.name().to_string()).to_vec());
        for reader in Reader::all() {
            let counts = Class::ALL.map(|class| {
                let count = self.classes.get(&(class, reader));
                count.map_or("–".to_string(), usize::to_string)
            });
            text.push_str(&row(reader.name().to_string(), counts.to_vec()));
        }
        text
    }
}

/// A row's name, and the cell of each column that has it in reach.
type Row = (String, Vec<Option<Cell>>);

fn rows(columns: &[Column]) -> Vec<Row> {
    let in_reach = columns.iter().map(|&(reader, way)| reachable(reader, way));
    let in_reach: Vec<Vec<Cell>> = in_reach.collect();
    let mut cells: BTreeSet<Cell> = in_reach.iter().flatten().copied().collect();
    let mut rows = Vec::new();
    if let Some(accepted) = accepted(columns) {
        cells.retain(|cell| matches!(cell, Cell::Refused(..)));
        rows.push(accepted);
    }
    for cell in cells {
        let found = in_reach.iter().map(|cells| cells.contains(&cell));
        let found = found.map(|found| found.then_some(cell)).collect();
        rows.push((cell.name(), found));
    }
    rows
}

/// The one row for all that is accepted, in the table of the options.
fn accepted(columns: &[Column]) -> Option<Row> {
    let read = |&(reader, _): &Column| match reader {
        Reader::Option(option) => Some(Some(Cell::Read(option))),
        Reader::Choice(_) => None,
    };
    let cells: Option<Vec<_>> = columns.iter().map(read).collect();
    cells.map(|cells| ("accepted".to_string(), cells))
}

fn head(titles: Vec<String>) -> String {
    let rule = "|---".repeat(titles.len() + 1);
    format!("{}{rule}|\n", row(String::new(), titles))
}

fn row(first: String, fields: Vec<String>) -> String {
    format!("| {first} | {} |\n", fields.join(" | "))
}
