//! The counts of a run.

use crate::generate::{Family, Plan};
use party_answers::differences::Class;
use party_answers::model::{Answer, Call, Choice, Opt, Reader};
use std::fmt::Write;

const READERS: usize = Opt::ALL.len() + Choice::ALL.len();
const ROWS: usize = READERS + Choice::ALL.len();
const NUMBERS: usize = 15;

#[derive(Default)]
pub struct Tally {
    /// Bodies and readings of each family.
    families: [(u64, u64); Family::ALL.len()],
    /// Answers by row and number; 0 is a record.
    answers: [[u64; NUMBERS]; ROWS],
    rules: [u64; Class::ALL.len()],
    pub all_letters: u64,
    /// Records read and written.
    pub records: u64,
    /// Damaged records, written and refused with 22 and 41.
    pub damaged: u64,
    pub no_such: u64,
    pub no_option: u64,
    /// Placings.
    pub buffers: u64,
    pub edges: u64,
}

impl Tally {
    pub fn body(&mut self, family: Family, readings: u64) {
        let counts = &mut self.families[family as usize];
        counts.0 += 1;
        counts.1 += readings;
    }

    pub fn answer(&mut self, reader: Reader, call: Call, answer: &Answer, rule: Option<Class>) {
        let number = match answer {
            Answer::Refused { number, .. } => usize::from(*number),
            _ => 0,
        };
        self.answers[row(reader, call)][number] += 1;
        if let Some(rule) = rule {
            self.rules[rule as usize] += 1;
        }
    }

    pub fn add(&mut self, other: &Tally) {
        for (mine, theirs) in self.families.iter_mut().zip(other.families) {
            mine.0 += theirs.0;
            mine.1 += theirs.1;
        }
        let mine = self.answers.iter_mut().flatten();
        for (mine, theirs) in mine.zip(other.answers.iter().flatten()) {
            *mine += theirs;
        }
        for (mine, theirs) in self.rules.iter_mut().zip(other.rules) {
            *mine += theirs;
        }
        self.all_letters += other.all_letters;
        self.records += other.records;
        self.damaged += other.damaged;
        self.no_such += other.no_such;
        self.no_option += other.no_option;
        self.buffers += other.buffers;
        self.edges += other.edges;
    }

    pub fn text(&self, plan: &Plan) -> String {
        let mut text = String::from("bodies and readings of each family\n");
        for family in Family::ALL {
            let (bodies, readings) = self.families[family as usize];
            line(&mut text, &plan.name(family), &format!("{bodies} bodies, {readings} readings"));
        }
        line(&mut text, "of them with every letter", &format!("{} bodies", self.all_letters));
        text.push_str("answers of each reader: records, then refusals by number\n");
        for at in 0..ROWS {
            line(&mut text, &row_name(at), &numbers(&self.answers[at]));
        }
        text.push_str("written\n");
        line(&mut text, "records that a reader gave", &self.records.to_string());
        line(&mut text, "damaged records, still records", &self.damaged.to_string());
        line(&mut text, "damaged records, 22 by the rule", &self.no_such.to_string());
        line(&mut text, "damaged records, 41 by the rule", &self.no_option.to_string());
        line(&mut text, "buffers", &self.buffers.to_string());
        line(&mut text, "other calls (14, 21, 22, 41, 42)", &self.edges.to_string());
        text.push_str("answers by a rule, where the Rust's is not ours or was not asked\n");
        for class in Class::ALL {
            line(&mut text, class.name(), &self.rules[class as usize].to_string());
        }
        text
    }
}

fn line(text: &mut String, name: &str, value: &str) {
    writeln!(text, "  {name:42} {value}").expect("a string takes all");
}

fn numbers(row: &[u64; NUMBERS]) -> String {
    let met = row.iter().enumerate().skip(1).filter(|(_, count)| **count > 0);
    let refusals: Vec<String> = met.map(|(number, count)| format!("{number}: {count}")).collect();
    format!("{} records; {}", row[0], refusals.join(", "))
}

/// The options, the choices by `parse`, the choices by a letter or none.
fn row(reader: Reader, call: Call) -> usize {
    match (reader, call) {
        (Reader::Option(option), _) => option as usize,
        (Reader::Choice(choice), Call::Parse) => Opt::ALL.len() + choice as usize,
        (Reader::Choice(choice), _) => READERS + choice as usize,
    }
}

fn row_name(at: usize) -> String {
    match at.checked_sub(Opt::ALL.len()) {
        None => Opt::ALL[at].name().to_string(),
        Some(at) => match at.checked_sub(Choice::ALL.len()) {
            None => format!("{} detected", Choice::ALL[at].name()),
            Some(at) => format!("{} by letter", Choice::ALL[at].name()),
        },
    }
}
