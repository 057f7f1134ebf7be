//! A list: the families that are always kept, and cases chosen from a random pool.

use crate::choose;
use crate::compare::{Asked, Comparison};
use crate::coverage::Coverage;
use crate::expected;
use crate::families;
use crate::format;
use crate::model::Case;
use crate::pool;
use std::collections::BTreeSet;

/// A part of the list: its title, and its cases with the name that some have.
struct Part {
    title: &'static str,
    cases: Vec<(Option<&'static str>, Asked)>,
}

pub struct List {
    parts: Vec<Part>,
}

/// How many cases the pool has, for a number of them to choose.
fn pool_size(wanted: usize) -> usize {
    100_000 + 4 * wanted
}

pub fn made(comparison: &mut Comparison, seed: u64, count: usize) -> Result<List, String> {
    let mut known: BTreeSet<Case> = BTreeSet::new();
    let mut parts = Vec::new();
    for family in families::kept() {
        let mut cases = Vec::new();
        for (name, case) in family.cases {
            if known.insert(case.clone()) {
                cases.push((name, comparison.ask(case)?));
            }
        }
        parts.push(Part { title: family.title, cases });
    }
    let wanted = count.saturating_sub(known.len());
    let mut found = Vec::new();
    for case in pool::cases(seed, pool_size(wanted)) {
        if known.insert(case.clone()) {
            found.push(comparison.ask(case)?);
        }
    }
    let chosen = choose::chosen(found, wanted).into_iter();
    parts.push(Part {
        title: "damaged and random bodies",
        cases: chosen.map(|asked| (None, asked)).collect(),
    });
    Ok(List { parts })
}

impl List {
    pub fn asked(&self) -> Vec<Asked> {
        let cases = self.parts.iter().flat_map(|part| &part.cases);
        cases.map(|(_, asked)| asked.clone()).collect()
    }

    pub fn coverage(&self) -> Coverage {
        Coverage::of(&self.asked())
    }

    /// Every case with our answer and the Rust's.
    pub fn answers(&self, seed: u64) -> Result<String, String> {
        let count: usize = self.parts.iter().map(|part| part.cases.len()).sum();
        let mut text = include_str!("answers-head.txt")
            .replace("{count}", &count.to_string())
            .replace("{seed}", &seed.to_string());
        for part in &self.parts {
            text.push_str(&format!("#\n# {}: {} cases\n", part.title, part.cases.len()));
            for (name, asked) in &part.cases {
                if let Some(name) = name {
                    text.push_str(&format!("# {name}\n"));
                }
                let writing = expected::writing(&asked.case, &asked.rust, &asked.ours);
                let writing = writing
                    .map_err(|error| format!("{error}: {}", format::question(&asked.case)))?;
                text.push_str(&format::row(asked, writing.as_ref()));
            }
        }
        Ok(text)
    }
}
