//! Both answers to a case, and the differences met.

use crate::cells::{Cell, Way, reachable};
use crate::differences::Class;
use crate::format;
use crate::model::{Answer, Case, Reader};
use crate::{expected, reference, rules};
use std::collections::BTreeMap;

/// A case with the Rust's answer and that of the rules.
#[derive(Clone)]
pub struct Asked {
    pub case: Case,
    pub rust: Answer,
    pub ours: Answer,
    /// The class of the difference, where there is one.
    pub class: Option<Class>,
}

/// A class of difference, with the Rust's kind of answer and that of the rules.
pub type Kind = (Class, &'static str, &'static str);

#[derive(Default)]
pub struct Comparison {
    pub asked: usize,
    /// The count of each kind of difference, and a shortest case of it.
    pub met: BTreeMap<Kind, (usize, Case)>,
    cells: BTreeMap<(Reader, Way), Vec<Cell>>,
}

impl Comparison {
    /// Asks both; an error where a message is not mapped, the answer of the rules is neither the
    /// Rust's nor the one that its class of difference gives, or it was held to be out of reach.
    pub fn ask(&mut self, case: Case) -> Result<Asked, String> {
        self.asked += 1;
        let failed = |what: &str| format!("{what}: {}", format::question(&case));
        let rust = reference::answer(&case).map_err(|error| failed(&error))?;
        let ours = rules::answer(&case);
        if !self.is_reachable(&case, &ours) {
            return Err(failed("an answer held to be out of reach"));
        }
        let due = expected::answer(&case, rust.clone()).map_err(|error| failed(&error))?;
        if due.answer != ours {
            return Err(failed("a difference of no known class"));
        }
        let class = due.rule;
        let asked = Asked { case, rust, ours, class };
        self.note(&asked);
        Ok(asked)
    }

    fn is_reachable(&mut self, case: &Case, ours: &Answer) -> bool {
        let (reader, way) = (case.reader, Way::of(case));
        let cells = self.cells.entry((reader, way)).or_insert_with(|| reachable(reader, way));
        Cell::of(ours).is_some_and(|cell| cells.contains(&cell))
    }

    fn note(&mut self, asked: &Asked) {
        let Some(class) = asked.class else {
            return;
        };
        let key = (class, kind(&asked.rust), kind(&asked.ours));
        let (count, shortest) = self.met.entry(key).or_insert((0, asked.case.clone()));
        *count += 1;
        if asked.case.body.len() < shortest.body.len() {
            *shortest = asked.case.clone();
        }
    }
}

fn kind(answer: &Answer) -> &'static str {
    match answer {
        Answer::Read { .. } => "a record",
        Answer::Refused { .. } => "a refusal",
        Answer::Panicked => "a panic",
    }
}
