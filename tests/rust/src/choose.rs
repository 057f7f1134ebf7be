//! Choosing cases from a pool for what they add.

use crate::cells::{Cell, Way};
use crate::compare::Asked;
use crate::model::Case;
use crate::rules;
use std::collections::HashMap;

/// At most `count` cases of the pool. In each round a case is taken if one of its features was met
/// fewer times than the round allows; the allowance doubles from round to round.
pub fn chosen(pool: Vec<Asked>, count: usize) -> Vec<Asked> {
    let mut met: HashMap<String, usize> = HashMap::new();
    let mut left: Vec<(Asked, Vec<String>)> = Vec::new();
    for asked in pool {
        let features = features(&asked);
        left.push((asked, features));
    }
    let mut taken = Vec::new();
    let mut allowed = 1;
    while taken.len() < count && !left.is_empty() {
        let mut later = Vec::new();
        for (asked, features) in left {
            let is_new = features
                .iter()
                .any(|feature| met.get(feature).is_none_or(|&times| times < allowed));
            if taken.len() == count || !is_new {
                later.push((asked, features));
                continue;
            }
            for feature in features {
                *met.entry(feature).or_default() += 1;
            }
            taken.push(asked);
        }
        left = later;
        allowed *= 2;
    }
    taken
}

/// What a case shows: the answer, what each option would make of the body, the shape of its lines.
fn features(asked: &Asked) -> Vec<String> {
    let case = &asked.case;
    let way = Way::of(case);
    let asker = format!("{} {way:?}", case.reader.name());
    let cell = Cell::of(&asked.ours);
    vec![
        format!("{asker} {cell:?}"),
        format!("{asker} {:?}", each_option(case)),
        format!("{asker} {cell:?} {}", line_shape(&case.body)),
        format!("{cell:?} {}", length_shape(&case.body)),
    ]
}

fn each_option(case: &Case) -> Vec<Option<Cell>> {
    let options = case.reader.options().iter();
    let answers = options.map(|&option| rules::answer(&Case::option(option, case.body.as_str())));
    answers.map(|answer| Cell::of(&answer)).collect()
}

fn line_shape(body: &str) -> String {
    let count = rules::lines(body.as_bytes()).len().min(7);
    let crlf = body.contains("\r\n");
    let cr = body.replace("\r\n", "").contains('\r');
    format!("{count} {crlf} {cr} {}", body.ends_with('\n'))
}

/// The lengths of the first lines, in kinds that tell the limits apart.
fn length_shape(body: &str) -> String {
    let kind = |length: usize| match length {
        0..=2 | 8 | 11 | 33..=37 => length,
        3..=7 => 3,
        9 | 10 => 9,
        12..=32 => 12,
        _ => 38,
    };
    let lines = rules::lines(body.as_bytes()).into_iter().take(3);
    let kinds: Vec<usize> = lines.map(|line| kind(line.len())).collect();
    format!("{kinds:?}")
}
