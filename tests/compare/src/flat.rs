//! A record as bytes: the option's place, the presence, the count, then six texts, each its length
//! and room for the longest one: the account or identifier, the BIC, four names; then four digits,
//! those of the names' lines in 50F.

use party_answers::differences::IN_TURN;
use party_answers::model::{Opt, Record};
use party_compare::ours;

pub const LENGTH: usize = ours::RECORD_LENGTH;
const FIRST_TEXT: usize = 3;
const TEXT: usize = 39;
pub const LONGEST: usize = TEXT - 1;
const TEXTS: [&str; 6] = ["account", "BIC", "name 1", "name 2", "name 3", "name 4"];
pub const MOST_NAMES: usize = 4;
pub const FIRST_DIGIT: usize = FIRST_TEXT + TEXTS.len() * TEXT;
const _: () = assert!(LENGTH == FIRST_DIGIT + MOST_NAMES);

pub type Flat = [u8; LENGTH];

/// The bytes of a record that a reader gives, with the digits that it uses: those not used are 0.
pub fn of(record: &Record, digits: &[u8]) -> Flat {
    let mut flat = [0; LENGTH];
    flat[0] = record.option as u8;
    flat[1] = u8::from(record.party.is_some());
    flat[2] = record.names.len() as u8;
    put(&mut flat, 0, record.party.as_deref().unwrap_or_default());
    put(&mut flat, 1, &record.bic);
    for (at, name) in record.names.iter().enumerate() {
        put(&mut flat, 2 + at, name);
    }
    flat[FIRST_DIGIT..][..digits.len()].copy_from_slice(digits);
    flat
}

/// The bytes with the digits set to 1, 2, 3, 4.
pub fn in_turn(flat: &Flat) -> Flat {
    let mut flat = *flat;
    flat[FIRST_DIGIT..].copy_from_slice(&IN_TURN);
    flat
}

/// Where a text's length stands.
pub fn text_at(index: usize) -> usize {
    FIRST_TEXT + index * TEXT
}

fn put(flat: &mut Flat, index: usize, text: &[u8]) {
    let at = text_at(index);
    flat[at] = text.len() as u8;
    flat[at + 1..at + 1 + text.len()].copy_from_slice(text);
}

/// The record of any bytes, from those that it uses; none where it is no record of the model.
///
/// A text that the option or the count leaves out is not used. The account of an option that has
/// one is, and no reader gives one that is not empty with the presence 'no'.
pub fn record(flat: &Flat) -> Option<Record> {
    let option = *Opt::ALL.get(usize::from(flat[0]))?;
    let count = usize::from(flat[2]);
    if flat[1] > 1 || count > MOST_NAMES {
        return None;
    }
    let account = match option {
        Opt::N50 | Opt::C50 => Vec::new(),
        _ => text(flat, 0)?,
    };
    let party = match flat[1] {
        1 => Some(account),
        _ if account.is_empty() => None,
        _ => return None,
    };
    let bic = match option {
        Opt::A50 | Opt::C50 | Opt::G50 | Opt::A59 => text(flat, 1)?,
        _ => Vec::new(),
    };
    let names: Option<Vec<_>> = (0..count).map(|at| text(flat, 2 + at)).collect();
    Some(Record { option, party, bic, names: names? })
}

fn text(flat: &Flat, index: usize) -> Option<Vec<u8>> {
    let at = text_at(index);
    let length = usize::from(flat[at]);
    (length <= LONGEST).then(|| flat[at + 1..at + 1 + length].to_vec())
}

/// The name of the field that a byte of a record belongs to.
pub fn field(at: usize) -> String {
    match at {
        0 => "option".to_string(),
        1 => "presence".to_string(),
        2 => "count".to_string(),
        FIRST_DIGIT.. => format!("digit {}", at - FIRST_DIGIT + 1),
        _ => {
            let (text, byte) = ((at - FIRST_TEXT) / TEXT, (at - FIRST_TEXT) % TEXT);
            match byte {
                0 => format!("length of {}", TEXTS[text]),
                _ => format!("byte {byte} of {}", TEXTS[text]),
            }
        }
    }
}
