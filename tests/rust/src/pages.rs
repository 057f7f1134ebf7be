//! Two pages: calls that file records, overwrite fields, read them and look them up, and what is
//! expected of each.
//!
//! What a page does is written here from our rules for pages; what is read of a body and written of
//! a record is that of `expected`.

use crate::expected;
use crate::format::{escaped, fields, record};
use crate::model::{Answer, Call, Case, Opt, Record};
use crate::{reference, rules};

/// The most bytes of a page, and entries of an index.
const PAGE: usize = 32_768;
const ENTRIES: usize = 256;
/// How many records are tried with an index: more than there are entries for.
const TRIED: usize = 400;

// The records.

/// A record as it is lent, with bytes also where no option or count uses them.
struct Lent {
    option: Opt,
    present: bool,
    count: usize,
    /// Account or identifier, BIC, four names.
    texts: [Vec<u8>; 6],
    digits: [u8; 4],
}

fn digit(n: usize) -> u8 {
    b'0' + (n % 10) as u8
}

/// The account at turn 0, and the names from 1 on: 5 to 33 bytes, numbered as 59F has them.
fn text(k: usize, turn: usize) -> Vec<u8> {
    let mut text = vec![b'X'; 5 + k % 25 + turn % 5];
    let first = [digit(turn), b'/', digit(k / 100), digit(k / 10), digit(k)];
    text[..5].copy_from_slice(&first);
    text
}

/// The first name, which ends in CR where the record is to be refused with 23.
fn first_name(k: usize) -> Vec<u8> {
    let mut name = text(k, 1);
    if option(k) == Opt::N59 && is_present(k) {
        name.truncate(4);
        name.push(b'\r');
    }
    name
}

fn bic(k: usize) -> Vec<u8> {
    let branch: &[u8] = if k % 2 == 0 { b"" } else { b"XXX" };
    [b"DEUTDE", &[digit(k / 10), digit(k)][..], branch].concat()
}

fn option(k: usize) -> Opt {
    Opt::ALL[k % 11]
}

/// Always where the option needs one, every other time where it may have one.
fn is_present(k: usize) -> bool {
    match option(k) {
        Opt::N50 | Opt::C50 => false,
        Opt::F50 | Opt::L50 | Opt::G50 | Opt::H50 => true,
        _ => k / 11 % 2 == 1,
    }
}

fn has_bic(option: Opt) -> bool {
    matches!(option, Opt::A50 | Opt::C50 | Opt::G50 | Opt::A59)
}

/// Five names, which are more than any option has, in every thirteenth.
fn count(k: usize) -> usize {
    match option(k) {
        _ if k % 13 == 5 => 5,
        option if has_bic(option) || option == Opt::L50 => 0,
        _ => 1 + k % 4,
    }
}

impl Lent {
    fn new(k: usize) -> Lent {
        let (present, count) = (is_present(k), count(k));
        let account = if present { text(k, 0) } else { Vec::new() };
        let names = [first_name(k), text(k, 2), text(k, 3), text(k, 4)];
        let [one, two, three, four] = names;
        let digits = [digit(k), digit(k / 3), digit(k), digit(k / 7)];
        let texts = [account, bic(k), one, two, three, four];
        Lent { option: option(k), present, count, texts, digits }
    }

    /// 50L of a text of so many bytes.
    fn of_length(length: usize) -> Lent {
        let mut texts = [const { Vec::new() }; 6];
        texts[0] = vec![b'A'; length];
        Lent { option: Opt::L50, present: true, count: 0, texts, digits: [0; 4] }
    }

    /// None where it has more names than there is room for.
    fn record(&self) -> Option<Record> {
        let bic = if has_bic(self.option) { self.texts[1].clone() } else { Vec::new() };
        let party = self.present.then(|| self.texts[0].clone());
        let names = self.texts[2..].get(..self.count)?.to_vec();
        Some(Record { option: self.option, party, bic, names })
    }

    /// Which of the six texts are used.
    fn used(&self) -> String {
        let mut used = vec![self.present, has_bic(self.option)];
        used.extend((0..4).map(|at| at < self.count));
        used.into_iter().map(|used| if used { '1' } else { '0' }).collect()
    }

    /// The fields of the record, with the digits that it uses.
    fn fields(&self) -> String {
        let digits = if self.option == Opt::F50 { self.count.min(4) } else { 0 };
        let mut texts: Vec<&[u8]> = self.texts.iter().map(Vec::as_slice).collect();
        texts.push(&self.digits[..digits]);
        fields(self.option as u8, u8::from(self.present), self.count, &texts)
    }
}

// The pages.

/// The bytes of a field before its body.
fn tag(option: Opt) -> usize {
    option.name().len() + 2
}

/// Whether a page carries a written body: no line of it ends in CR, the last is not empty, and none
/// after the first starts with a colon or would be an end line.
fn is_carried(body: &[u8]) -> bool {
    let lines: Vec<&[u8]> = body.split(|&byte| byte == b'\n').collect();
    let opens_or_ends = |line: &&[u8]| matches!(*line, [b':', ..] | b"-" | b"-}");
    let ends_in_cr = |line: &&[u8]| line.last() == Some(&b'\r');
    lines.last().is_some_and(|line| !line.is_empty())
        && !lines.iter().any(ends_in_cr)
        && !lines[1..].iter().any(opens_or_ends)
}

/// A field of the page: its bytes with the LF, and what a read there gives.
#[derive(Clone)]
struct Field {
    bytes: Vec<u8>,
    number: u8,
    line: usize,
    /// The number of the record, 0 for none.
    record: usize,
    /// The body's place in the field, and its length; none where there is no tag.
    body: Option<(usize, usize)>,
}

/// A record that was defined: its number, its option, and what ours writes of it.
#[derive(Clone)]
struct Defined {
    number: usize,
    option: Opt,
    written: Option<Vec<u8>>,
}

#[derive(Default)]
struct Calls {
    text: String,
    records: usize,
    fields: Vec<Field>,
}

impl Calls {
    fn call(&mut self, fields: &[usize]) {
        let fields: Vec<String> = fields.iter().map(usize::to_string).collect();
        self.text.push_str(&format!("{}\n", fields.join("\t")));
    }

    fn comment(&mut self, text: &str) {
        self.text.push_str(&format!("#\n# {text}\n"));
    }

    fn define(&mut self, used: &str, fields: &str, written: &[u8]) -> usize {
        self.records += 1;
        self.text.push_str(&format!("3\t{used}\t{fields}\t{}\n", escaped(written)));
        self.records
    }

    fn lent(&mut self, lent: &Lent) -> Result<Defined, String> {
        let written = match lent.record() {
            Some(record) => expected::written(&record, &lent.digits)?,
            None => None,
        };
        let due = written.as_deref().unwrap_or_default();
        let number = self.define(&lent.used(), &lent.fields(), due);
        Ok(Defined { number, option: lent.option, written })
    }

    /// The page's length, which is the position to add at.
    fn length(&self) -> usize {
        self.fields.iter().map(|field| field.bytes.len()).sum()
    }

    fn begin(&mut self) {
        self.fields.clear();
        self.call(&[4]);
    }

    /// Adds a record, and gives the number of the refusal, 0 for none.
    fn add(&mut self, defined: &Defined, indexed: bool) -> u8 {
        let function = if indexed { 6 } else { 5 };
        let number = self.refusal(defined, indexed);
        if let (0, Some(written)) = (number, &defined.written) {
            let body = (tag(defined.option), written.len() - tag(defined.option));
            self.fields.push(Field {
                bytes: [written, &b"\n"[..]].concat(),
                number: 0,
                line: 0,
                record: defined.number,
                body: Some(body),
            });
        }
        let position = if number == 0 { self.length() } else { 0 };
        self.call(&[function, number.into(), position, defined.number]);
        number
    }

    fn refusal(&self, defined: &Defined, indexed: bool) -> u8 {
        let Some(written) = &defined.written else {
            return 22;
        };
        if !is_carried(&written[tag(defined.option)..]) {
            return 23;
        }
        if self.length() + written.len() + 3 > PAGE {
            return 24;
        }
        if indexed && self.fields.len() == ENTRIES { 31 } else { 0 }
    }

    fn close(&mut self) -> usize {
        let length = self.length() + 2;
        self.call(&[7, 0, length]);
        length
    }

    /// Reads every field in its turn, and the end of a page of a length.
    fn read_all(&mut self, length: usize) {
        let mut at = 0;
        for field in self.fields.clone() {
            self.found(8, at, at, &field);
            at += field.bytes.len();
        }
        self.call(&[8, at, 0, 0, 1, length - at, 0, 0, 0]);
        for (at, number) in [(1, 21), (length, 17), (length + 1, 21)] {
            self.refused(8, at, number);
        }
    }

    /// Looks up every field, and two that the index has not got.
    fn look_all(&mut self) {
        let mut at = 0;
        self.refused(9, 0, 31);
        for (k, field) in self.fields.clone().iter().enumerate() {
            self.found(9, k + 1, at, field);
            at += field.bytes.len();
        }
        self.refused(9, self.fields.len() + 1, 31);
    }

    /// A read at a position, or a lookup of a field by its count, of the field that stands at a
    /// position: number, line, end, bytes moved past, record, and the body's place.
    fn found(&mut self, function: usize, asked: usize, at: usize, field: &Field) {
        let (start, body) = field.body.map_or((0, 0), |(start, body)| (at + start, body));
        let Field { bytes, number, line, record, .. } = field;
        let number = usize::from(*number);
        self.call(&[function, asked, number, *line, 0, bytes.len(), *record, start, body]);
    }

    fn refused(&mut self, function: usize, asked: usize, number: usize) {
        self.call(&[function, asked, number, 0, 0, 0, 0, 0, 0]);
    }

    /// Overwrites the field at a place among the fields.
    fn overwrite(&mut self, place: usize, option: Opt, new: &[u8]) -> Result<(), String> {
        let at = self.fields[..place].iter().map(|field| field.bytes.len()).sum::<usize>();
        let old = self.fields[place].bytes.len();
        let bytes = [new, b"\r\n"].concat();
        self.text.push_str(&format!("10\t{at}\t{old}\t{}\n", escaped(&bytes)));
        self.fields[place] = self.overwritten(option, bytes)?;
        Ok(())
    }

    /// What is read of a field of these bytes, which end in CR LF: 15 where it has lost its tag.
    fn overwritten(&mut self, option: Opt, bytes: Vec<u8>) -> Result<Field, String> {
        let tagged = format!(":{}:", option.name());
        let Some(body) = bytes.strip_prefix(tagged.as_bytes()) else {
            return Ok(Field { bytes, number: 15, line: 0, record: 0, body: None });
        };
        let body = &body[..body.len() - 2];
        let place = Some((tagged.len(), body.len()));
        let answer = match expected::refused(Call::Parse, body) {
            Some((number, _)) => Answer::Refused { number, line: 0 },
            None => {
                let body = String::from_utf8(body.to_vec()).expect("ASCII");
                let case = Case::option(option, body);
                expected::answer(&case, reference::answer(&case)?)?.answer
            }
        };
        let (number, line, found) = match answer {
            Answer::Read { record: read, written } => {
                let digits = rules::digits(&read, body);
                (0, 0, self.define("111111", &record(&read, &digits), &written))
            }
            Answer::Refused { number, line } => (number, line, 0),
            Answer::Panicked => return Err("the Rust panics".to_string()),
        };
        Ok(Field { bytes, number, line, record: found, body: place })
    }
}

/// The new bytes of the field of record k: the old ones with another tag, with an illegal byte or
/// one above 127, cut short, or with a line more.
fn new_bytes(k: usize, old: &[u8]) -> Vec<u8> {
    let mut new = old.to_vec();
    match k % 25 {
        3 => new[1] = b'7',
        8 => new[6] = b'~',
        13 => new[6] = 200,
        18 => new.truncate(7),
        _ => new.extend_from_slice(b"\nMORE"),
    }
    new
}

/// The calls, a line each.
pub fn calls() -> Result<String, String> {
    let mut calls = Calls::default();
    calls.comment("a page: records until there is no space; closed, read, every fifth field overwritten, read again");
    calls.begin();
    let (mut defined, mut filed) = (Vec::new(), Vec::new());
    loop {
        let k = defined.len();
        defined.push(calls.lent(&Lent::new(k))?);
        match calls.add(&defined[k], false) {
            0 => filed.push(k),
            24 => break,
            _ => (),
        }
    }
    // one byte too many for the rest of the page, and just as many as there is space for
    let rest = PAGE - 3 - tag(Opt::L50) - calls.length();
    for length in [rest + 1, rest] {
        let lent = calls.lent(&Lent::of_length(length))?;
        calls.add(&lent, false);
    }
    let length = calls.close();
    calls.read_all(length);
    for (place, &k) in filed.iter().enumerate().filter(|(_, k)| **k % 5 == 3) {
        let old = defined[k].written.clone().unwrap_or_default();
        calls.overwrite(place, defined[k].option, &new_bytes(k, &old))?;
    }
    let length = calls.length() + 2;
    calls.read_all(length);
    calls.comment("a page with an index: records until no entry is free, and more; every field looked up, on the open page and on the closed one");
    calls.begin();
    for defined in &defined[..TRIED] {
        calls.add(defined, true);
    }
    calls.look_all();
    calls.close();
    calls.look_all();
    Ok(calls.text)
}
