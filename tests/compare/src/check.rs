//! Both asked, and their answers compared, with every byte that was lent.

use crate::flat::{self, Flat};
use crate::generate::Family;
use crate::tally::Tally;
use party_answers::expected::{self, Expected};
use party_answers::format::escaped;
use party_answers::model::{Answer, Call, Case, Choice, Opt, Reader};
use party_answers::random::Random;
use party_answers::reference;
use party_answers::rules::{self, LONGEST_BODY};
use party_compare::ours;
use std::hint::black_box;

/// Stale bytes before what is lent, and the length of the room.
const BEFORE: usize = 32;
const ROOM: usize = 320;
/// How many bytes more than it has a record is lent in, at most.
const MOST_MORE: usize = 2;
const OPTIONS: u8 = Opt::ALL.len() as u8;
const CHOICES: u8 = Choice::ALL.len() as u8;

/// A case whose answers differ.
pub struct Failure {
    pub reader: Reader,
    pub call: Call,
    pub body: Vec<u8>,
    pub what: String,
    /// Whether the case shows it when it is asked alone.
    pub alone: bool,
}

pub struct Checker {
    pub tally: Tally,
    stale: [u8; ROOM],
    room: [u8; ROOM],
}

impl Checker {
    pub fn new() -> Checker {
        Checker { tally: Tally::default(), stale: [0xa5; ROOM], room: [0; ROOM] }
    }

    /// Chooses the stale bytes anew.
    pub fn stale(&mut self, random: &mut Random) {
        self.stale.fill_with(|| random.below(256) as u8);
    }

    /// Asks all the readers; with `letters` the choices without a letter, with each of A to Z and
    /// with another byte too.
    pub fn body(
        &mut self,
        family: Family,
        body: &[u8],
        letters: bool,
        random: &mut Random,
    ) -> Result<(), Failure> {
        let other = other_letter(random);
        let mut readings = 0;
        let mut case = None;
        if expected::refused(Call::Parse, body).is_none() {
            let body = String::from_utf8(body.to_vec()).expect("ASCII");
            case = Some(Case { reader: Reader::Option(Opt::N50), call: Call::Parse, body });
        }
        let mut ask = |checker: &mut Checker, reader, call| {
            readings += 1;
            let done = match &mut case {
                Some(case) if expected::refused(call, &[]).is_none() => {
                    (case.reader, case.call) = (reader, call);
                    checker.case(case)
                }
                _ => checker.refused(reader, call, body).map(|()| None),
            };
            let failed = |what, alone| Failure { reader, call, body: body.to_vec(), what, alone };
            match done.map_err(|what| failed(what, true))? {
                Some(flat) if matches!(reader, Reader::Option(_)) && random.one_in(4) => {
                    checker.damaged(&flat, random).map_err(|what| failed(what, false))
                }
                _ => Ok(()),
            }
        };
        for reader in Reader::all() {
            ask(self, reader, Call::Parse)?;
        }
        if letters {
            for choice in Choice::ALL.map(Reader::Choice) {
                ask(self, choice, Call::NoLetter)?;
                for letter in b'A'..=b'Z' {
                    ask(self, choice, Call::Letter(letter))?;
                }
                ask(self, choice, Call::Letter(other))?;
            }
            self.tally.all_letters += 1;
        }
        self.tally.body(family, readings);
        let changed = case.filter(|case| black_box(case.body.as_bytes()) != body);
        changed.map_or(Ok(()), |case| {
            let what = "reading changed the body".to_string();
            let Case { reader, call, .. } = case;
            Err(Failure { reader, call, body: body.to_vec(), what, alone: false })
        })
    }

    /// One case of any bytes.
    pub fn one(&mut self, reader: Reader, call: Call, body: &[u8]) -> Result<(), String> {
        if expected::refused(call, body).is_some() {
            return self.refused(reader, call, body);
        }
        let body = String::from_utf8(body.to_vec()).expect("ASCII");
        self.case(&Case { reader, call, body }).map(drop)
    }

    /// A body or letter that a rule refuses. The Rust is not asked.
    fn refused(&mut self, reader: Reader, call: Call, body: &[u8]) -> Result<(), String> {
        let Some((number, rule)) = expected::refused(call, body) else {
            return Err("no rule refuses it".to_string());
        };
        let answer = Answer::Refused { number, line: 0 };
        self.tally.answer(reader, call, &answer, Some(rule));
        self.read(reader, call, body, &answer).map(drop)
    }

    /// A case that both are asked. Gives the record's bytes where there is one.
    fn case(&mut self, case: &Case) -> Result<Option<Flat>, String> {
        let Expected { answer, rule, in_turn } = expected::answer(case, reference::answer(case)?)?;
        self.tally.answer(case.reader, case.call, &answer, rule);
        let flat = self.read(case.reader, case.call, case.body.as_bytes(), &answer)?;
        if let (Answer::Read { written, .. }, Some(flat)) = (&answer, &flat) {
            self.tally.records += 1;
            self.write(flat, Ok(written))?;
            if let Some(text) = in_turn {
                let set = self.write(&flat::in_turn(flat), Ok(&text));
                set.map_err(|what| format!("digits set to 1, 2, 3, 4: {what}"))?;
            }
        }
        Ok(flat)
    }

    fn read(
        &mut self,
        reader: Reader,
        call: Call,
        body: &[u8],
        answer: &Answer,
    ) -> Result<Option<Flat>, String> {
        let (code, flat) = match answer {
            Answer::Read { record, .. } => {
                (0, Some(flat::of(record, &rules::digits(record, body))))
            }
            Answer::Refused { number, line } => (ours::code(*number, *line), None),
            Answer::Panicked => return Err("the Rust panics".to_string()),
        };
        self.room = self.stale;
        let lent = BEFORE..BEFORE + flat::LENGTH + body.len() % (MOST_MORE + 1);
        let given = ours::ask(reader, call, body, &mut self.room[lent]);
        if given != code {
            let [code, given] = [code, given].map(|code| ours::told(code, "a record"));
            return Err(format!("expected {code}; ours {given}"));
        }
        self.room_has(flat.as_ref().map_or(&[], |flat| flat)).map_err(|(at, what)| {
            let field = flat.as_ref().and(at).filter(|at| *at < flat::LENGTH).map(flat::field);
            format!("record, {}: {what}", field.unwrap_or("stale bytes".to_string()))
        })?;
        Ok(flat)
    }

    /// Has ours measure a record and place it in buffers of several lengths; a refusal is expected
    /// where there is no text. The record is lent with no byte more, one, and two.
    fn write(&mut self, flat: &Flat, written: Result<&[u8], u8>) -> Result<(), String> {
        let length = written.map_or(ours::LONGEST_FIELD + 1, <[u8]>::len);
        let mut record = [0; flat::LENGTH + MOST_MORE];
        record[..flat::LENGTH].copy_from_slice(flat);
        record[flat::LENGTH..].copy_from_slice(&self.stale[..MOST_MORE]);
        let before = record;
        for more in 0..=MOST_MORE {
            let lent = length - 1 + more;
            let (code, text) = match written {
                Err(number) => (ours::code(number, 0), &[][..]),
                Ok(_) if lent < length => (ours::code(24, 0), &[][..]),
                Ok(written) => (length as u32, written),
            };
            self.tally.buffers += 1;
            self.room = self.stale;
            let lent_record = &record[..flat::LENGTH + more];
            check_measure(lent_record, written)?;
            let given = ours::place(lent_record, &mut self.room[BEFORE..BEFORE + lent]);
            if given != code {
                let [code, given] = [code, given].map(|code| ours::told(code, "written"));
                return Err(format!("a buffer of {lent}: expected {code}; ours {given}"));
            }
            self.room_has(text).map_err(|(_, what)| format!("a buffer of {lent}: {what}"))?;
            if *black_box(&record) != before {
                return Err("writing changed the record".to_string());
            }
        }
        Ok(())
    }

    /// The lent part must start with the text, and every other byte of the room be as it was.
    /// Otherwise gives the first place that is not so, from the start of what was lent.
    fn room_has(&self, text: &[u8]) -> Result<(), (Option<usize>, String)> {
        let end = BEFORE + text.len();
        let same = self.room[..BEFORE] == self.stale[..BEFORE]
            && self.room[BEFORE..end] == *text
            && self.room[end..] == self.stale[end..];
        if same {
            return Ok(());
        }
        let mut wanted = self.stale;
        wanted[BEFORE..end].copy_from_slice(text);
        let at = (0..ROOM).find(|&at| wanted[at] != self.room[at]).unwrap_or(ROOM);
        let lent_at = at as isize - BEFORE as isize;
        let (expected, ours) = (wanted[at], self.room[at]);
        let what = format!("at {lent_at} of what was lent, expected {expected}; ours {ours}");
        Err((at.checked_sub(BEFORE), what))
    }

    /// A damaged copy of a record: written as the Rust does, or 41 or 22.
    fn damaged(&mut self, flat: &Flat, random: &mut Random) -> Result<(), String> {
        let mut flat = *flat;
        for _ in 0..=random.below(2) {
            damage(&mut flat, random);
        }
        let written = match flat::record(&flat) {
            Some(record) => expected::written(&record, &flat[flat::FIRST_DIGIT..])?,
            None => None,
        };
        let written = match (written, flat[0] < OPTIONS) {
            (Some(written), _) => Ok(written),
            (None, true) => Err(22),
            (None, false) => Err(41),
        };
        match written {
            Ok(_) => self.tally.damaged += 1,
            Err(22) => self.tally.no_such += 1,
            Err(_) => self.tally.no_option += 1,
        }
        self.write(&flat, written.as_deref().map_err(|number| *number))
            .map_err(|what| format!("{what}\n  the record {}", escaped(&flat)))
    }

    /// Calls that no body shows: records of other lengths, options, choices and letters that there
    /// are none of.
    pub fn edges(&mut self) -> Result<(), String> {
        self.edges_of_readers()?;
        self.edges_of_records()
    }

    fn edges_of_readers(&mut self) -> Result<(), String> {
        let body = b"/1\nABCDEFGH";
        for lent in 0..flat::LENGTH {
            for place in [0, 6, 7, 255] {
                self.edge(42, |room| ours::read(place, body, &mut room[..lent]))?;
                self.edge(42, |room| ours::parse(place, body, &mut room[..lent]))?;
                self.edge(42, |room| {
                    ours::parse_with_variant(place, body, b'c', &mut room[..lent])
                })?;
            }
        }
        for place in CHOICES..=255 {
            if place >= OPTIONS {
                self.edge(41, |room| ours::read(place, body, room))?;
            }
            self.edge(41, |room| ours::parse(place, body, room))?;
            self.edge(41, |room| ours::parse_with_variant(place, body, b'c', room))?;
        }
        for letter in (1..=255u8).filter(|letter| !letter.is_ascii_uppercase()) {
            for choice in 0..CHOICES {
                for body in [&body[..], b"", b"\xff", &[b'A'; LONGEST_BODY + 1]] {
                    self.edge(14, |room| ours::parse_with_variant(choice, body, letter, room))?;
                }
            }
        }
        Ok(())
    }

    /// The records are of one byte alone: of a place that an option has, no reader gives them.
    fn edges_of_records(&mut self) -> Result<(), String> {
        for place in 0..=255 {
            for lent in 0..=ROOM {
                let record = &[place; ROOM][..lent];
                let (written, unplaced) = match (lent < flat::LENGTH, place < OPTIONS) {
                    (true, _) => (42, 42),
                    (false, false) => (41, 41),
                    (false, true) => (22, 21),
                };
                self.edge(written, |_| ours::measure(record))?;
                self.edge(written, |room| ours::place(record, room))?;
                self.edge(written, |room| ours::add(record, room, 0))?;
                self.edge(unplaced, |room| ours::add(record, room, ROOM))?;
            }
        }
        Ok(())
    }

    fn edge(&mut self, number: u8, call: impl Fn(&mut [u8]) -> u32) -> Result<(), String> {
        self.tally.edges += 1;
        self.room = self.stale;
        let given = call(&mut self.room[BEFORE..ROOM - BEFORE]);
        if given != ours::code(number, 0) {
            return Err(format!("expected {number}; ours {}", ours::told(given, "accepted")));
        }
        self.room_has(&[]).map_err(|(_, what)| what)
    }
}

/// Measuring must give the length of the text, or the refusal.
fn check_measure(record: &[u8], written: Result<&[u8], u8>) -> Result<(), String> {
    let code = written.map_or_else(|number| ours::code(number, 0), |text| text.len() as u32);
    let given = ours::measure(record);
    if given == code {
        return Ok(());
    }
    let [code, given] = [code, given].map(|code| ours::told(code, "measured"));
    Err(format!("measuring: expected {code}; ours {given}"))
}

/// A letter that is 14 by the rules.
fn other_letter(random: &mut Random) -> u8 {
    let letter = 1 + random.below(255) as u8;
    if letter.is_ascii_uppercase() { letter.to_ascii_lowercase() } else { letter }
}

/// One damage to a record: its option, presence, count, a length, a byte used, a digit, or any byte.
fn damage(flat: &mut Flat, random: &mut Random) {
    const SIGNS: &[u8] = b"\r\n\r\n//012Az ~\0:-\x80\xff";
    const DIGITS: &[u8] = b"0123456789\0\r\n/:A\xff";
    let text = flat::text_at(random.below(6));
    let used = usize::from(flat[text]).clamp(1, flat::LONGEST);
    match random.below(8) {
        0 => flat[0] = random.below(13) as u8,
        1 => flat[1] = random.below(3) as u8,
        2 => flat[2] = random.below(7) as u8,
        3 => flat[text] = random.pick(&[0, 1, 8, 11, 33, 34, 35, 36, 37, 38, 39, 255]),
        4 => flat[text] = flat[text].wrapping_add(random.pick(&[1, 255])),
        5 => flat[text + 1 + random.below(used)] = random.pick(SIGNS),
        6 => flat[flat::FIRST_DIGIT + random.below(flat::MOST_NAMES)] = random.pick(DIGITS),
        _ => flat[random.below(flat::LENGTH)] = random.below(256) as u8,
    }
}
