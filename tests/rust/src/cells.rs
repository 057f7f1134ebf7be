//! Which answers each reader can give by the rules, for each way to call it.

use crate::model::{Answer, Call, Case, Opt, Reader};

/// How a reader is called, with the letters in kinds.
#[derive(Clone, Copy, Debug, PartialEq, Eq, PartialOrd, Ord)]
pub enum Way {
    Parse,
    NoLetter,
    /// A letter that an option of the choice has.
    Own(u8),
    OtherCapital,
    LowerCase,
    Digit,
    OtherByte,
}

impl Way {
    pub fn of(case: &Case) -> Way {
        match case.call {
            Call::Parse => Way::Parse,
            Call::NoLetter => Way::NoLetter,
            Call::Letter(letter) if case.reader.picked(case.call).is_some() => Way::Own(letter),
            Call::Letter(b'A'..=b'Z') => Way::OtherCapital,
            Call::Letter(b'a'..=b'z') => Way::LowerCase,
            Call::Letter(b'0'..=b'9') => Way::Digit,
            Call::Letter(_) => Way::OtherByte,
        }
    }

    pub fn all(reader: Reader) -> Vec<Way> {
        let mut ways = vec![Way::Parse];
        if let Reader::Choice(choice) = reader {
            ways.push(Way::NoLetter);
            let letters = choice.options().iter().filter_map(|option| option.letter());
            ways.extend(letters.map(Way::Own));
            ways.extend([Way::OtherCapital, Way::LowerCase, Way::Digit, Way::OtherByte]);
        }
        ways
    }

    pub fn name(self) -> String {
        match self {
            Way::Parse => "parse".to_string(),
            Way::NoLetter => "no letter".to_string(),
            Way::Own(letter) => char::from(letter).to_string(),
            Way::OtherCapital => "other capital".to_string(),
            Way::LowerCase => "lower case".to_string(),
            Way::Digit => "digit".to_string(),
            Way::OtherByte => "other byte".to_string(),
        }
    }

    /// Some calls of this way.
    pub fn calls(self, reader: Reader) -> Vec<Call> {
        let letters: Vec<u8> = match self {
            Way::Parse => return vec![Call::Parse],
            Way::NoLetter => return vec![Call::NoLetter],
            Way::Own(letter) => vec![letter],
            Way::OtherCapital => b"ABCFGHKLYZ".to_vec(),
            Way::LowerCase => b"acfz".to_vec(),
            Way::Digit => b"059".to_vec(),
            Way::OtherByte => b"\x01\t\n /:@[`{~\x7f".to_vec(),
        };
        let calls = letters.into_iter().map(Call::Letter);
        let own = |call: &Call| reader.picked(*call).is_some();
        calls.filter(|call| own(call) == matches!(self, Way::Own(_))).collect()
    }

    /// Whether the letter itself is refused.
    pub fn is_refused(self) -> bool {
        matches!(self, Way::LowerCase | Way::Digit | Way::OtherByte)
    }

    /// The option that a call of this way picks; none where it detects or is refused.
    pub fn picked(self, reader: Reader) -> Option<Opt> {
        match self {
            Way::Parse => reader.picked(Call::Parse),
            Way::NoLetter => reader.picked(Call::NoLetter),
            Way::Own(letter) => reader.picked(Call::Letter(letter)),
            _ => None,
        }
    }
}

/// Lines up to this one have a row each; those from `LATER` on share one.
pub const LATER: usize = 12;

/// A row of the coverage tables.
#[derive(Clone, Copy, Debug, PartialEq, Eq, PartialOrd, Ord)]
pub enum Cell {
    Read(Opt),
    /// The number, and the line or `LATER`.
    Refused(u8, usize),
}

impl Cell {
    pub fn of(answer: &Answer) -> Option<Cell> {
        match answer {
            Answer::Read { record, .. } => Some(Cell::Read(record.option)),
            Answer::Refused { number, line } => Some(Cell::Refused(*number, (*line).min(LATER))),
            Answer::Panicked => None,
        }
    }

    pub fn name(self) -> String {
        match self {
            Cell::Read(option) => format!("accepted as {}", option.name()),
            Cell::Refused(number, LATER) => format!("{number}, line {LATER} and on"),
            Cell::Refused(number, line) => format!("{number}, line {line}"),
        }
    }
}

/// The refusals of an option's own: number, first line and last line.
///
/// Why no others: 50 counts its lines before it tests them. 50A, 50G and 59A have a first line and
/// a BIC, so line 1 or 2. 50C and 50L are one line. 50F, 50K, 50H and 59 test every line before
/// they count, so the line has no end but the body's. 59F does too, but a digit stops at 9: the
/// tenth numbered line, line 10 or, after an identifier, 11, is 5 or 6 whatever it holds. 59 and
/// 59A take a first line that is too long for an account as a name or a BIC, so no 2. The account
/// of 50H is not tested for its bytes, so no 3 at line 1.
pub fn refusals(option: Opt) -> &'static [(u8, usize, usize)] {
    match option {
        Opt::N50 => &[(1, 0, 0), (3, 1, 4), (4, 1, 4)],
        Opt::A50 => &[(1, 0, 0), (2, 1, 1), (3, 1, 1), (8, 0, 0), (9, 1, 2), (10, 1, 2)],
        Opt::F50 => &[(1, 0, 0), (2, 1, 1), (3, 1, LATER), (4, 2, LATER), (5, 2, LATER), (7, 0, 0)],
        Opt::K50 => &[(1, 0, 0), (2, 1, 1), (3, 1, LATER), (4, 1, LATER), (7, 0, 0)],
        Opt::C50 => &[(9, 1, 1), (10, 1, 1)],
        Opt::L50 => &[(1, 0, 0), (2, 1, 1), (3, 1, 1)],
        Opt::G50 => &[(1, 0, 0), (2, 1, 1), (3, 1, 1), (9, 2, 2), (10, 2, 2)],
        Opt::H50 => &[(1, 0, 0), (2, 1, 1), (3, 2, LATER), (4, 2, LATER), (7, 0, 0)],
        Opt::N59 => &[(1, 0, 0), (3, 1, LATER), (4, 1, LATER), (7, 0, 0)],
        Opt::A59 => &[(1, 0, 0), (3, 1, 1), (8, 0, 0), (9, 1, 2), (10, 1, 2)],
        Opt::F59 => {
            &[(1, 0, 0), (2, 1, 1), (3, 1, 10), (4, 1, 10), (5, 1, 11), (6, 1, 11), (7, 0, 0)]
        }
    }
}

/// The last line that a refusal of the option can name in a body of 2,048 bytes, where it is
/// later than `LATER`. The shortest lines come first: empty names, or `1/` after `X`, or `/A` and
/// then empty names; and then the shortest line at fault.
pub const LAST_LINES: [(Opt, u8, usize); 9] = [
    (Opt::F50, 3, 683),
    (Opt::F50, 4, 672),
    (Opt::F50, 5, 683),
    (Opt::K50, 3, 2048),
    (Opt::K50, 4, 2013),
    (Opt::H50, 3, 2046),
    (Opt::H50, 4, 2011),
    (Opt::N59, 3, 2048),
    (Opt::N59, 4, 2013),
];

fn option_cells(option: Opt) -> Vec<Cell> {
    let mut cells = vec![Cell::Read(option)];
    for &(number, first, last) in refusals(option) {
        cells.extend((first..=last).map(|line| Cell::Refused(number, line)));
    }
    cells
}

/// The cells that a reader can reach when it is called in this way.
pub fn reachable(reader: Reader, way: Way) -> Vec<Cell> {
    if way.is_refused() {
        return vec![Cell::Refused(14, 0)];
    }
    let mut cells = match way.picked(reader) {
        Some(option) => option_cells(option),
        None => {
            let options = reader.options().iter().copied();
            let read = options.map(Cell::Read);
            read.chain([Cell::Refused(11, 0)]).collect()
        }
    };
    cells.extend([Cell::Refused(12, 0), Cell::Refused(13, 0)]);
    cells
}
